#!/usr/bin/env bash
# Makes the Debian packages, and tries them in a root folder that has nothing of the toolchain.
#
#   tools/deb.sh OUT [--program FILE] [--library FOLDER] [--chroot FOLDER] [--untried]
#
# OUT gets skewguard (the program), libskewguard0 (the shared library), libskewguard-dev (header, static library,
# manual) and python3-skewguard, for Debian 12 on amd64. Without --program `rt run` proves and builds the program;
# without --library tools/c_library.py builds the library. A package is the same for the same files: times are
# SOURCE_DATE_EPOCH, or that of the last commit. It needs dpkg-dev, binutils, a C compiler, and Python 3 with its
# headers. Where lintian is installed, it looks at the packages.
#
# --chroot names a root folder of Debian 12 with python3, made before by
#   debootstrap --variant=minbase --include=python3 bookworm FOLDER
# and without it debootstrap makes one that goes afterwards. The packages are installed there, used and purged, so this
# wants root. --untried leaves that out.
set -Eeuo pipefail
trap 'echo "tools/deb.sh: line $LINENO: $BASH_COMMAND" >&2' ERR
umask 022
top=$(cd "$(dirname "${BASH_SOURCE[0]}")/.." && pwd)
triplet=x86_64-linux-gnu
libraries=usr/lib/$triplet
maintainer="Dovarihy maintainers <maintainers@users.noreply.dovarihy.example>"

usage() {
    sed -n '4p' "${BASH_SOURCE[0]}" | sed 's/^# *//' >&2
    exit 2
}

program='' library='' root='' out='' tried=yes
while (($#)); do
    case $1 in
        --program) program=$(realpath -e "${2:?}") && shift ;;
        --library) library=$(realpath -e "${2:?}") && shift ;;
        --chroot) root=$(realpath -e "${2:?}") && shift ;;
        --untried) tried= ;;
        -*) usage ;;
        *) [[ -z $out ]] || usage && out=$1 ;;
    esac
    shift
done
[[ -n $out ]] || usage
mkdir -p "$out"
out=$(realpath "$out")
version=$(sed -n 's/^const VERSION: &str = "\(.*\)";$/\1/p' "$top/crates/skewguard/src/commands.rt")
export SOURCE_DATE_EPOCH=${SOURCE_DATE_EPOCH:-$(git -C "$top" log -1 --format=%ct)}
work=$(mktemp -d)
trap clean_up EXIT

# The soname and the file of the shared library. The soname's number stands in the name of the package, and changes
# when a program that was built before no longer runs.
soname=libskewguard.so.0
shared=libskewguard.so.$version

build() {
    if [[ -z $program ]]; then
        (cd "$top/crates/skewguard" && rt run -- --version >&2)
        program=$top/crates/skewguard/out/skewguard
    fi
    if [[ -z $library ]]; then
        library=$work/library
        mkdir "$library"
        python3 "$top/tools/c_library.py" "$library" >&2
    fi
    local found
    found=$(objdump -p "$library/libskewguard.so" | sed -n 's/^ *SONAME *//p')
    [[ $found == "$soname" ]] || { echo "the shared library is $found, and not $soname" >&2 && exit 1; }
}

# Puts a file into the package that is being staged: mode, file, place.
put() {
    install -D -m "$1" "$2" "$stage/$3"
}

# A page of the manual, or another text, packed.
put_packed() {
    mkdir -p "$stage/$(dirname "$2")"
    gzip -9n <"$1" >"$stage/$2"
}

stage_skewguard() {
    put 755 "$program" usr/bin/skewguard
    strip --strip-all --remove-section=.comment --remove-section=.note "$stage/usr/bin/skewguard"
    put_packed "$top/packaging/skewguard.1" usr/share/man/man1/skewguard.1.gz
    put_packed "$top/CHANGELOG.md" usr/share/doc/skewguard/changelog.gz
    local example
    for example in "$top"/examples/*/*; do
        put 644 "$example" "usr/share/doc/skewguard/examples${example#"$top/examples"}"
    done
}

stage_libskewguard0() {
    put 644 "$library/libskewguard.so" "$libraries/$shared"
    strip --strip-unneeded --remove-section=.comment --remove-section=.note "$stage/$libraries/$shared"
    ln -s "$shared" "$stage/$libraries/$soname"
    mkdir -p "$stage/DEBIAN"
    echo "libskewguard 0 libskewguard0 (>= $version)" >"$stage/DEBIAN/shlibs"
    {
        echo "$soname libskewguard0 #MINVER#"
        echo "* Build-Depends-Package: libskewguard-dev"
        nm -D --defined-only "$stage/$libraries/$shared" | awk -v v="$version" '{ print " " $3 "@Base " v }' | sort
    } >"$stage/DEBIAN/symbols"
    echo "activate-noawait ldconfig" >"$stage/DEBIAN/triggers"
}

stage_libskewguard-dev() {
    put 644 "$top/bindings/c/skewguard.h" usr/include/skewguard.h
    put 644 "$library/libskewguard.a" "$libraries/libskewguard.a"
    strip --strip-debug --remove-section=.comment --enable-deterministic-archives "$stage/$libraries/libskewguard.a"
    ln -s "$soname" "$stage/$libraries/libskewguard.so"
    put_packed "$top/packaging/skewguard.3" usr/share/man/man3/skewguard.3.gz
    mkdir -p "$stage/$libraries/pkgconfig"
    sed "s/@VERSION@/$version/; s/@TRIPLET@/$triplet/" "$top/packaging/skewguard.pc" \
        >"$stage/$libraries/pkgconfig/skewguard.pc"
    chmod 644 "$stage/$libraries/pkgconfig/skewguard.pc"
}

stage_python3-skewguard() {
    local wheels=$work/wheel site=usr/lib/python3/dist-packages script
    mkdir -p "$wheels" "$stage/$site" "$stage/DEBIAN"
    (cd "$top/bindings/python/backend" &&
        python3 -B -c "import sys, wheels; wheels.build_wheel(sys.argv[1])" "$wheels")
    python3 -m zipfile -e "$wheels"/skewguard-*.whl "$stage/$site"
    rm "$stage/$site"/skewguard-*.dist-info/RECORD "$wheels"/*.whl
    [[ -f $stage/$site/skewguard/_native.abi3.so ]] # the extension, which a wheel without a compiler has not
    put 644 "$top/bindings/python/README.md" usr/share/doc/python3-skewguard/README.md
    for script in "$top"/bindings/python/examples/*.py; do
        put 644 "$script" "usr/share/doc/python3-skewguard/examples/$(basename "$script")"
    done
    put 755 "$top/packaging/python3-skewguard.postinst" DEBIAN/postinst
    put 755 "$top/packaging/python3-skewguard.prerm" DEBIAN/prerm
}

# What dpkg-shlibdeps finds that the files of the stage need.
needed() {
    mkdir -p "$work/debian"
    printf 'Source: skewguard\n\nPackage: skewguard\nArchitecture: any\n' >"$work/debian/control"
    (cd "$work" && dpkg-shlibdeps -O "$@" 2>"$work/shlibdeps" | sed -n 's/^shlibs:Depends=//p')
}

# What `find` prints of each file that is to be installed.
files_of_stage() {
    find "$stage" -type f ! -path "$stage/DEBIAN/*" -printf "$1"
}

# The control file: that of packaging, with its version, its size and what it needs.
write_control() {
    local name=$1 needs=''
    case $name in
        skewguard) needs=$(needed "$stage/usr/bin/skewguard") ;;
        libskewguard0) needs=$(needed "$stage/$libraries/$shared") ;;
        python3-skewguard) needs=$(needed "$stage"/usr/lib/python3/dist-packages/skewguard/*.so) ;;
    esac
    mkdir -p "$stage/DEBIAN"
    local size
    size=$(files_of_stage '%s\n' | awk '{ sum += int(($1 + 1023) / 1024) } END { print sum }')
    sed -e "s/@VERSION@/$version-1/" -e "s/@NEEDS@/$needs/" -e "s/@SIZE@/$size/" -e "s/@MAINTAINER@/$maintainer/" \
        "$top/packaging/$name.control" >"$stage/DEBIAN/control"
    files_of_stage '%P\n' | LC_ALL=C sort | (cd "$stage" && xargs -d '\n' md5sum >DEBIAN/md5sums)
}

# The package of a name, in a folder.
pack() {
    local name=$1 to=$2
    stage=$work/debian/$name
    rm -rf "$stage"
    mkdir -p "$stage"
    "stage_$name"
    put 644 "$top/packaging/copyright" "usr/share/doc/$name/copyright"
    sed -e "s/@VERSION@/$version-1/" -e "s/@MAINTAINER@/$maintainer/" \
        -e "s/@DATE@/$(LC_ALL=C date -u -R -d "@$SOURCE_DATE_EPOCH")/" "$top/packaging/changelog" >"$work/changelog"
    put_packed "$work/changelog" "usr/share/doc/$name/changelog.Debian.gz"
    write_control "$name"
    find "$stage" -exec touch --no-dereference --date="@$SOURCE_DATE_EPOCH" {} +
    dpkg-deb --root-owner-group -Zxz --build "$stage" "$to" >/dev/null
}

packages=(libskewguard0 libskewguard-dev python3-skewguard skewguard)

pack_all() {
    local name
    for name in "${packages[@]}"; do
        pack "$name" "$1"
    done
}

# The two programs in C of the trial: the manual's example, by the packages' header, with either library; the shared one
# as pkg-config says, where there is that.
compile_example() {
    local dev=$work/dev
    mkdir -p "$dev"
    dpkg-deb -x "$out"/libskewguard0_*.deb "$dev"
    dpkg-deb -x "$out"/libskewguard-dev_*.deb "$dev"
    python3 "$top/tools/languages.py" --manual >"$work/first.c"
    local words=(cc -std=c99 -Wall -Wextra -pedantic -Werror -O2 -I "$dev/usr/include" "$work/first.c")
    local linked=(-L "$dev/$libraries" -lskewguard)
    if command -v pkg-config >/dev/null; then
        export PKG_CONFIG_LIBDIR=$dev/$libraries/pkgconfig PKG_CONFIG_SYSROOT_DIR=$dev
        read -ra linked < <(PKG_CONFIG_ALLOW_SYSTEM_LIBS=1 pkg-config --libs skewguard)
    fi
    "${words[@]}" -o "$work/first" "${linked[@]}"
    "${words[@]}" -o "$work/first-static" "$dev/$libraries/libskewguard.a"
}

# Runs a command in the root folder, with nothing of this environment.
inside() {
    env -i PATH=/usr/sbin:/usr/bin:/sbin:/bin LC_ALL=C.UTF-8 DEBIAN_FRONTEND=noninteractive chroot "$root" "$@"
}

# What an earlier trial, or this one, may have left in the root folder.
purge() {
    inside dpkg --purge "${packages[@]}" >>"$work/dpkg.log" 2>&1
    rm -rf "$root/tmp/trial"
}

clean_up() {
    [[ -z $root || -z $tried ]] || purge || true
    rm -rf --one-file-system "$work"
}

try_all() {
    if [[ -z $root ]]; then
        root=$work/root
        debootstrap --variant=minbase --include=python3 bookworm "$root" >"$work/debootstrap.log" ||
            { cat "$work/debootstrap.log" >&2 && exit 1; }
    fi
    [[ ! -e $root/opt/rattle ]]
    compile_example
    local trial=$root/tmp/trial name before
    purge
    mkdir -p "$trial"
    cp "$out"/*.deb "$work/first" "$work/first-static" "$trial"
    before=$(inside dpkg-query -W)
    inside sh -c 'dpkg -i /tmp/trial/*.deb' >"$work/dpkg.log" 2>&1 || { cat "$work/dpkg.log" >&2 && exit 1; }
    [[ -z $(inside dpkg --audit) ]]
    for name in booking ledger on-call; do
        inside sh -c "cd /usr/share/doc/skewguard/examples/$name && skewguard replay defs.sql script.sql" |
            cmp - "$top/examples/$name/expected.txt"
    done
    [[ $(inside skewguard --version) == "skewguard $version" ]]
    for name in first first-static; do
        [[ $(inside "/tmp/trial/$name") == "KIM: REFUSED 10 23000 COVERED ALL" ]]
    done
    for name in booking ledger on_call; do
        inside python3 "/usr/share/doc/python3-skewguard/examples/$name.py" >"$work/answers"
        [[ -s $work/answers ]]
    done
    inside sh -c 'cd /tmp && python3 -c "import skewguard; print(skewguard.__version__)"' | grep -qx "$version"
    inside sh -c 'cd /tmp && python3 -c "import skewguard; print(skewguard.IMPLEMENTATION)"' | grep -qx C
    inside ldconfig -p | grep -q "$soname"
    [[ $(readlink "$root/$libraries/libskewguard.so") == "$soname" ]]
    for name in man1/skewguard.1 man3/skewguard.3; do
        zcat "$root/usr/share/man/$name.gz" 2>/dev/null | grep -q '^\.SH NAME' ||
            grep -q "path-exclude=/usr/share/man" -r "$root/etc/dpkg"
    done
    purge
    [[ $(inside dpkg-query -W) == "$before" ]]
    [[ -z $(find "$root/usr" -name '*skewguard*') ]]
}

build
rm -f "$out"/*skewguard*.deb
pack_all "$out"
mkdir "$work/again"
pack_all "$work/again"
for package in "$out"/*.deb; do
    cmp "$package" "$work/again/$(basename "$package")"
done
if command -v lintian >/dev/null; then
    suppressed=(--suppress-tags-from-file "$top/packaging/lintian-suppressed")
    lintian --allow-root --fail-on error,warning "${suppressed[@]}" "$out"/*.deb
fi
if [[ -n $tried ]]; then
    try_all
    echo "installed, used and purged in a root folder without the toolchain"
fi
ls -l "$out"/*.deb
