#!/usr/bin/env bash
# A new user's way, timed: from the packages in a folder to the first rule that is refused from Python.
#
#   tools/first_rule.sh PACKAGES [--chroot FOLDER]
#
# PACKAGES is what tools/deb.sh has made. With --chroot the packages are installed by dpkg in that root folder of
# Debian 12 with python3, and purged afterwards; without it they are unpacked in an empty folder. Then the example of
# README.md is run. It prints the seconds, and fails where they are two minutes or the rule was not refused.
set -euo pipefail
packages=$(realpath "${1:?a folder with packages}")
root=''
[[ ${2:-} != --chroot ]] || root=$(realpath "${3:?a root folder}")
top=$(cd "$(dirname "${BASH_SOURCE[0]}")/.." && pwd)
example="
import pathlib, sys
sys.path.insert(0, '$top/tools')
sys.dont_write_bytecode = True
import languages
way = languages.ways()['first.py']
for name, text in way.files.items():
    pathlib.Path(sys.argv[1], name).write_text(text)
print(way.printed, end='')"
needed=("$packages"/libskewguard0_*.deb "$packages"/python3-skewguard_*.deb)
folder=$(mktemp -d ${root:+--tmpdir="$root/tmp"})
log=$(mktemp)

purge() {
    [[ -z $root ]] || inside dpkg --purge python3-skewguard libskewguard0 >>"$log" 2>&1 || true
    rm -rf "$folder" "$log"
}

inside() {
    env -i PATH=/usr/sbin:/usr/bin:/sbin:/bin LC_ALL=C.UTF-8 chroot "$root" "$@"
}

install_and_run() {
    cp "${needed[@]}" "$folder"
    local place=/tmp/${folder##*/}
    inside sh -c "dpkg -i $place/*.deb" >>"$log" 2>&1 || { cat "$log" >&2 && return 1; }
    inside sh -c "cd $place && python3 first.py"
}

unpack_and_run() {
    local package
    for package in "${needed[@]}"; do
        dpkg-deb -x "$package" "$folder"
    done
    cd "$folder"
    env -i PATH="$PATH" LD_LIBRARY_PATH=usr/lib/x86_64-linux-gnu PYTHONPATH=usr/lib/python3/dist-packages \
        python3 first.py
}

trap purge EXIT
started=$(date +%s.%N)
wanted=$(python3 -c "$example" "$folder")
if [[ -n $root ]]; then
    answer=$(install_and_run)
else
    answer=$(unpack_and_run)
fi
seconds=$(awk -v from="$started" -v to="$(date +%s.%N)" 'BEGIN { print to - from }')
[[ $answer == "$wanted" ]] || { echo "it prints $answer" >&2 && exit 1; }
echo "$answer"
printf 'the first rule was refused after %.1f seconds\n' "$seconds"
[[ ${seconds%.*} -lt 120 ]]
