#!/usr/bin/env bash
# Times the parser of the whole language on scripts of 25,000, 50,000 and 100,000 lines, and on 10 MB of open parentheses:
#
#     bench/parse.sh PROGRAM
#
# Each script ends with a statement that is none, so nothing runs, and the program names that byte.
set -euo pipefail
program=$(realpath "$1")
folder=$(mktemp -d)
trap 'rm -rf "$folder"' EXIT
: > "$folder/defs.sql"

# A line has some 80 bytes: a statement with a condition of three parts.
lines() {
    python3 - "$1" <<'PYTHON'
import sys
for n in range(int(sys.argv[1])):
    print(f"A: DELETE FROM ACCOUNTS WHERE OWNER = 'KIM' AND BALANCE BETWEEN {n} AND {n + 7} OR ID = {n};")
print("A: NONE")
PYTHON
}

for count in 25000 50000 100000; do
    lines "$count" > "$folder/script.sql"
    bytes=$(wc -c < "$folder/script.sql")
    start=$(date +%s.%N); "$program" replay "$folder/defs.sql" "$folder/script.sql" 2> "$folder/fault" || true
    middle=$(date +%s.%N); wc -l "$folder/script.sql" > /dev/null; end=$(date +%s.%N)
    python3 -c "import sys; n, b, s, m, e = map(float, sys.argv[1:]); print(f'{n:.0f} lines, {b / 1e6:.1f} MB: {m - s:.2f} s, {n / (m - s):,.0f} lines a second; wc -l {e - m:.3f} s')" \
        "$count" "$bytes" "$start" "$middle" "$end"
    cat "$folder/fault"
done

# A text that nests too deep is refused at once, however long it is.
{ printf 'A: DELETE FROM T WHERE '; head -c 10000000 /dev/zero | tr '\0' '('; } > "$folder/deep.sql"
start=$(date +%s.%N); "$program" replay "$folder/defs.sql" "$folder/deep.sql" || true; end=$(date +%s.%N)
python3 -c "import sys; print(f'10 MB of open parentheses: {float(sys.argv[2]) - float(sys.argv[1]):.2f} s')" "$start" "$end"
