#!/bin/sh
# Runs the proved program on a text under a limit on its memory that rises in steps. It has to end
# with status 5, or with 0 and the whole text; anything else is printed, and ends the script with
# status 1.
#
# usage: tools/limited_memory.sh [FIRST [LAST [STEP]]]      in MB: 30, 400 and 10 unless given
top=$(CDPATH= cd -- "$(dirname -- "$0")/.." && pwd) || exit 1
first=${1:-30}
last=${2:-400}
step=${3:-10}
program=$top/crates/asn_convert_main/out/asn_convert_main
"$top/asn_convert" --prove >/dev/null || exit 1
work=$(mktemp -d) || exit 1
trap 'rm -rf "$work"' EXIT
trap 'exit 130' INT TERM
python3 - "$work" <<'P'
import sys
work = sys.argv[1]
items = ",".join(str(k % 256) for k in range(1_000_000))
open(f"{work}/list.in", "w").write("jer avn SequenceOf<u8>\n[" + items + "]")
open(f"{work}/set.in", "w").write("avn jer SetOf<u8>\n{" + items + "}")
open(f"{work}/text.in", "w").write('jer avn Utf8String\n"' + "a\\u00e9" * 1_000_000 + '"')
open(f"{work}/deep.in", "w").write("avn jer Nest\n" + "{" * 60 + "}" * 60)
P
for input in "$work"/*.in; do
    "$program" <"$input" >"$input.whole" || { echo "$input: not done without a limit"; exit 1; }
    done=0
    size=$first
    while [ "$size" -le "$last" ]; do
        (ulimit -v $((size * 1024)) && exec "$program" <"$input" >"$input.out" 2>"$input.err")
        status=$?
        if [ "$status" -eq 0 ] && cmp -s "$input.out" "$input.whole"; then
            done=$((done + 1))
        elif [ "$status" -ne 5 ]; then
            echo "$(basename "$input") in $size MB: status $status"
            exit 1
        fi
        size=$((size + step))
    done
    echo "$(basename "$input"): done under $done of the limits, out of memory under the others"
done
