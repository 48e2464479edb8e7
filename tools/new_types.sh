#!/bin/sh
# Makes a repository in DIR for types of one's own: the crates of this library that a type and the
# codecs stand on, without their wrong bodies, and the crate `example_convert`, a program over four
# types to change into one's own. DIR must not exist yet, or be empty. What `rt ci` proved of these
# crates on this machine isn't proved there again.
#
# usage: tools/new_types.sh DIR
top=$(CDPATH= cd -- "$(dirname -- "$0")/.." && pwd) || exit 1
if [ $# -ne 1 ]; then
    echo "usage: tools/new_types.sh DIR" >&2
    exit 2
fi
if [ -n "$(ls -A "$1" 2>/dev/null)" ] || { [ -e "$1" ] && [ ! -d "$1" ]; }; then
    echo "$1 is there already, and isn't an empty folder" >&2
    exit 1
fi
mkdir -p "$1/crates" || exit 1
# The lines of crates.txt of the program and of all that it stands on.
awk -F: -v wanted=example_convert '
    /^[a-z]/ { lines[$1] = $0; order[++count] = $1; below[$1] = $2 }
    END {
        need[wanted] = 1
        do {
            grown = 0
            for (name in need) {
                split(below[name], parts, " ")
                for (k in parts)
                    if (parts[k] in lines && !(parts[k] in need)) { need[parts[k]] = 1; grown = 1 }
            }
        } while (grown)
        for (k = 1; k <= count; k++) if (order[k] in need) print lines[order[k]]
    }' "$top/crates.txt" >"$1/crates.txt" || exit 1
sed 's/:.*//' "$1/crates.txt" | while read -r name; do
    (cd "$top/crates" && tar -cf - --exclude=out --exclude=must-fail "$name") |
        tar -xf - -C "$1/crates" || exit 1
done || exit 1
cp "$top/HANDLES" "$top/.gitignore" "$1" || exit 1
git init -q "$1" || exit 1
cat <<END
$1 is ready. Go on in $1/crates/example_convert:
    rt try -- jer data/alarm.json       runs the program from its sources, unproved
    rt fmt                              lays out what you changed
and in $1:
    rt ci example_convert               proves it; what is proved on this machine isn't proved again
    rt ci                               the same of all crates, and leaves the program in its out/
END
