#!/bin/sh
# Tries the wrong bodies that the gate doesn't: each file of tools/wrong_bodies/NAME/ is an edit of
# the crate NAME, in the form of a must-fail edit, and the prover has to refuse each. It runs
# `rt ci NAME..` in a copy of the repository that has these edits and no others, so what the gate
# proved on this machine of the same files isn't proved again, and an edit that was refused there
# isn't tried again. A crate is checked once more for its edits, and each
# edit takes some 12 s.
#
# usage: tools/wrong_bodies.sh [NAME..]      all that have such edits unless given
top=$(CDPATH= cd -- "$(dirname -- "$0")/.." && pwd) || exit 1
edits=$top/tools/wrong_bodies
[ $# -gt 0 ] || set -- $(ls "$edits")
for name; do
    if [ ! -d "$edits/$name" ]; then
        echo "tools/wrong_bodies has no folder $name" >&2
        exit 2
    fi
done
copy=$(mktemp -d) || exit 1
trap 'rm -rf "$copy"' EXIT
trap 'exit 130' INT TERM
mkdir "$copy/.git" && cp "$top/crates.txt" "$top/HANDLES" "$copy" &&
    (cd "$top" && tar -cf - --exclude=out --exclude=must-fail crates) | tar -xf - -C "$copy" || exit 1
for name; do
    cp -R "$edits/$name" "$copy/crates/$name/must-fail" || exit 1
done
given=$(find "$copy/crates" -name '*.edit' | wc -l)
(cd "$copy" && rt ci "$@") >"$copy/said" 2>&1
status=$?
grep -E 'must-fail|BAD EDIT|NOT (REFUSED|TRIED|PROVED)' "$copy/said"
refused=$(grep -c ': refused, as it must be' "$copy/said")
[ "$status" -eq 0 ] || tail -n 3 "$copy/said"
echo "$refused of $given wrong bodies are refused"
[ "$status" -eq 0 ] && [ "$refused" -eq "$given" ]
