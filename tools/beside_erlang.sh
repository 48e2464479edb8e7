#!/bin/bash
# Reads values that another implementation of ASN.1 encodes by the JSON encoding rules.
#
# usage: tools/beside_erlang.sh
#
# The program is $ASN, or else ./asn. Debian's erlang-asn1 compiles the four modules in
# tools/beside_erlang and encodes 250 random values of the type of each; the program reads each by
# its type and writes it again. What it writes has to be the same JSON, but for what the two do
# otherwise: Erlang writes a value that is its component's DEFAULT, and doesn't sort a SET OF. The
# status is 1 where another value isn't the same, and 2 where Erlang can't be had (apt-get install
# erlang-asn1 erlang-dev). Erlang runs for at most two minutes, in 4 GB.
set -u
here=$(dirname -- "$(readlink -f -- "$0")")
asn=$(readlink -f -- "${ASN:-$here/../asn}")
command -v erl >/dev/null && erl -noshell -eval 'halt(case code:which(asn1ct) of non_existing -> 1; _ -> 0 end).' || {
    echo "Erlang can't be had: it takes the packages of apt-get install erlang-asn1 erlang-dev"
    exit 2
}
room=$(mktemp -d)
trap 'rm -rf "$room"' EXIT
cp "$here"/beside_erlang/*.asn "$here"/beside_erlang/*.erl "$room" && cd "$room" || exit 2
types="Report Ticket Call Lists"
(
    ulimit -v 4000000
    timeout 120 erl -noshell -eval "
        Types = ['${types// /\',\'}'],
        [ok = asn1ct:compile(atom_to_list(Type), [jer, maps]) || Type <- Types],
        [{ok, _} = c:c(Module) || Module <- [jsx, values]],
        values:print(250), halt()."
) || exit 2
for type in $types; do
    "$asn" convert -m "$type.asn" -t "$type" --lines --from jer --to jer "$type.values" >"$type.answers" || exit 1
done
python3 - $types <<'END'
import json
import sys


def alike(name, text):
    """Returns the value in JSON without what the two do otherwise."""
    value = json.loads(text)
    if name == "Report" and value.get("retries") == 3:
        del value["retries"]
    if name == "Lists":
        value["numbers"].sort()
    return value


same = other = 0
for name in sys.argv[1:]:
    with open(f"{name}.values") as made, open(f"{name}.answers") as given:
        for line, answer in zip(made, given, strict=True):
            if alike(name, line) == alike(name, answer):
                same += 1
            else:
                other += 1
                print(f"{name} {line.rstrip()}\n  {answer.rstrip()}")
print(f"{same} values are the same, {other} aren't")
sys.exit(1 if other or same != 1000 else 0)
END
