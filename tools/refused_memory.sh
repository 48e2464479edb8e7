#!/bin/sh
# Runs the tests of refused memory with one allocation refused after the other. A test says where
# its memory was refused; any other failure is a breach, is printed, and ends the script with status
# 1. Each run refuses one allocation in every test, and the tests share the allocations of what they
# run out among them (`crates/asn_memory_tests/src/pieces.rt`), so a share of runs is enough: it
# is checked that the last test of each subject needs no more. A run builds the program, which takes
# tens of seconds, so this is no part of the gate.
#
# usage: tools/refused_memory.sh [JOBS]      how many runs side by side: 1 unless given
top=$(CDPATH= cd -- "$(dirname -- "$0")/.." && pwd) || exit 1
cd "$top/crates/asn_memory_tests" || exit 1
jobs=${1:-1}
first=281
last=320
# The tests that no other test goes on from where they end.
ends="a_sequence_later a_document_later a_set_of a_set_after_a_refusal bits_after_a_refusal
a_normal_form an_object_after_a_refusal eighth_share"
work=$(mktemp -d) || exit 1
trap 'rm -rf "$work"' EXIT
trap 'exit 130' INT TERM
seq "$first" "$last" |
    xargs -P "$jobs" -I {} sh -c 'rt try --test --fail-alloc "$2" >"$1/$2.said" 2>&1' run "$work" {}
number=$first
refused=0
while [ "$number" -le "$last" ]; do
    said=$work/$number.said
    counts=$(awk -v ends="$ends" -v is_last="$((number == last))" '
        BEGIN { split(ends, list); for (k in list) is_end[list[k]] = 1 }
        /^test (requests|values)::/ { name = $2; sub(/.*::/, "", name) }
        /^test (requests|values)::/ && / ok$/ { passed += 1 }
        /^test (requests|values)::/ && / FAILED$/ {
            getline
            if (!/memory was refused/) breach = name " answered otherwise"
            else if (is_last && is_end[name]) breach = name " needs more allocations"
            else refused += 1
        }
        END { if (breach) print "breach:", breach; else print passed + 0, refused + 0 }' "$said")
    case $counts in
        breach*|"0 0")
            printf 'allocation %s: %s\n' "$number" "$counts"
            cat "$said"
            exit 1
            ;;
    esac
    printf 'allocation %s: %s tests passed, %s were refused it\n' "$number" $counts
    refused=$((refused + ${counts#* }))
    number=$((number + 1))
done
echo "$refused allocations were refused, and every test kept to its answers"
