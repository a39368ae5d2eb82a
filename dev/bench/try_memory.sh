#!/usr/bin/env bash
# Converts TESTPROB with its 1st, 2nd, .. allocation refused, up to the first run that has them all: each of those before must
# end because memory runs out, and that one with the whole problem. With arguments only these allocations are refused.
# There were 56 of them when this was written, and a run takes half a minute.
# usage: try_memory.sh [NUMBER..]
set -u
case ${1:-} in
    -h | --help)
        sed -n '2,5s/^# //p' "$0"
        exit 0
        ;;
esac
cd "$(dirname "$0")/../../crates/deck_tests" || exit 1

# What the conversion ends with where this allocation is refused.
ending() {
    rt try --test --fail-alloc "$1" -- memory::testprob_is_converted_or_memory_is_wanted 2>&1 |
        awk '/^test result: ok\. 1 passed/ { passed = 1 }
             /^ *(memory is wanted|the whole problem)$/ { sub(/^ */, ""); told = $0; tellings += 1 }
             END { print (passed && tellings == 1) ? told : "something else" }'
}

if [ "$#" -gt 0 ]; then
    failed=0
    for number in "$@"; do
        end=$(ending "$number")
        echo "allocation $number: $end"
        [ "$end" != "something else" ] || failed=1
    done
    exit "$failed"
fi

for number in $(seq 1 200); do
    end=$(ending "$number")
    echo "allocation $number: $end"
    case $end in
        "memory is wanted") ;;
        "the whole problem") [ "$number" -gt 1 ] && exit 0 || exit 1 ;;
        *) exit 1 ;;
    esac
done
echo "more than 200 allocations" >&2
exit 1
