#!/bin/bash
# Times the operations of frac128: nanoseconds for one, over each table of crates/bench, and for u - x*y at parts of 62 bits,
# where the plain operations give it, and of 120, where they are refused: the least of five runs.
# Usage: dev/bench/bench.sh [TURNS [PROGRAM]], where a turn is 64 operations.
set -eu
case ${1:-} in -h | --help) sed -n '2,4s/^# //p' "$0"; exit 0 ;; esac
turns=${1:-20000}
cd "$(dirname "$0")/../../crates/bench"
program=${2:-./out/bench}
[ -x "$program" ] || rt run >/dev/null

# the least processor time of five runs, in milliseconds
least() {
    local least= spent
    local TIMEFORMAT=%3U
    for _ in 1 2 3 4 5; do
        spent=$({ time "$program" "$1" "$2" "$3" >/dev/null; } 2>&1 | tr -d .)
        spent=$((10#$spent))
        if [ -z "$least" ] || [ "$spent" -lt "$least" ]; then least=$spent; fi
    done
    echo "$least"
}

printf '%-10s' table
for work in add sub mul div compare gcd; do printf '%9s' "$work"; done
printf '\n'
for table in whole short word related wide close; do
    printf '%-10s' "$table"
    for work in add sub mul div compare gcd; do
        idle=$(least "$table" "$work" 1)
        busy=$(least "$table" "$work" "$turns")
        printf '%9s' $(((busy - idle) * 1000000 / ((turns - 1) * 64)))
    done
    printf '\n'
done
for table in pivot widepivot; do
    idle=$(least "$table" subproduct 1)
    busy=$(least "$table" subproduct "$((turns / 10))")
    printf '%-10s subproduct %d\n' "$table" $(((busy - idle) * 1000000 / ((turns / 10 - 1) * 64)))
done
