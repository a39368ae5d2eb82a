#!/usr/bin/env bash
# Times the reading and cutting of the largest lawful job: 200,000 cards in 16,400,000 bytes, each card of 80 columns, with
# a carriage return and a line feed. Prints the least processor time of five runs, in seconds, and the peak memory. The program is
# proved and built first, where it isn't fresh, unless PROGRAM is given.
# usage: bench_reading.sh [PROGRAM]
set -eu
case ${1:-} in -h | --help) sed -n '2,6s/^# //p' "$0"; exit 0 ;; esac
program=${1:-$("$(dirname "$0")/../../scripts/program.sh")}
job=$(mktemp)
trap 'rm -f "$job"' EXIT
printf -v card '*%079d\r' 0
{ yes "$card" || true; } | head -n 200000 >"$job"
[ "$(stat -c %s "$job")" = 16400000 ]
python3 "$(dirname "$0")/timed.py" "$job" "$program"
