#!/usr/bin/env bash
# Times whole runs that convert a deck of the greatest size (1,000 rows, 5,000 columns, 50,000 entries, one set of 999 right-hand sides and
# one of 5,000 bounds) and then revise it: by no card, and by 50,000 cards under MODIFY of COLUMNS (one for each entry), of RHS and of
# BOUNDS, in orders that jump about. Prints for each the last line of its listing, the least processor time of five runs, in seconds, and
# the peak memory: the difference from the run by no card is what the cards cost. The program is proved and built first, where it isn't
# fresh, unless PROGRAM is given.
# usage: bench_revising.sh [PROGRAM]
set -eu
case ${1:-} in -h | --help) sed -n '2,7s/^# //p' "$0"; exit 0 ;; esac
program=${1:-$("$(dirname "$0")/../../scripts/program.sh")}
job=$(mktemp)
trap 'rm -f "$job"' EXIT
for section in none COLUMNS RHS BOUNDS; do
    awk -v section="$section" 'BEGIN {
        for (k = split("PROGRAM CONVERT REVISE EXIT PEND", verb, " "); i++ < k;) printf "         %s\n", verb[i]
        print "NAME          GREATEST\nROWS\n N  COST"
        for (row = 1; row < 1000; row++) printf " L  R%d\n", row
        print "COLUMNS"
        for (column = 1; column <= 5000; column++) {
            name = "X" column
            printf "    %-8s  %-8s  %-12s\n", name, "COST", column % 97
            for (entry = 0; entry < 9; entry++) printf "    %-8s  %-8s  %-12s\n", name, "R" (1 + (column * 7 + entry * 111) % 999), "-3.25"
        }
        print "RHS"
        for (row = 1; row < 1000; row++) printf "    %-8s  %-8s  %-12s\n", "LIMIT", "R" row, row
        print "BOUNDS"
        for (column = 1; column <= 5000; column++) printf " UP %-8s  %-8s  %-12s\n", "BOUND", "X" column, column
        print "ENDATA\nNAME          REVISED"
        if (section != "none") print section "\n MODIFY"
        for (card = 0; section != "none" && card < 50000; card++) {
            column = 1 + (card * 2741) % 5000
            entry = int(card / 5000)
            row = entry ? "R" (1 + (column * 7 + (entry - 1) * 111) % 999) : "COST"
            if (section == "COLUMNS") printf "    %-8s  %-8s  %-12s\n", "X" column, row, card % 89
            if (section == "RHS") printf "    %-8s  %-8s  %-12s\n", "LIMIT", "R" (1 + (card * 541) % 999), card % 89
            if (section == "BOUNDS") printf " UP %-8s  %-8s  %-12s\n", "BOUND", "X" column, 1 + card % 89
        }
        print "ENDATA"
    }' >"$job"
    printf '%-8s ' "$section"
    python3 "$(dirname "$0")/timed.py" "$job" "$program"
done
