#!/usr/bin/env bash
# Times whole runs over decks of the greatest size, 1,000 rows, 5,000 columns and 50,000 entries, whose opening basis is optimal: one of plain
# rows; one of which 500 rows are combinations of two parts each; one with 500 combinations of 400 parts each, in nearly all of which each
# column has a number; and one with 990 combinations, in all of which each column has one, which is the greatest linear program, of 5,000,000
# entries. Of the last three it times the run by CONVERT alone, and then by SETUP too, so that the difference is what a selection takes. Prints
# for each the last line of its listing, the least processor time of five runs, in seconds, and the peak memory. The program is proved and
# built first, where it isn't fresh, unless PROGRAM is given.
# The greatest one is selected by the checker of listings too, which makes no engine of it, where CHECKER is given.
# usage: bench_converting.sh [PROGRAM [CHECKER]]
set -eu
case ${1:-} in -h | --help) sed -n '2,10s/^# //p' "$0"; exit 0 ;; esac
program=$(realpath "${1:-$("$(dirname "$0")/../../scripts/program.sh")}")
checker=${2:+$(realpath "$2")}
here=$(cd "$(dirname "$0")" && pwd)
job=$(mktemp)
folder=$(mktemp -d)
trap 'rm -rf "$job" "$folder"' EXIT

# make COMBINATIONS PARTS VERBS: the job
make() {
    awk -v combinations="$1" -v parts="$2" -v verbs="$3" 'BEGIN {
        for (k = split("PROGRAM " verbs " EXIT PEND", verb, " "); i++ < k;) printf "         %s\n", verb[i]
        plain = 999 - combinations
        print "NAME          GREATEST\nROWS\n N  COST"
        for (row = 1; row <= plain; row++) printf " L  R%d\n", row
        for (row = 1; row <= combinations; row++) {
            for (part = 0; part < parts; part += 2) {
                printf " DL %-10s%-10s%-12s   ", "S" row, "R" (1 + (row + part) % plain), 1 + part % 3
                printf "%-10s%s\n", "R" (1 + (row + part + 1) % plain), 2.5
            }
        }
        print "COLUMNS"
        for (column = 1; column <= 5000; column++) {
            name = "X" column
            printf "    %-8s  %-8s  %-12s\n", name, "COST", column % 97
            for (entry = 0; entry < 9; entry++) printf "    %-8s  %-8s  %-12s\n", name, "R" (1 + (column * 7 + entry * 110) % plain), "-3.25"
        }
        print "RHS"
        for (row = 1; row <= plain; row++) printf "    %-8s  %-8s  %-12s\n", "LIMIT", "R" row, row
        for (row = 1; row <= combinations; row++) printf "    %-8s  %-8s  %-12s\n", "LIMIT", "S" row, row
        print "ENDATA"
    }' >"$job"
}

# run WHAT COMBINATIONS PARTS VERBS
run() {
    make "$2" "$3" "$4"
    printf '%-60s ' "$1"
    python3 "$here/timed.py" "$job" "$program"
}

run "plain rows" 0 0 "CONVERT SETUP PRIMAL SOLUTION"
for sizes in "500 2" "500 400" "990 2"; do
    read -r combinations parts <<<"$sizes"
    for verbs in "CONVERT" "CONVERT SETUP" "CONVERT SETUP PRIMAL SOLUTION"; do
        run "$combinations combinations of $parts parts, $verbs" "$combinations" "$parts" "$verbs"
    done
done
if [ -n "$checker" ]; then
    make 990 2 "CONVERT SETUP"
    cd "$folder"
    "$program" <"$job" >LISTING
    printf '%-60s ' "the listing of its CONVERT and SETUP, by the checker"
    python3 "$here/timed.py" "$job" "$checker"
fi
