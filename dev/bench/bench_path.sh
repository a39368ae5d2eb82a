#!/usr/bin/env bash
# Times whole jobs, from their bytes to their listings, in four parts. Prints where each path ends, the least processor time of five
# runs, in seconds, the peak memory (no less than Python's own, some 14 MB), and the time of a step; and the time of a step without that
# of the same job up to its SETUP, so that of the path, of its verdict and of what follows it.
#   paths   PRIMAL on transportation problems of 10, 20 .. 60 sources and as many destinations, on the problems of 8, 10 and 12 queens, on
#           a sparse problem of 300 rows and 350 columns, and on a problem of the greatest size, 1,000 rows and 5,000 columns, whose
#           path ends where it begins; and the transportation of 60 by 60 with RANGE
#   dense   how many of fifty problems of 15 rows and 30 columns, with numbers of two decimals, end without an overflow, and the
#           processor time of all fifty together, once
#   wide    PRIMAL on a problem of 1,000 rows and 5,000 columns, alone and with SOLUTION, and on one whose path is short and whose numbers
#           have few digits; and a parametric run on the first, up to 0.1 and up to 0.3, which is 22 and 99 intervals
#   bases   where one in twenty of the right-hand sides has changed since an optimum, PRIMAL from the opening basis against PRIMAL and
#           DUAL from the basis of that optimum, which INSERT takes
# Usage: dev/bench/bench_path.sh [--instructions] [--part NAME] [PROGRAM], which is the proved mps360 where none is named; with
# --instructions it counts the instructions of one run of each by valgrind, in place of time and memory (the part dense has none); or
# dev/bench/bench_path.sh --dense N, --queens N, --transportation N, --sparse, --wide or --narrow, which print a deck: the N-th of the fifty,
# that of N queens, that of N sources and N destinations, the sparse one, and the two of the part wide.
set -eu
case ${1:-} in -h | --help) sed -n '2,17s/^# //p' "$0"; exit 0 ;; esac
here=$(cd "$(dirname "$0")" && pwd)
deck=$(mktemp)
counts=$(mktemp)
folder=$(mktemp -d)
trap 'rm -rf "$deck" "$counts" "$folder"' EXIT

# Each of N sources has 10 to send and each of N destinations wants 10; a unit from i to j costs ((7i + 11j) mod 19) + 1.
transport() {
    awk -v n="$1" 'BEGIN {
        print "NAME          TRANSP\nROWS\n N  COST"
        for (i = 1; i <= n; i++) printf " L  S%03d\n", i
        for (j = 1; j <= n; j++) printf " G  D%03d\n", j
        print "COLUMNS"
        for (i = 1; i <= n; i++) for (j = 1; j <= n; j++) {
            name = sprintf("X%03d%03d", i, j)
            printf "    %-8s  %-8s  %d\n", name, "COST", (7 * i + 11 * j) % 19 + 1
            printf "    %-8s  S%03d      1\n    %-8s  D%03d      1\n", name, i, name, j
        }
        print "RHS"
        for (i = 1; i <= n; i++) printf "    RHS       S%03d      10\n", i
        for (j = 1; j <= n; j++) printf "    RHS       D%03d      10\n", j
        print "ENDATA"
    }'
}

# 100 rows that hold every column down, 199 rows of three kinds at a point that satisfies them all, and the objective. A column has
# an entry of 1 to 3 in one of the first rows, and two of 1 or -1 in the others.
sparse() {
    awk -v seed=3 '
        function below(n) { seed = (seed * 16807) % 2147483647; return seed % n }
        BEGIN {
            rows = 299; capacities = 100
            print "NAME          SPARSE\nROWS\n N  COST"
            for (i = 1; i <= rows; i++) {
                kind[i] = i <= capacities ? "L" : substr("LGE", below(3) + 1, 1)
                printf " %s  R%03d\n", kind[i], i
            }
            print "COLUMNS"
            for (j = 1; j <= 350; j++) {
                value = below(3) ? 0 : below(10)
                printf "    X%03d      COST      %d\n", j, below(20) - 12
                for (t = 0; t < 3; t++) {
                    i = t ? capacities + (first + t * t * 31) % (rows - capacities) + 1 : below(capacities) + 1
                    if (!t) first = below(rows)
                    number = t ? 2 * below(2) - 1 : 1 + below(3)
                    printf "    X%03d      R%03d      %d\n", j, i, number
                    sum[i] += number * value
                }
            }
            print "RHS"
            for (i = 1; i <= rows; i++)
                printf "    RHS       R%03d      %d\n", i, sum[i] + (kind[i] == "L" ? below(5) : kind[i] == "G" ? -below(5) : 0)
            print "ENDATA"
        }'
}

# 15 rows, each of one of two kinds, at a point that satisfies them all; all numbers have two decimals.
dense() {
    awk -v seed="$1" '
        function below(n) { seed = (seed * 16807) % 2147483647; return seed % n }
        BEGIN {
            seed = seed * 7919 + 17; below(2); below(2)
            print "NAME          DENSE\nROWS\n N  COST"
            for (i = 1; i <= 15; i++) { kind[i] = below(2) ? "L" : "G"; printf " %s  R%02d\n", kind[i], i }
            print "COLUMNS"
            for (j = 1; j <= 30; j++) {
                value = below(1000)
                printf "    X%02d       COST      %d.%02d\n", j, below(10), below(100)
                for (i = 1; i <= 15; i++) {
                    below(100)
                    number = below(1999) - 999
                    printf "    X%02d       R%02d       %.2f\n", j, i, number / 100
                    sum[i] += number * value
                }
            }
            print "RHS"
            for (i = 1; i <= 15; i++)
                printf "    RHS       R%02d       %.2f\n", i, int(sum[i] / 100) / 100 + (kind[i] == "L" ? 1 : -1) * below(500) / 100
            print "ENDATA"
        }'
}

# One queen on each row and each file of a board of N by N, and at most one on each diagonal of two squares or more; the one at i and j
# costs (3i + 5j) mod 7.
queens() {
    awk -v n="$1" 'BEGIN {
        lines = 2 * n - 3
        print "NAME          QUEENS\nROWS\n N  COST"
        for (i = 0; i < n; i++) printf " E  R%d\n E  C%d\n", i, i
        for (d = 1; d <= lines; d++) printf " L  U%d\n L  D%d\n", d, d
        print "COLUMNS"
        for (i = 0; i < n; i++) for (j = 0; j < n; j++) {
            name = sprintf("X%02d%02d", i, j)
            printf "    %-8s  %-8s  %d\n", name, "COST", (3 * i + 5 * j) % 7
            printf "    %-8s  R%-7d  1\n    %-8s  C%-7d  1\n", name, i, name, j
            up = i + j; down = i - j + n - 1
            if (up >= 1 && up <= lines) printf "    %-8s  U%-7d  1\n", name, up
            if (down >= 1 && down <= lines) printf "    %-8s  D%-7d  1\n", name, down
        }
        print "RHS"
        for (i = 0; i < n; i++) printf "    RHS       R%-7d  1\n    RHS       C%-7d  1\n", i, i
        for (d = 1; d <= lines; d++) printf "    RHS       U%-7d  1\n    RHS       D%-7d  1\n", d, d
        print "ENDATA"
    }'
}

# 998 rows that hold every column down, the objective and the row CHANGE, which changes it; and 5,000 columns with eight entries of 1 to 3
# in those rows, of which every 25th has a negative cost. The word narrow makes another: 999 rows and no CHANGE, and right-hand sides so
# far apart that the path is short and its numbers have few digits.
wide() {
    awk -v seed=11 -v narrow="${1:-}" '
        function below(n) { seed = (seed * 16807) % 2147483647; return seed % n }
        BEGIN {
            rows = narrow ? 999 : 998
            print "NAME          WIDE\nROWS\n N  COST"
            if (!narrow) print " N  CHANGE"
            for (row = 1; row <= rows; row++) printf " L  R%d\n", row
            print "COLUMNS"
            for (column = 1; column <= 5000; column++) {
                name = "X" column
                printf "    %-8s  %-8s  %d\n", name, "COST", column % 25 ? 1 + below(20) : -1 - below(20)
                if (!narrow) printf "    %-8s  %-8s  %d\n", name, "CHANGE", below(21) - 10
                for (k in taken) delete taken[k]
                for (t = 0; t < 8; t++) {
                    do row = below(rows) + 1; while (row in taken)
                    taken[row] = 1
                    printf "    %-8s  R%-7d  %d\n", name, row, 1 + below(3)
                }
            }
            print "RHS"
            for (row = 1; row <= rows; row++) printf "    RHS       R%-7d  %d\n", row, narrow ? 100 + below(900) : 50 + below(50)
            print "ENDATA"
        }'
}

# The deck that the words make, with a second right-hand side NEXT: every 20th row of type L or G has 2 more or 2 less, so that no plan is lost.
replanned() {
    "$@" | awk '
        /^[A-Z]/ { section = $1 }
        section == "ROWS" { kind[$2] = $1 }
        section == "RHS" && NF == 3 { row[++count] = $2; value[count] = $3 }
        /^ENDATA/ {
            for (k = 1; k <= count; k++) {
                moves = kind[row[k]] != "E" && ++limited % 20 == 0 ? (kind[row[k]] == "L" ? 2 : -2) : 0
                printf "    NEXT      %-8s  %d\n", row[k], value[k] + moves
            }
        }
        { print }'
}

case ${1:-} in
--dense) dense "$2"; exit 0 ;;
--queens) queens "$2"; exit 0 ;;
--transportation) transport "$2"; exit 0 ;;
--sparse) sparse; exit 0 ;;
--wide) wide; exit 0 ;;
--narrow) wide narrow; exit 0 ;;
esac
counting=
parts="paths dense wide bases"
while :; do
    case ${1:-} in
    --instructions) counting=yes; shift ;;
    --part) parts=${2:?--part needs a name}; shift 2 ;;
    *) break ;;
    esac
done
for part in $parts; do
    case $part in paths | dense | wide | bases) ;; *) echo "bench_path.sh: there is no part $part" >&2; exit 64 ;; esac
done
program=${1:-$("$here/../../scripts/program.sh")}

# What the program comes to on the present deck, with its time and its memory, or with its instructions.
measured() {
    if [ -z "$counting" ]; then
        python3 "$here/timed.py" "$deck" "$program"
    else
        last=$(valgrind --tool=callgrind --callgrind-out-file=/dev/null "$program" <"$deck" 2>"$counts" | tail -1)
        echo "$last: $(sed -n 's/.*refs: *//p' "$counts") instructions"
    fi
}

greatest() {
    awk 'BEGIN {
        print "NAME          GREATEST\nROWS\n N  COST"
        for (row = 1; row < 1000; row++) printf " L  R%d\n", row
        print "COLUMNS"
        for (column = 1; column <= 5000; column++) printf "    X%-7d  %-8s  1\n", column, "COST"
        print "ENDATA"
    }'
}

# A job of the deck that the words after -- make, with the statements before it, and without a limit on steps.
job() {
    printf '         %s\n' PROGRAM "MOVE(XITERLIM,'NONE')" CONVERT
    while [ "$1" != -- ]; do
        printf '         %s\n' "$1"
        shift
    done
    printf '         %s\n' EXIT PEND
    shift
    "$@"
}

# Where the path of the present deck ends.
path_end() {
    "$program" <"$deck" | grep -o 'OPTIMAL STEPS.*OBJECTIVE [^ ]*'
}

# The path of the present deck under this name, and what it takes, all and for each step; where the line of the job up to its SETUP is
# given, what each step takes without that besides.
path() {
    local end line
    end=$(path_end)
    line=$(measured)
    awk -v name="$1" -v end="$end" -v line="$line" -v opening="${2:-}" '
        function number(text,   n, of) { n = split(text, of, ": "); gsub(",", "", of[n]); return of[n] + 0 }
        function each(all) { return line ~ /instructions/ ? sprintf("%.0f", all / steps) : sprintf("%.3f ms", 1000 * all / steps) }
        BEGIN {
            split(end, words, " ")
            steps = words[3]
            sub(".*: ", "", line)
            rest = ""
            if (steps > 0) rest = sprintf(", %s a step", each(number(line)))
            if (steps > 0 && opening) rest = rest sprintf(", %s after SETUP", each(number(line) - number(opening)))
            printf "%s, %s: %s%s\n", name, end, line, rest
        }'
}

# The job of PRIMAL on the deck that the words make, and perhaps one statement more, after its name.
solved() {
    local name=$1 more=$2 opening
    shift 2
    job SETUP -- "$@" >"$deck"
    opening=$(measured)
    job SETUP PRIMAL ${more:+"$more"} -- "$@" >"$deck"
    path "$name${more:+ with $more}" "$opening"
}

bench_paths() {
    for size in 10 20 30 40 50 60; do solved "transportation $size by $size" "" transport "$size"; done
    solved "transportation 60 by 60" RANGE transport 60
    for size in 8 10 12; do solved "$size queens" "" queens "$size"; done
    solved "the sparse problem" "" sparse
    solved "the greatest size" "" greatest
}

bench_dense() {
    for seed in $(seq 50); do job SETUP PRIMAL -- dense "$seed" >"$folder/dense$seed"; done
    TIMEFORMAT=%U
    spent=$({ time for seed in $(seq 50); do "$program" <"$folder/dense$seed" || true; done >"$counts"; } 2>&1)
    ended=$((50 - $(grep -c OVERFLOW "$counts" || true)))
    echo "fifty problems with numbers of two decimals: $ended end without an overflow, $spent s"
}

bench_wide() {
    solved "1,000 rows and 5,000 columns" "" wide
    solved "1,000 rows and 5,000 columns" SOLUTION wide
    solved "1,000 rows and 5,000 columns, narrow" "" wide narrow
    for most in 0.1 0.3; do
        job "MOVE(XCHROW,'CHANGE')" "MOVE(XPARMAX,$most)" SETUP PARAOBJ -- wide >"$deck"
        echo "1,000 rows and 5,000 columns, PARAOBJ up to $most, $("$program" <"$deck" | wc -l) lines: $(measured)"
    done
}

bench_bases() {
    for problem in "transport 40" "transport 60" sparse; do
        # (words of a command)
        job SETUP PRIMAL PUNCH -- $problem >"$deck"
        (cd "$folder" && rm -f PUNCH && "$program" <"$deck" >"$counts")
        for way in PRIMAL "INSERT PRIMAL" "INSERT DUAL"; do
            { job "MOVE(XRHS,'NEXT')" SETUP $way -- replanned $problem && cat "$folder/PUNCH"; } >"$deck"
            path "$problem, one in twenty of the right-hand sides changed, $way"
        done
    done
}

for part in $parts; do "bench_$part"; done
