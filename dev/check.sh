#!/usr/bin/env bash
# Small checks of the repository, which run after the gate, in four or five minutes on four processors. A check whose tool is missing is skipped, and so is,
# saying so, what needs the proved program where it isn't fresh. With CHECK_WHOLE=1 a tool that is missing (pytest, mypy, pylint) is a fault too.
# usage: check.sh      ends with 1 where a check fails, 64 for wrong use
set -u
case ${1:-} in
    -h | --help)
        sed -n '2,4s/^# //p' "$0" 2>/dev/null || {
            echo "check.sh: can't write to standard output" >&2
            exit 73
        }
        exit 0
        ;;
esac
[ $# -eq 0 ] || {
    echo "usage: check.sh" >&2
    exit 64
}
cd "$(dirname "$0")/.." || exit 1
failed=0 missing=''
room=$(mktemp -d)
trap 'rm -rf "$room"' EXIT
fail() {
    echo "check: $*" >&2
    failed=1
}

# No handle is allowed.
[ "$(cat HANDLES)" = 'Handles allowed: none.' ] || fail "HANDLES is changed"

# Each crate that is listed stands in crates/, and each that stands there is listed, once.
listed=$(sed -e 's/#.*//' crates.txt | sed -n 's/^ *\([a-z0-9_]*\).*:.*/\1/p' | sort)
[ -z "$(uniq -d <<<"$listed")" ] || fail "crates.txt lists twice:" $(uniq -d <<<"$listed")
for crate in $listed; do
    [ -f "crates/$crate/src/lib.rt" ] || [ -f "crates/$crate/src/main.rt" ] || fail "crates/$crate is missing"
done
for folder in crates/*/; do
    crate=$(basename "$folder")
    grep -qx "$crate" <<<"$listed" || fail "crates.txt doesn't list $crate"
done

# What rt makes isn't committed.
if command -v git >/dev/null && git rev-parse --git-dir >/dev/null 2>&1; then
    [ -z "$(git ls-files | grep -E '(^|/)out/')" ] || fail "files of an out/ are committed"
fi

# README.md is short, and the edits that must fail are few.
most_bytes=6000 most_in_paragraph=500 most_edits=90
bytes=$(wc -c <README.md)
[ "$bytes" -le "$most_bytes" ] || fail "README.md has $bytes bytes, more than $most_bytes"
longest=$(LC_ALL=C.UTF-8 awk '!/^\|/ && length > most { most = length } END { print most + 0 }' README.md)
[ "$longest" -le "$most_in_paragraph" ] || fail "README.md has a paragraph of $longest characters, more than $most_in_paragraph"
edits=$(find crates -path '*/must-fail/*.edit' | wc -l)
long=$(find crates -name out -prune -o -name '*.rt' -print0 | LC_ALL=C.UTF-8 xargs -0 grep -hE '^ *(requires|ensures|invariant) ' |
    LC_ALL=C.UTF-8 grep -cE '^.{101}')
crates_with_edits=$(find crates -path '*/must-fail/*.edit' | cut -d/ -f2 | sort -u | wc -l)
tests=$(find crates -name out -prune -o -name '*.rt' -print0 | xargs -0 grep -hE '^ *#\[test\]' | wc -l)
echo "check: $edits must-fail edits in $crates_with_edits crates; $tests test functions; $long lines of clauses have over 100 columns"
[ "$edits" -le "$most_edits" ] || fail "there are $edits must-fail edits, more than $most_edits"

if command -v python3 >/dev/null; then
    # No text cites a paper by number; paths, definitions, calls and clauses that documents name are there.
    python3 dev/check_documents.py || fail "a document says what isn't so"

    # Each rule has its definition, its contract, its code and its tests, and the tables of rules are fresh.
    python3 dev/rules.py --check || fail "docs/rules.txt or the tables of rules (dev/rules.py --write makes these)"

    # No crate stands on one of a higher layer, crates.txt lists what files cite, and the page of layers is fresh.
    python3 dev/layers.py --check || fail "crates.txt or a page of layers (dev/layers.py --write makes these pages)"

    # The page of faults is that of examples/faults, and the listings of examples/ are those that are worked out apart.
    python3 dev/faults.py --check || fail "dev/faults.py --write makes docs/FAULTS.md"
    bash dev/examples.sh --expected || fail "a listing of examples/"
    # The tests of the packages, several files at once: by pytest where a python3 has it, else by plain_tests.py, which runs the same files.
    python3 dev/run_tests.py || fail "a test of python/tests"
    for python in python3 /usr/bin/python3 none; do
        ! "$python" -c 'import pytest' 2>/dev/null || break
    done
    [ "$python" != none ] || missing="pytest (apt-get install python3-pytest; dev/plain_tests.py ran the tests); "
    if command -v mypy >/dev/null; then
        # (what mypy keeps between runs goes to the room: nothing of it stays)
        (cd python && mypy --no-error-summary --cache-dir="$room/mypy" mps360 oracle ../dev/*.py ../dev/bench/*.py ../packaging/*.py) || fail "types of python/mps360, python/oracle, dev or packaging"
        # (of the tests what they annotate, and what can be told without)
        (cd python && MYPYPATH=.:tests:../dev:../dev/bench mypy --config-file= --explicit-package-bases --ignore-missing-imports --follow-imports=silent \
            --no-error-summary --cache-dir="$room/mypy-of-tests" tests/*.py) || fail "types of python/tests"
    else
        missing="${missing}mypy (apt-get install mypy): no types were checked; "
    fi
    if command -v pylint >/dev/null; then
        (cd python && PYLINTHOME="$room/pylint" pylint --rcfile=pyproject.toml --score=n -j 0 mps360 oracle) || fail "pylint of python/mps360 or python/oracle"
    else
        missing="${missing}pylint (apt-get install pylint): it wasn't run; "
    fi
    [ -z "$missing" ] || [ -z "${CHECK_WHOLE:-}" ] || fail "missing: $missing"
    if scripts/program.sh --fresh >/dev/null; then
        bash dev/examples.sh || fail "the program prints other listings of examples/"
        python3 dev/faults.py --run || fail "the program ends the jobs of examples/faults otherwise"
    else
        echo "check: no fresh proved program mps360; examples/ aren't run"
    fi
    if scripts/program.sh --fresh mps360check >/dev/null; then
        python3 python/tests/altered_listings.py --proved --jobs 0 40 || fail "the checker says otherwise of an altered listing than its rules"
        python3 python/tests/random_jobs.py --attest 0 100 || fail "the checker says otherwise of a job's own listing than its rules"
    else
        echo "check: no fresh proved program mps360check; no altered listing is attested"
    fi
    if scripts/program.sh --fresh mps360long >/dev/null; then
        python3 python/tests/given_answers.py --proved python/tests/data/long_listings.jsonl || fail "mps360long says otherwise of a listing with long numbers"
        python3 python/tests/altered_listings.py --long --proved --jobs 0 40 || fail "mps360long says otherwise of an altered listing than its rules"
    else
        echo "check: no fresh proved program mps360long; no listing with long numbers is attested"
    fi
fi

[ "$failed" -eq 0 ] && echo "check: ok${missing:+, but without $missing}"
exit "$failed"
