#!/usr/bin/env bash
# Compares the listings (and the punched decks) beside the jobs of examples/ with the program's, and with those that
# python/oracle/listing.py works out; and what examples/INDEX says of each listing with the answers of both checkers, and with those that
# python/oracle/attesting.py works out.
# usage: examples.sh [--expected | --unproved]
# --expected: with what is worked out alone, so that no program is needed. --unproved: the programs as they stand, built once, where no
# proved ones are; of mps360 the listings alone. Where a checker isn't proved, that is said, and it isn't asked. Ends with 1 where
# something differs, with 70 where there is no program mps360 to compare with.
set -u
case ${1:-} in
    "" | --expected | --unproved) ;;
    -h | --help)
        sed -n '2,8s/^# //p' "$0"
        exit 0
        ;;
    *)
        echo "usage: examples.sh [--expected | --unproved]" >&2
        exit 64
        ;;
esac
cd "$(dirname "$0")/.." || exit 1
exec python3 - "${1:-}" <<'PYTHON'
import functools, pathlib, subprocess, sys, tempfile
sys.path.insert(0, "python")
from mps360 import programs
from oracle import attesting as expected_attesting
from oracle.claims import OF_128_BITS, OF_ANY_LENGTH

RULES = {"mps360check": OF_128_BITS, "mps360long": OF_ANY_LENGTH}
JOBS = {path.stem: path for path in sorted(pathlib.Path("examples").glob("*.job"))}


def wanted(path):
    "the listing and the punched deck, None where there is none"
    punch = path.with_suffix(".punch")
    return path.with_suffix(".listing").read_bytes(), punch.read_bytes() if punch.exists() else None


def worked_out(path):
    with tempfile.TemporaryDirectory() as folder:
        punch = pathlib.Path(folder, "PUNCH")
        told = subprocess.run(["dev/oracle", "listing", "--punch", punch, path], stdout=subprocess.PIPE, timeout=20)
        return told.stdout, punch.read_bytes() if punch.exists() else None


def of_program(unproved):
    program = programs.proved_program()
    if program:
        return {name: programs.run_proved(program, path.read_bytes())[1:] for name, path in JOBS.items()}
    answers = programs.run_jobs({name: path.read_bytes() for name, path in JOBS.items()}, unproved)
    return {name: (listing, wanted(JOBS[name])[1]) for name, (_, listing) in answers.items()}


def differing(answers, what):
    wrong = [name for name, path in JOBS.items() if answers[name] != wanted(path)]
    for name in wrong:
        print(f"examples/{name}.job: {what}", file=sys.stderr)
    return wrong


def answers_of_index():
    lines = [line.split(" ", 1) for line in pathlib.Path("examples/INDEX").read_text().splitlines() if not line.startswith("#")]
    if sorted(name for name, _ in lines) != sorted(JOBS):
        sys.exit("examples.sh: examples/INDEX is to have each job of examples/ once")
    return dict(lines)


def attested(by):
    "what a checker says of each example, beside its status"
    return {name: by(path.read_bytes(), path.with_suffix(".listing").read_bytes()) for name, path in JOBS.items()}


def misjudged(answers, what):
    "the examples of which something else is said than examples/INDEX says"
    status = {"ATTESTED": 0, "WRONG": 40, "OPEN": 41, "UNCHECKED": 42}
    wrong = [name for name, answer in answers_of_index().items() if answers[name] != (status[answer.split(" ")[0]], answer)]
    for name in wrong:
        print(f"examples/{name}.listing: {what} {answers[name]}", file=sys.stderr)
    return wrong


def by_program(program):
    def answer(job, listing):
        status, said = programs.attested_by(program, job, listing)
        return status, said.removesuffix("\n") if said.count("\n") == 1 else said
    return answer


failed = differing({name: worked_out(path) for name, path in JOBS.items()}, "its listing or punched deck isn't the one that is worked out")
for name, by in RULES.items():
    failed += misjudged(attested(functools.partial(expected_attesting.attest, by=by)), f"by oracle/attesting.py, as {name}, it is")
if sys.argv[1] != "--expected":
    for name in RULES:
        try:
            checker = programs.checker_program(sys.argv[1] == "--unproved", name)
            wrong = misjudged(attested(by_program(checker)), f"{name} says")
            print(f"{len(JOBS) - len(wrong)} listings of examples are attested by {name}, or aren't, as they are to be, {len(wrong)} otherwise")
            failed += wrong
        except programs.NoProgram as cause:
            print(f"examples.sh: no listing is attested by {name}: {cause}")
    try:
        wrong = differing(of_program(sys.argv[1] == "--unproved"), "the program's listing or punched deck is another")
    except programs.NoProgram as cause:
        print(f"examples.sh: {cause}", file=sys.stderr)
        sys.exit(70)
    print(f"{len(JOBS) - len(wrong)} examples are as the program has them, {len(wrong)} aren't")
    failed += wrong
sys.exit(1 if failed else 0)
PYTHON
