"""What the reading of the rules apart (oracle/attesting.py) says of listings that were altered by hand, as worked out by the rules, of one-line listings of
refused jobs, and of listings altered at random; and the proved checkers mps360check and mps360long, where they are fresh."""
import functools
import subprocess

import altered_cases
import altered_listings
import faults
import places
import programs_at_hand
import pytest
import random_jobs
from calls import call, called
from mps360 import programs
from oracle import attesting as expected_attesting
from oracle import listing as expected_listing
from oracle.claims import OF_128_BITS, OF_ANY_LENGTH

EXAMPLES, KNOWN = places.EXAMPLES, places.DATA
GREATEST = 2 ** 127 - 1


RULES = {"mps360check": OF_128_BITS, "mps360long": OF_ANY_LENGTH}


@functools.cache
def checker(name="mps360check"):
    "the proved checker of listings of this name, or None"
    return programs.proved_program(name)


def check_both(job, listing, wanted, wanted_long):
    "what is said of a listing by the rules of mps360check, and by those of mps360long; and by these programs, where they are proved and fresh"
    for (name, by), answer in zip(RULES.items(), (wanted, wanted_long)):
        assert expected_attesting.attest(job, listing, by)[1] == answer, name
        if checker(name):
            assert programs.attested_by(checker(name), job, listing) == (STATUS[answer.split(" ")[0]], answer + "\n"), f"the program {name}"


def changed_lines(text, *changes):
    for old, new in changes:
        text = text.replace(old, new, 1)
    return text


# ---- listings altered by hand: a job, what is changed of its listing (the old text and the new one; None is the end of it), and the answer of mps360check; where
# mps360long has another one, that too

STORE, CONFLICT, ENDLESS = EXAMPLES / "store", EXAMPLES / "conflict", EXAMPLES / "endless"
TWO, ONE, LAMPS, DAIRY = KNOWN / "paraobj-two-intervals", KNOWN / "pararhs-infeasible-past", EXAMPLES / "paraobj", EXAMPLES / "pararhs"
RAY = "    2 HOURS    1\n    3 CHAIRS   -2\n    4 TABLES   -5\n"
FIRST_OF_TWO = ("INTERVAL 1 FROM 0 TO 1\n    1 COST     BS -8 0 0 0\n    2 CHG      BS 0 0 0 0\n    3 LIM      UL 4 0 -2 0\n"
                "    4 X        LL 0 0 1 -1\n    5 Y        BS 4 0 0 0\n")
SECOND_OF_TWO = ("INTERVAL 2 FROM 1 TO 5\n    1 COST     BS -5 0 0 0\n    2 CHG      BS -3 0 0 0\n    3 LIM      UL 4 0 -2 0\n"
                 "    4 X        UL 3 0 1 -1\n    5 Y        BS 1 0 0 0\n")
# right at both ends, and inside at theta = 1 alone
BENT = ("INTERVAL 1 FROM 0 TO 5\n    1 COST     BS -8 3/5 0 0\n    2 CHG      BS 0 -3/5 0 0\n    3 LIM      UL 4 0 -2 0\n"
        "    4 X        BS 0 3/5 1 -1\n    5 Y        BS 4 -3/5 0 0\n")
POINT = FIRST_OF_TWO.replace("TO 1", "TO 0").replace("BS -8 0 0 0", "BS -8 7 0 0").replace("LL 0 0 1 -1", "LL 0 9 1 5")
CASES = (
    (STORE, (), "ATTESTED 5 REPORTS"),
    (STORE, (("STEPS 0", "STEPS 4294967295"),), "ATTESTED 5 REPORTS"),
    (STORE, (("FLOUR    LL", "FLOUR    **"),), "ATTESTED 5 REPORTS"),
    (STORE, (("OBJECTIVE 0", "OBJECTIVE 1"),), "WRONG LINE 4"),
    (STORE, (("OBJECTIVE 0", "OBJECTIVE -0"),), "WRONG LINE 4"),
    (STORE, (("OBJECTIVE 0", f"OBJECTIVE {GREATEST + 1}"),), "WRONG LINE 4"),
    (STORE, (("OBJECTIVE 0", "OBJECTIVE " + "9" * 5000),), "WRONG LINE 4"),
    (STORE, (("STEPS 0", "STEPS 4294967296"),), "WRONG LINE 4"),
    (STORE, (("STEPS 0", "STEPS 00"),), "WRONG LINE 4"),
    (STORE, (("CHECKED", "UNCHECKED MUL 1 1"),), "WRONG LINE 4", "ATTESTED 5 REPORTS"),
    (STORE, (("CHECKED", f"UNCHECKED MUL 1 {GREATEST + 1}"),), "WRONG LINE 4"),
    (STORE, (("FLOUR    LL", "FLOUR    XX"),), "WRONG LINE 5"),
    (STORE, (("FLOUR    LL 0", "FLOUR    LL 1"),), "WRONG LINE 5"),
    (STORE, (("LL 0 3 0", "LL 0 3/1 0"),), "WRONG LINE 5"),
    (STORE, (("LL 0 5/2", "LL 0 10/4"),), "WRONG LINE 5"),
    (STORE, (("BS 0 40", "BS 0 41"),), "WRONG LINE 5"),
    (STORE, (("NONE 40 0", "NONE 40 1"),), "WRONG LINE 5"),
    (STORE, (("CHEAPEST", "DEAREST"),), "WRONG LINE 1"),
    (STORE, (("\n", "\r\n"),), "WRONG LINE 1"),
    (STORE, (("TITLE", None),), "WRONG LINE 1"),
    (STORE, (("TITLE", None), ("", "STOP 17 STATEMENT LIMIT\n")), "WRONG LINE 1"),
    (STORE, (("TITLE", None), ("", "STOP 28 MEMORY NOW\n")), "WRONG LINE 1"),
    (STORE, (("TITLE", None), ("", "STOP 28 MEMORY\n")), "OPEN LINE 1"),
    (STORE, (("SOLUTION", None), ("", "STOP 28 MEMORY\n")), "OPEN LINE 5"),
    (STORE, (("END 0", "STOP 28 MEMORY"),), "OPEN LINE 15"),
    (STORE, (("PRIMAL", None), ("", "STOP 16 ITERATION LIMIT 10000 CARD 8\n")), "OPEN LINE 4"),
    (STORE, (("PRIMAL", None), ("", "STOP 16 ITERATION LIMIT 010000 CARD 8\n")), "WRONG LINE 4"),
    (STORE, (("PRIMAL", None), ("", "STOP 20 OVERFLOW F10 MUL 1/2 -3 P 0 Q 0 I 2 J 3 TERM 0 THETA 0 CARD 4\n")), "OPEN LINE 4"),
    (STORE, (("PRIMAL", None), ("", "STOP 20 OVERFLOW F10 MUL 2/4 -3 P 0 Q 0 I 2 J 3 TERM 0 THETA 0 CARD 4\n")), "WRONG LINE 4"),
    (KNOWN / "insert-basis", (), "OPEN LINE 3"),
    (KNOWN / "punch-small", (), "OPEN LINE 4"),
    (STORE, (("END 0\n", "END 0"),), "WRONG LINE 15"),
    (STORE, (("END 0\n", "END 0\nEND 0\n"),), "WRONG LINE 16"),
    (STORE, (("END 0\n", "END 0\n."),), "WRONG LINE 16"),
    (STORE, (("PRIMAL", None), ("", "PRIMAL INFEASIBLE STEPS 0 RAY CHECKED\nTITLE NO PLAN KEEPS ALL LIMITS\nEND 0\n")), "WRONG LINE 4"),
    (STORE, (("PRIMAL", None), ("", "PRIMAL INFEASIBLE STEPS 0 CROSSED 4 CHECKED\nEND 0\n")), "WRONG LINE 4"),
    (CONFLICT, (), "ATTESTED 4 REPORTS"),
    (CONFLICT, ((RAY, "    2 HOURS    3\n    3 CHAIRS   -6\n    4 TABLES   -15\n"),), "ATTESTED 4 REPORTS"),
    (CONFLICT, ((RAY, "    2 HOURS    -1\n    3 CHAIRS   2\n    4 TABLES   5\n"),), "WRONG LINE 4"),
    (CONFLICT, (("TABLES   -5", "TABLES   -4"),), "WRONG LINE 4"),
    (CONFLICT, ((RAY, "    3 CHAIRS   -2\n    2 HOURS    1\n    4 TABLES   -5\n"),), "WRONG LINE 4"),
    (CONFLICT, ((RAY, "    1 COST     0\n" + RAY),), "WRONG LINE 4"),
    (CONFLICT, ((RAY, RAY + "    9 NOBODY   1\n"),), "WRONG LINE 4"),
    (CONFLICT, ((RAY, RAY + " junk\n"),), "WRONG LINE 8"),
    (CONFLICT, (("END 1", "END 0"),), "WRONG LINE 8"),
    (CONFLICT, (("END 1", "STOP 28 MEMORY"),), "OPEN LINE 8"),
    (CONFLICT, (("RAY CHECKED", "RAY UNCHECKED ADD 1 2"),), "WRONG LINE 4", "ATTESTED 4 REPORTS"),
    (KNOWN / "infeasible-ray", (("HIGH     1", "HIGH     2"),), "WRONG LINE 3"),
    (ENDLESS, (), "ATTESTED 4 REPORTS"),
    (ENDLESS, (("OBJECTIVE 200", "OBJECTIVE 201"),), "WRONG LINE 4"),
    (ENDLESS, (("200 2\n", "200 0\n"), ("0 1\n", "0 0\n")), "WRONG LINE 4"),
    (TWO, (), "ATTESTED 3 REPORTS"),
    (TWO, ((FIRST_OF_TWO, POINT + FIRST_OF_TWO.replace("INTERVAL 1", "INTERVAL 2")), ("INTERVAL 2 FROM 1", "INTERVAL 3 FROM 1")), "ATTESTED 3 REPORTS"),
    (TWO, ((SECOND_OF_TWO, SECOND_OF_TWO.replace("TO 5", "TO 2") + SECOND_OF_TWO.replace("2 FROM 1", "3 FROM 2")),), "ATTESTED 3 REPORTS"),
    (TWO, ((FIRST_OF_TWO + SECOND_OF_TWO, BENT),), "WRONG LINE 3"),
    (TWO, (("TO 5", "TO 6"), ("AT 5", "AT 6")), "WRONG LINE 3"),
    (TWO, (("TO 5", "TO 4"), ("AT 5", "AT 4")), "WRONG LINE 3"),
    (TWO, ((SECOND_OF_TWO, ""), ("TO 1", "TO 5")), "WRONG LINE 3"),
    (TWO, ((FIRST_OF_TWO + SECOND_OF_TWO, ""),), "WRONG LINE 3"),
    (TWO, ((FIRST_OF_TWO, FIRST_OF_TWO + POINT.replace("1 FROM 0 TO 0", "2 FROM 1 TO 1")), ("2 FROM 1 TO 5", "3 FROM 1 TO 5")), "WRONG LINE 3"),
    (TWO, (("PARAOBJ ENDS AT 5", "PARAOBJ INFEASIBLE PAST 5"),), "WRONG LINE 3"),
    (LAMPS, (("    2 SOLD     16 1\n", "    2 SOLD     16 0\n"),), "WRONG LINE 4"),
    (LAMPS, (("UNBOUNDED PAST 15", "UNBOUNDED PAST 14"),), "WRONG LINE 4"),
    (ONE, (("LOW      -1", "LOW      -7"), ("X        1\n", "X        7\n")), "ATTESTED 3 REPORTS"),
    (ONE, (("LOW      -1", "LOW      1"), ("X        1\n", "X        -1\n")), "WRONG LINE 3"),
    (ONE, (("PAST 2", "PAST 1"),), "WRONG LINE 3"),
    (ONE, (("TO 2", "TO 3"), ("PAST 2", "PAST 3")), "WRONG LINE 3"),
    (DAIRY, (("PARARHS FROM 15", "PARARHS FROM 0"),), "WRONG LINE 18"),
    (KNOWN / "range-two", (), "OPEN LINE 4"),
    (EXAMPLES / "revise", (), "OPEN LINE 3"),
    (EXAMPLES / "punch", (("CARDS 24", "CARDS 25"),), "WRONG LINE 4"),
    (STORE, (("SOLUTION", None), ("", "END 0\n")), "WRONG LINE 5"),
    (STORE, (("PRIMAL", None), ("", "PRIMAL INFEASIBLE STEPS 0 RAY CHECKED\n    2 SPACE    1\nTITLE NO PLAN KEEPS ALL LIMITS\nEND 0\n")), "WRONG LINE 4"),
    (STORE, (("PRIMAL", None), ("", "PRIMAL UNBOUNDED STEPS 0 OBJECTIVE 0 CHECKED\n    1 COST     0 0\n    2 SPACE    0 0\n    3 MONEY    0 0\n    4 FLOUR    0 0\n"
                                    "    5 SUGAR    0 0\nEND 2\n")), "WRONG LINE 4"),
    (CONFLICT, (("RAY CHECKED\n" + RAY, "CROSSED 0 CHECKED\n"), ("STEPS 2", "STEPS 0")), "WRONG LINE 4"),
    (CONFLICT, (("RAY CHECKED\n" + RAY, "CROSSED 7 CHECKED\n"), ("STEPS 2", "STEPS 0")), "WRONG LINE 4"),
    (KNOWN / "infeasible-ray", (), "ATTESTED 3 REPORTS"),
    (KNOWN / "testprob-primal", (), "ATTESTED 4 REPORTS"),
    (TWO, (("TO 5", "TO 4"),), "WRONG LINE 3"),
    (TWO, (("INTERVAL 2 FROM 1", "INTERVAL 2 FROM 2"),), "WRONG LINE 3"),
    (TWO, (("INTERVAL 2 FROM 1", "INTERVAL 1 FROM 1"),), "WRONG LINE 3"),
    (TWO, (("INTERVAL 1 FROM 0", "INTERVAL 1 FROM 1/2"),), "WRONG LINE 3"),
    (TWO, (("PARAOBJ FROM", None), ("", "PARAOBJ OPTIMAL STEPS 0 OBJECTIVE -8 CHECKED\nEND 0\n")), "WRONG LINE 3"),
    (LAMPS, (), "ATTESTED 4 REPORTS"),
    (LAMPS, (("PARAOBJ UNBOUNDED PAST 15", None), ("", "PARAOBJ ENDS AT 15\nEND 0\n")), "WRONG LINE 4"),
    (KNOWN / "paraobj-unbounded-opening", (), "ATTESTED 3 REPORTS"),
    (KNOWN / "paraobj-unbounded-opening", (("OBJECTIVE 0", "OBJECTIVE 1"),), "WRONG LINE 3"),
    (ONE, (), "ATTESTED 3 REPORTS"),
    (ONE, (("    2 LOW      -1\n    3 X        1\n", ""),), "WRONG LINE 3"),
    (ONE, (("    2 LOW      -1\n    3 X        1\n", "    3 X        1\n    2 LOW      -1\n"),), "WRONG LINE 3"),
    (ONE, (("    2 LOW      -1\n", "    1 COST     0\n    2 LOW      -1\n"),), "WRONG LINE 3"),
    (ONE, (("PAST 2", "PAST 3"),), "WRONG LINE 3"),
    (ONE, (("TO 2", "TO 3"),), "WRONG LINE 3"),
    (DAIRY, (), "ATTESTED 5 REPORTS"),
    (KNOWN / "pararhs-two-intervals", (), "ATTESTED 3 REPORTS"),
    (KNOWN / "pararhs-point-interval", (), "ATTESTED 3 REPORTS"),
    (EXAMPLES / "ranging", (), "OPEN LINE 19"),
    (EXAMPLES / "punch", (), "ATTESTED 4 REPORTS"),
    (EXAMPLES / "seasons", (), "ATTESTED 8 REPORTS"),
    (KNOWN / "iteration-limit-2", (), "OPEN LINE 3"),
)
# the same where the job is changed too: a job, what is changed of it, what is changed of its listing, and the answer
PRIMAL = "PRIMAL OPTIMAL STEPS 0 OBJECTIVE 0 CHECKED\n"
SHOWN = STORE.with_suffix(".listing").read_text().partition(PRIMAL)[2].removesuffix("END 0\n")
PLAN_OF_TEST = (KNOWN / "testprob-primal.listing").read_text().partition("SOLUTION")[2].removesuffix("END 0\n")
BETWEEN = ("         SOLUTION\n", "         TITLE('SO')\n         SOLUTION\n")
JOBS = (
    (STORE, (("         SOLUTION\n", ""),), ((SHOWN, ""),), "OPEN LINE 4"),
    (STORE, (("         SOLUTION\n", ""),), ((SHOWN, ""), ("END 0", "END 1")), "OPEN LINE 4"),
    (STORE, (("         SOLUTION\n", "         MOVE(XRHS,'WEEK')\n         SOLUTION\n"),), ((SHOWN + "END 0", "STOP 10 VERB FAULT 4 CARD 10"),), "OPEN LINE 4"),
    (STORE, (("         SOLUTION\n", "         PRIMAL\n         SOLUTION\n"),), ((PRIMAL, PRIMAL * 2),), "OPEN LINE 4"),
    (STORE, (BETWEEN,), (("SOLUTION OPTIMAL", "TITLE SO\nSOLUTION OPTIMAL"),), "ATTESTED 6 REPORTS"),
    (STORE, (BETWEEN,), ((SHOWN + "END 0", "STOP 28 MEMORY"),), "OPEN LINE 5"),
    (KNOWN / "testprob-primal", (("         SOLUTION\n", "         SOLUTION\n" * 2),), (("END 0\n", "SOLUTION" + PLAN_OF_TEST + "END 0\n"),), "ATTESTED 5 REPORTS"),
    (KNOWN / "testprob-primal", (("         SOLUTION\n", "         SOLUTION\n" * 2),),
     (("END 0\n", "SOLUTION" + changed_lines(PLAN_OF_TEST, ("BS 54 -54", "BS 55 -55"), ("BS 3 2", "BS 4 1"), ("LL 10 0", "BS 11 -1"), ("BS 4 1", "BS 5 1")) + "END 0\n"),),
     "WRONG LINE 16"),
)
# sums that don't fit: a job, a listing, and the answer
PARTS = "         PROGRAM\n{}         PEND\nNAME          T\nROWS\n N  COST\n{}ENDATA\n"
WIDE = PARTS.format("         CONVERT\n         SETUP\n         PRIMAL\n         SOLUTION\n",
                    " G  LIM\nCOLUMNS\n    X         COST      2              LIM       1\nRHS\n    B         LIM       4\n")
WIDE_LISTING = f"""CONVERT T        ROWS 2 COLUMNS 1 ENTRIES 2
SETUP   T        MIN
PRIMAL OPTIMAL STEPS 1 OBJECTIVE 8 CHECKED
SOLUTION OPTIMAL
SECTION 1 - ROWS
NUMBER ROW AT ACTIVITY SLACK LOWER UPPER DUAL
    1 COST     BS {GREATEST} {-GREATEST} NONE NONE 0
    2 LIM      LL {GREATEST} 0 4 NONE 2
SECTION 2 - COLUMNS
NUMBER COLUMN AT ACTIVITY COST LOWER UPPER REDUCED
    3 X        BS {GREATEST} 2 0 NONE 0
END 0
"""
RANGED = PARTS.format("         CONVERT\n         SETUP('RANGE','R')\n",
                      " L  LIM\nCOLUMNS\n    X         LIM       1\nRHS\n    B         LIM       999999999E18\n"
                      "RANGES\n    R         LIM       .1E-18\n")
BEGUN = "CONVERT T        ROWS 2 COLUMNS 1 ENTRIES 1\n"
# a limit of 1/10^19 and theta times 1 aren't added
FAR = "999999999000000000000000000"
SWEPT = PARTS.format("         CONVERT\n         SETUP\n         MOVE(XCHCOL,'C')\n         MOVE(XPARAM,999999999E18)\n"
                     "         MOVE(XPARMAX,999999999E18)\n         PARARHS\n",
                     " G  LOW\nCOLUMNS\n    X         COST      1              LOW       1\nRHS\n    B         LOW       .1E-18\n    C         LOW       1\n")
SWEPT_LISTING = f"""CONVERT T        ROWS 2 COLUMNS 1 ENTRIES 2
SETUP   T        MIN
PARARHS FROM {FAR} CHANGE C
INTERVAL 1 FROM {FAR} TO {FAR}
    1 COST     BS 1/10000000000000000000 1 0 0
    2 LOW      LL 1/10000000000000000000 1 1 0
    3 X        BS 1/10000000000000000000 1 0 0
PARARHS ENDS AT {FAR}
END 0
"""
REFUSED = (
    (WIDE, WIDE_LISTING, "UNCHECKED LINE 4", "WRONG LINE 4"),
    (WIDE, WIDE_LISTING.replace("8 CHECKED", "8 UNCHECKED MUL 1 2"), "UNCHECKED LINE 4", "WRONG LINE 4"),
    (RANGED, BEGUN + "SETUP   T        MIN\nEND 0\n", "UNCHECKED LINE 2"),
    (RANGED, BEGUN, "UNCHECKED LINE 2"),
    (RANGED, BEGUN + "STOP 20 OVERFLOW F13 SUB 999999999000000000000000000 1/10000000000000000000 P 0 Q 0 I 2 J 0 TERM 0 THETA 0 CARD 3\nBASIS NONE\nWAY NONE\n",
     "OPEN LINE 2"),
    (SWEPT, SWEPT_LISTING, "UNCHECKED LINE 3", "ATTESTED 3 REPORTS"),
    (SWEPT, SWEPT_LISTING.replace("LOW      LL", "LOW      ZZ"), "WRONG LINE 3"),
    (SWEPT, SWEPT_LISTING.replace(f"TO {FAR}", "TO 1"), "WRONG LINE 3"),
    (SWEPT, SWEPT_LISTING.replace("ENDS AT", "ENDS OF"), "UNCHECKED LINE 3", "WRONG LINE 3"),
    (SWEPT, SWEPT_LISTING[:SWEPT_LISTING.index("PARARHS")] + "PARARHS INFEASIBLE STEPS 0 RAY CHECKED\n    2 LOW      -1\nEND 1\n", "UNCHECKED LINE 3", "WRONG LINE 3"),
    ("", "STOP 8 CONTROL FAULT 1 CARD 0\n", "ATTESTED 0 REPORTS"),
    ("", "STOP 8 CONTROL FAULT 1 CARD 1\n", "WRONG LINE 1"),
    ("\t\n", "STOP 13 CARD FAULT 4 CARD 1\n", "ATTESTED 0 REPORTS"),
    ("         PROGRAM\n         TITLE('END 0')\n         PEND\n", "TITLE END 0\nEND 0\n", "ATTESTED 1 REPORTS"),
    ("", "X" * 64_000_000, "WRONG LINE 1"),
    ("", "X" * 64_000_001, "LONG LISTING"),
)
# two columns of equal worth: each way to share the limit is best
EITHER = PARTS.format("         CONVERT\n         SETUP\n         PRIMAL\n         SOLUTION\n",
                      " L  LIM\nCOLUMNS\n    X         COST      -1             LIM       1\n    Y         COST      -1             LIM       1\n"
                      "RHS\n    B         LIM       4\n")
EITHER_LISTING = """CONVERT T        ROWS 2 COLUMNS 2 ENTRIES 4
SETUP   T        MIN
PRIMAL OPTIMAL STEPS 1 OBJECTIVE -4 CHECKED
SOLUTION OPTIMAL
SECTION 1 - ROWS
NUMBER ROW AT ACTIVITY SLACK LOWER UPPER DUAL
    1 COST     BS -4 4 NONE NONE 0
    2 LIM      UL 4 0 NONE 4 -1
SECTION 2 - COLUMNS
NUMBER COLUMN AT ACTIVITY COST LOWER UPPER REDUCED
    3 X        BS {} -1 0 NONE 0
    4 Y        BS {} -1 0 NONE 0
END 0
"""
# names that begin with a blank, or have one inside, or are a number
BLANKS = ("         PROGRAM\n         CONVERT\n         SETUP\n         PRIMAL\n         SOLUTION\n         PEND\nNAME           A\nROWS\n N   COST\n G  12 3\n"
          "COLUMNS\n    1          COST     1              12 3      1\nRHS\n    B         12 3      4\nENDATA\n")
ENDLESS_TITLES = "         PROGRAM\nBACK     TITLE('AGAIN')\n         GOTO(BACK)\n         PEND\n"
STOP_17 = "STOP 17 STATEMENT LIMIT\n"
STATUS = {"ATTESTED": 0, "WRONG": 40, "OPEN": 41, "UNCHECKED": 42, "LONG": 43}


def changed(text, changes):
    for old, new in changes:
        if new is None:
            text = text[:text.index(old)]
        else:
            assert old in text, old
            text = text.replace(old, new) if old else text + new
    return text


def printed(job):
    run = expected_listing.Run(job)
    run.run()
    return "\n".join(run.lines) + "\n"


def cases():
    "a job and its listing, and the answers of both checkers to them"
    for job, listing, *wanted in of_one_answer():
        yield job, listing, wanted[0], wanted[-1]


def of_one_answer():
    "the same, with one answer where both give it"
    for place, changes, *wanted in CASES:
        yield place.with_suffix(".job").read_text(), changed(place.with_suffix(".listing").read_text(), changes), *wanted
    for place, in_job, changes, *wanted in JOBS:
        yield changed(place.with_suffix(".job").read_text(), in_job), changed(place.with_suffix(".listing").read_text(), changes), *wanted
    yield from REFUSED
    for plan in (("4", "0"), ("0", "4"), ("3/2", "5/2")):
        yield EITHER, EITHER_LISTING.format(*plan), "ATTESTED 4 REPORTS"
    yield BLANKS, printed(BLANKS), "ATTESTED 4 REPORTS"
    titles = "TITLE AGAIN\n"
    for listing, wanted in ((titles * 50_000 + STOP_17, "ATTESTED 50000 REPORTS"), (titles * 50_000 + "END 0\n", "WRONG LINE 50001"), (titles * 49_999 + STOP_17, "WRONG LINE 50000")):
        yield ENDLESS_TITLES, listing, wanted


def refused_jobs():
    "the jobs of examples/faults whose cards or whose control program are refused, and the one line of their listing"
    for entry in faults.entries():
        job = faults.job_of(entry["name"])
        if job is not None and entry.get("stop", "").startswith(("STOP 8 ", "STOP 13 ")):
            yield entry["name"], job, entry["stop"]


def test_there_are_refused_jobs():
    assert len(list(refused_jobs())) >= 14


REFUSED_JOBS, BY_HAND = {name: (job, stop) for name, job, stop in refused_jobs()}, list(cases())


@pytest.mark.parametrize("name", REFUSED_JOBS)
def test_the_line_of_a_refused_job(name):
    "it is attested, and with another card it is wrong"
    job, stop = REFUSED_JOBS[name]
    for line, wanted in ((stop, "ATTESTED 0 REPORTS"), (stop + "0", "WRONG LINE 1")):
        check_both(job, line.encode() + b"\n", wanted, wanted)


# (by numbers: pytest puts a test's name into the environment, which holds no long text)
@pytest.mark.parametrize("number", range(len(BY_HAND)))
def test_listings_altered_by_hand(number):
    job, listing, *wanted = BY_HAND[number]
    check_both(job.encode(), listing.encode(), *wanted)


@pytest.mark.parametrize("words, wanted", (((), (27, b"STOP 27 LISTING FAULT\n")), (("word",), (4, b"STOP 4 WORDS\n"))))
def test_wrong_use_of_a_checker(words, wanted):
    for command in ([str(places.ORACLE), "attesting", "--as-program"], *([found] for name in RULES if (found := checker(name)))):
        ended = call(*command, *words, stdin=subprocess.DEVNULL, cwd="/")
        assert (ended.returncode, ended.stdout) == wanted, ended


@pytest.mark.parametrize("job, listing, wanted", (("store", "store", (0, b"ATTESTED 5 REPORTS\n")), ("store", "diet", (40, b"WRONG LINE 1\n"))))
def test_the_reading_apart_as_a_program(tmp_path, job, listing, wanted):
    (tmp_path / "LISTING").write_bytes((EXAMPLES / f"{listing}.listing").read_bytes())
    ended = call(places.ORACLE, "attesting", "--as-program", input=(EXAMPLES / f"{job}.job").read_bytes(), cwd=tmp_path)
    assert (ended.returncode, ended.stdout) == wanted


@pytest.mark.parametrize("words, status", (
    (("0", "16"), 0), (("--jobs", "0", "8"), 0), (("--long", "0", "10"), 0), (("--proved", "--unproved"), 64), (("--program",), 64), (("--keep",), 64), (("x",), 64)))
def test_altered_listings(words, status):
    assert called(altered_listings, *words)[0] == status


def test_altered_listings_with_a_program(tmp_path):
    assert called(altered_listings, "--program", programs_at_hand.checker(tmp_path), "--jobs", "0", "2")[0] == 0
    assert called(altered_listings, "--long", "--program", programs_at_hand.checker(tmp_path, "--long"), "--jobs", "0", "2")[0] == 0


@pytest.mark.parametrize("words, status", ((("0", "60"), 0), (("--checker", "mps360check", "0", "5"), 65), (("--checker", "x"), 64), (("0", "1", "2"), 64)))
def test_altered_cases(words, status):
    assert called(altered_cases, str(places.DATA / "long_listings.jsonl"), *words)[0] == status


def test_altered_cases_with_a_program(tmp_path):
    "one that attests everything is told"
    cases, says_yes = str(places.DATA / "long_listings.jsonl"), programs_at_hand.script(tmp_path, "yes", "echo ATTESTED 5 REPORTS\n")
    assert called(altered_cases, "--program", programs_at_hand.checker(tmp_path, "--long"), cases, "0", "3")[0] == 0
    ended = called(altered_cases, "--program", says_yes, "--keep", str(tmp_path / "kept"), cases, "0", "5")
    assert ended[0] == 1 and "the program says 'ATTESTED 5 REPORTS', status 0, and by the rules it is" in ended[2]
    assert {path.suffix for path in (tmp_path / "kept").iterdir()} == {".job", ".listing"}
    (tmp_path / "other").write_text("{}\n")
    assert called(altered_cases, str(tmp_path / "other"))[0] == 65 and called(altered_cases, str(tmp_path / "none"))[0] == 65


@pytest.mark.parametrize("words, status", (
    (("--attest", "--itself", "0", "20"), 0), (("--attest", "--itself", "--decks", "0", "20"), 0), (("--attest", "--unproved", "--itself"), 64),
    (("--attest", "x"), 64), (("--attest", "--long", "--itself", "0", "10"), 0), (("--long", "--itself"), 64)))
def test_listings_of_random_jobs(words, status):
    ended = called(random_jobs, *words)
    assert ended[0] == status and (status or " 0 answers differ" in ended[1]), ended


@pytest.mark.parametrize("script, words, status", (
    ("dev/examples.sh", ("--all",), 64), ("dev/bench/bench_attesting.py", ("--all",), 64), ("dev/bench/bench_attesting.py", ("--itself", "--times"), 64),
    ("dev/bench/bench_attesting.py", ("--rows", "x"), 64), ("dev/oracle", ("attesting", "a"), 64), ("dev/oracle", ("attesting", "none", "none"), 66),
    ("scripts/unproved.py", ("--program",), 64), ("scripts/unproved.py", ("--program", "rt", "--compile"), 64),
    ("scripts/unproved.py", ("--program", "mps360check", "--make", "2"), 64)))
def test_wrong_use(script, words, status):
    ended = call(places.TOP / script, *words, stdin=subprocess.DEVNULL)
    assert ended.returncode == status and b"Traceback" not in ended.stderr, ended
