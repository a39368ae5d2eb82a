"Certificates in the format VIPR: what holds and what doesn't, by a checker that shares nothing with the writer; listings as certificates, and back."
import json
from fractions import Fraction

import places
import pytest
from calls import called
from mps360 import programs
from mps360.cli import listing2json
from mps360.cli import listing2vipr
from mps360.cli import vipr2listing
from oracle import attesting as expected_attesting
from oracle import vipr as oracle_vipr
from oracle.claims import OF_128_BITS, OF_ANY_LENGTH

EXAMPLES, KNOWN = places.EXAMPLES, places.DATA

# maximize 3 doors + 5 windows; the bound is proved in two steps
CERTIFICATE = """% by hand
VER 1.0
VAR 2
doors windows
INT 0
OBJ max
2 0 3 1 5
CON 5 2
one L 4 1 0 1
two L 12 1 1 2
three L 18 2 0 3 1 2
d0 G 0 1 0 1
w0 G 0.0 1 1 1
RTP range 36 36
SOL 1
best 2 0 2 1 6
DER 2
half L 18 1 1 3 { lin 1 1 3/2 } 6
all L 36 OBJ { lin 2 5 1 2 1 } -1
"""
# at least 3, at most 2
NO_PLAN = """VER 1.0
VAR 1
x
INT 0
OBJ min
1 0 1
CON 2 0
low G 6 1 0 2
high L 2 1 0 1
RTP infeas
SOL 0
DER 1
none G 1 0 { lin 2 0 1/2 1 -1 } -1
"""
# a number that no card holds
THIRD = """VER 1.0
VAR 1 x
INT 0
OBJ min 1 0 1/3
CON 1 0
low G 3 1 0 1
RTP range 1 1
SOL 1 s 1 0 3
DER 1
best G 1 OBJ { lin 1 0 1/3 } -1
"""
NOT_SO = (
    (CERTIFICATE.replace("1 1 3/2", "1 1 1"), 1, "half doesn't follow by its multipliers"),
    (CERTIFICATE.replace("1 1 3/2", "1 3 3/2"), 1, "half doesn't follow"),
    (CERTIFICATE.replace("lin 2 5 1 2 1", "lin 2 5 1 2 -1"), 1, "add up at-most and at-least"),
    (CERTIFICATE.replace("best 2 0 2 1 6", "best 2 0 3 1 6"), 1, "the solution best breaks the constraint three of line 11"),
    (CERTIFICATE.replace("best 2 0 2 1 6", "best 2 0 2 1 5"), 1, "no solution has an objective of 36 or better"),
    (CERTIFICATE.replace("range 36 36", "range 36 35"), 1, "doesn't prove that the objective is at most 35"),
    (NO_PLAN.replace("1/2 1 -1", "1/2 1 -2"), 1, "none doesn't follow"),
    (NO_PLAN.replace("none G 1", "none G 0"), 1, "isn't one that nothing keeps"),
    (NO_PLAN.replace("SOL 0", "SOL 1 x 1 0 3"), 1, "breaks the constraint high"),
    (CERTIFICATE.replace("{ lin 1 1 3/2 }", "{ asm }"), 65, "is by 'asm'"),
    (CERTIFICATE.replace("lin 2 5 1 2 1", "lin 2 9 1 2 1"), 65, "line 19: '9'"),
    (CERTIFICATE.replace("2 0 3 1 5", "2 0 3 0 5"), 65, "the index 0 stands twice"),
    (CERTIFICATE.replace("VER 1.0", "VER 2.0"), 65, "line 2: '2.0'"), (CERTIFICATE.replace("VER 1.0", "VER 1.2"), 65, "line 2: '1.2'"),
    (CERTIFICATE[:200], 65, "the certificate ends too early"),
    (CERTIFICATE + "more", 65, "something follows"),
    ("", 65, "line 1:"),
)


def made(folder, text):
    "what vipr2listing.py makes of a certificate: the status, what it says, and the files"
    path, job, listing = folder / "c.vipr", folder / "c.job", folder / "c.listing"
    path.write_text(text)
    status, _, told = called(vipr2listing, "-o", job, "--listing", listing, "--names", folder / "c.names", path)
    return status, told, path, job, listing


@pytest.mark.parametrize("text, said, answer", ((CERTIFICATE, "optimal, the objective is 36", "ATTESTED 5 REPORTS"), (NO_PLAN, "infeasible", "ATTESTED 4 REPORTS")))
def test_what_holds(tmp_path, text, said, answer):
    status, told, path, job, listing = made(tmp_path, text)
    assert called(oracle_vipr, path)[:2] == (0, said + "\n")
    assert status == 0 and expected_attesting.attest(job.read_bytes(), listing.read_bytes())[1] == answer, told


@pytest.mark.parametrize("text, status, wanted", NOT_SO)
def test_what_doesnt_hold(tmp_path, text, status, wanted):
    refused, _, path, *_ = made(tmp_path, text)
    found = called(oracle_vipr, path)
    assert found[0] == status and wanted in found[2], found
    assert refused == 65


@pytest.mark.parametrize("text, wanted", (
    (CERTIFICATE.replace("range 36 36", "range -inf 36"), "don't meet"), (THIRD, "line 4: 1/3 has no decimal form"),
    (CERTIFICATE.replace("INT 0", "INT 1 0"), "doors is to be whole")))
def test_what_is_no_listing(tmp_path, text, wanted):
    status, told, *_ = made(tmp_path, text)
    assert status == 65 and wanted in told, told


def of_one_row(side, factor):
    "the most that x + y can be where this factor times it is at most this side: the plan has it all in x, and the price is 1 by the factor"
    best, price = Fraction(side) / Fraction(factor), 1 / Fraction(factor)
    return f"""VER 1.0
VAR 2 x y
INT 0
OBJ max 2 0 1 1 1
CON 3 2
r L {side}
  2 0 {factor} 1 {factor}
x0 G 0 1 0 1
y0 G 0 1 1 1
RTP range {best} {best}
SOL 1 s 1 0 {best}
DER 1
best L {best} OBJ {{ lin 1 0 {price} }} -1
"""


LONG = of_one_row("2.0000000000000002", "1.0000000000000001")
OF_39_DIGITS = f"1.{37 * '0'}1"
NO_DECIMALS = "has no decimal form, however many digits it had: multiply its row or its limit"
MANY_DIGITS = "has more than 38 digits, or digits below 1E-36 or past 1E40"


@pytest.mark.parametrize("text, line, word, cause", (
    (THIRD, 4, "1/3", NO_DECIMALS),
    (of_one_row("2", "1/3"), 7, "1/3", NO_DECIMALS), (of_one_row("2/3", "1"), 6, "2/3", NO_DECIMALS), (of_one_row("2", OF_39_DIGITS), 7, OF_39_DIGITS, MANY_DIGITS)))
def test_a_number_that_no_job_holds(tmp_path, text, line, word, cause):
    "of the linear program: its line and the number are shown, and nothing is written"
    status, told, path, job, listing = made(tmp_path, text)
    shown = text.split("\n")[line - 1]
    assert (status, told) == (65, f"vipr2listing.py: {path}: line {line}: {word} {cause}\n    {shown}\n    {' ' * shown.index(word)}{'^' * len(word)}\n")
    assert not job.exists() and not listing.exists()


def test_a_linear_program_of_long_numbers(tmp_path):
    "it is kept exactly: x is 2, r has 2.0000000000000002, and its price is 1 by 1.0000000000000001"
    status, told, _, job, listing = made(tmp_path, LONG)
    assert status == 0 and "numbers of more than 12 columns (r) are kept exactly" in told
    for by in (OF_128_BITS, OF_ANY_LENGTH):
        assert expected_attesting.attest(job.read_bytes(), listing.read_bytes(), by) == (0, "ATTESTED 5 REPORTS")
    answer = json.loads(called(listing2json, "--names", tmp_path / "c.names", listing)[1])["reports"][-1]
    assert [(line["name"], line["activity"], line["dual"]) for line in answer["rows"]] == [
        ("OBJ", "2", "0"), ("r", "10000000000000001/5000000000000000", "10000000000000000/10000000000000001")]
    assert [(line["name"], line["activity"], line["reduced"]) for line in answer["columns"]] == [("x", "2", "0"), ("y", "0", "0")]


@pytest.mark.parametrize("count, digits", ((40, 33), (400, 338)))
def test_an_answer_of_long_numbers(tmp_path, count, digits):
    "7 times each variable is 3 times the one before it, and the first is 1: the last is 3^(n-1) by 7^(n-1)"
    ratio, last = Fraction(3, 7), count - 1
    steps = [f"s{k} E 0 2 {k - 1} -3 {k} 7" for k in range(1, count)]
    multipliers = [f"0 {ratio ** last}", *(f"{k} {ratio ** (last - k) / 7}" for k in range(1, count))]
    text = "\n".join(["VER 1.0", f"VAR {count}", *(f"x{k}" for k in range(count)), "INT 0", f"OBJ min 1 {last} 1", f"CON {count} 0", "first E 1 1 0 1", *steps,
                      f"RTP range {ratio ** last} {ratio ** last}", "SOL 1", f"plan {count} " + " ".join(f"{k} {ratio ** k}" for k in range(count)),
                      "DER 1", f"best G {ratio ** last} OBJ {{ lin {count} {' '.join(multipliers)} }} -1"]) + "\n"
    status, told, _, job, listing = made(tmp_path, text)
    assert status == 0, told
    assert expected_attesting.attest(job.read_bytes(), listing.read_bytes(), OF_ANY_LENGTH) == (0, "ATTESTED 5 REPORTS")
    assert len(str(7 ** last)) == digits
    assert listing.read_text().split("\n")[3] == f"PRIMAL OPTIMAL STEPS 0 OBJECTIVE {3 ** last}/{7 ** last} CHECKED"
    if programs.proved_program("mps360long"):
        assert programs.attested_by(programs.proved_program("mps360long"), job.read_bytes(), listing.read_bytes()) == (0, "ATTESTED 5 REPORTS\n")


def test_a_number_of_too_many_digits(tmp_path):
    "which no checker of listings reads, in a solution"
    status, told, path, *_ = made(tmp_path, THIRD.replace("s 1 0 3", "s 1 0 3" + 100_000 * "0"))
    assert (status, told) == (65, f"vipr2listing.py: {path}: line 8: '3{29 * '0'}' has more than 100,000 digits above or below the line\n")


def test_each_optimum_and_each_conflict(tmp_path):
    "of examples/ and of the listings by hand: it becomes a certificate that holds, and a listing again"
    written, path = 0, tmp_path / "l.vipr"
    for given in sorted([*EXAMPLES.glob("*.job"), *KNOWN.glob("*.job")]):
        status, _, told = called(listing2vipr, "-o", path, given, given.with_suffix(".listing"))
        assert status in (0, 65), f"{given.name}: {told}"
        if status == 0:
            written += 1
            assert called(oracle_vipr, path)[0] == 0, given.name
            status, told, _, job, listing = made(tmp_path, path.read_text())
            assert status == 0 and expected_attesting.attest(job.read_bytes(), listing.read_bytes())[0] == 0, f"{given.name}: {told}"
    assert written >= 18


@pytest.mark.parametrize("words, wanted", (
    ((EXAMPLES / "store.job", "BAD"), "line 5: "), (("--line", 4, EXAMPLES / "store.job", EXAMPLES / "store.listing"), "begins at line 4"),
    ((EXAMPLES / "endless.job", EXAMPLES / "endless.listing"), "UNBOUNDED")))
def test_what_becomes_no_certificate(tmp_path, words, wanted):
    bad = tmp_path / "bad"
    bad.write_text((EXAMPLES / "store.listing").read_text().replace("LL 0 3 0 NONE 3", "LL 0 3 0 NONE 4"))
    status, _, told = called(listing2vipr, *(bad if word == "BAD" else word for word in words))
    assert status == 65 and wanted in told, told


def test_the_line_of_a_report():
    seasons = [called(listing2vipr, "--line", line, EXAMPLES / "seasons.job", EXAMPLES / "seasons.listing")[0] for line in range(1, 9)]
    assert 0 in seasons and 65 in seasons
