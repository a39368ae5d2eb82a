"""The parts of a page: where its answer comes from, the picture of what limits a plan, the sum that proves that there is none, numbers of many digits,
units, and how it fits a narrow screen and paper. What is expected is worked out by hand of the models."""
import hashlib
import json
import re
import shutil
import subprocess
from fractions import Fraction

import places
import programs_at_hand
import pytest
import random_jobs
from calls import call
from long_models import random_text
from mps360.jobs.write import exact_job
from mps360.listings.read import names_of
from mps360.mps import Reading, read_text
from mps360.pages import limits, shown
from mps360.pages.html import page as page_of
from mps360.pages.origin import Origin
from mps360.provenance import Provenance
from mps360.routes import Tried
from mps360.units import units_of
from oracle import listing as oracle_listing
from page_checks import Read, check_page, words_of

EXAMPLES, SCRIPTS = places.EXAMPLES, places.SCRIPTS
BROWSER = next((path for name in ("chromium", "chromium-browser", "google-chrome") if (path := shutil.which(name))), None)


def page_text(name, origin=None, old="", new=""):
    "the text of the page of an example, whose job has these words in place of others"
    job = (EXAMPLES / f"{name}.job").read_text().replace(old, new) if old else (EXAMPLES / f"{name}.job").read_text()
    return check_page(name, page_of(job, (EXAMPLES / f"{name}.listing").read_text(), origin=origin)).text


# ---- where the answer comes from

PROVED = Origin("2026-11-29 18:00 UTC", "plan.mps", "ab" * 32, True, "the proved program printed the listing.", "INSERT of clp's basis and PRIMAL (clp 1.17.6)",
                ("PRIMAL from the opening basis: no end in 5 seconds",), "mps360, commit 1234567", "cd" * 32)


def test_the_box_at_the_top():
    "the box stands before the verdict, and says what is known"
    text = page_text("first", PROVED)
    before = text.partition("Optimal")[0]
    for words in ("PROVED : the proved program printed the listing.", "Route INSERT of clp's basis and PRIMAL (clp 1.17.6)",
                  "tried too: PRIMAL from the opening basis: no end in 5 seconds", f"File plan.mps SHA-256 {'ab' * 32}",
                  f"Program mps360, commit 1234567 SHA-256 {'cd' * 32}", "Page made 2026-11-29 18:00 UTC"):
        assert words_of(words) in words_of(before), words
    assert "UNPROVED" not in text


@pytest.mark.parametrize("listing, state", (("PRIMAL INFEASIBLE STEPS 1 CROSSED 2 CHECKED\nEND 1\n", "PROVED"), ("STOP 12 DECK FAULT 6 CARD 12\n", "NO VERDICT")))
def test_no_verdict_is_proved_of_a_stop(listing, state):
    read = Read(page_of("", listing, origin=PROVED))
    assert read.pieces[read.pieces.index(state) + 1].startswith(": ")
    assert ("NO VERDICT" in read.text) == (state == "NO VERDICT")


PRIMAL, CLP = "PRIMAL from the opening basis", "INSERT of clp's basis and PRIMAL"
EXACT = "esolver's exact answer, attested by the checker"


@pytest.mark.parametrize("provenance, state, words", (
    (Provenance("proved", False, PRIMAL), "PROVED", ("the proved program printed the listing.", f"Route {PRIMAL} File")),
    (Provenance("unproved", False, PRIMAL), "UNPROVED", ("an UNPROVED run of the program printed the listing.", "Program mps360, ")),
    (Provenance("proved", False, CLP, (Tried(PRIMAL, 5.0, "no end in 5 seconds"), Tried(CLP, 1.0, None)), "clp", "1.17.6"), "PROVED",
     (f"Route {CLP} (clp 1.17.6) tried too: {PRIMAL}: no end in 5 seconds File",)),
    (Provenance("proved", True, EXACT, (Tried(PRIMAL, 0.1, "a number doesn't fit"), Tried(EXACT, 1.0, None)), "esolver", "2.5.8", checker="mps360check"),
     "PROVED",
     ("the proved checker attested the listing.", f"Route {EXACT} (esolver 2.5.8)", "Program mps360check, ")),
    (Provenance("proved", False, PRIMAL, (Tried(PRIMAL, 9.0, "no end in 9 seconds"),), has_verdict=False), "NO VERDICT",
     (f"Route tried: {PRIMAL}: no end in 9 seconds",))))
def test_the_box_of_each_route(provenance, state, words):
    "the box says by which route the answer came, with the solver's version, and who proved it"
    origin = Origin.of(provenance, "plan.mps")
    text = words_of(Read(origin.box(state != "NO VERDICT")).text)
    assert text.startswith(f"{state} :") and all(words_of(word) in text for word in words), text


def test_the_box_of_solve(tmp_path):
    "solve says the file with its checksum, and that a program that isn't the proved one proves nothing"
    model, page = EXAMPLES / "glass.mps", tmp_path / "glass.html"
    told = call(SCRIPTS / "solve", "--with", "none", "--program", programs_at_hand.solver(tmp_path), "--html", page, model)
    assert told.returncode == 0, told.stderr.decode()
    text = check_page("glass", page.read_text(encoding="utf-8")).text
    assert "UNPROVED : another program than the proved one printed the listing." in text
    assert f"File {model} SHA-256 {hashlib.sha256(model.read_bytes()).hexdigest()}" in text
    assert "Route PRIMAL from the opening basis" in text and re.search(r"Page made \d{4}-\d\d-\d\d \d\d:\d\d UTC", text)


# ---- what limits a plan

def test_the_picture_of_the_limits():
    "the bakery: 300 kg of flour and 40 hours are used up, of 90 hours of staff 1672/25; 14 * 40 is more than 1.6 * 300, and that more than 80 / 50"
    text = words_of(page_text("ranging"))
    found = [text.index(words_of(words)) for words in ("OVEN OVEN 100 % of at most 40 price 14", "FLOUR FLOUR 100 % of at most 300 price 1.6",
                                                       "ORDER ORDER 100 % of exactly 80 price -0.02", "STAFF STAFF ≈74.3 % of at most 90")]
    assert found == sorted(found)


def use(activity, limit, kind="at most", price="0"):
    return limits.Use("X", kind, Fraction(activity), Fraction(limit), Fraction(price))


@pytest.mark.parametrize("told, words", (
    (use("1/3", 1), "≈33.3 % of at most 1"), (use(9999999, 10000000), "just under 100 % of at most 10000000"),
    (use(5, 0), "5 from at most 0"), (use(0, 0), "at most 0"), (use(-3, 4), "7 from at most 4"), (use(240, 60, "at least"), "400 % of at least 60"),
    (use("10000001/10000000", 1, "at least"), "just over 100 % of at least 1"), (use(-2, -4), "50 % of at most -4"), (use(0, 7), "0 % of at most 7")))
def test_the_words_of_a_limit(told, words):
    assert told.words == words


@pytest.mark.parametrize("value, words", (("100000000000", "1E11"), ("1234567891", "≈1.2346E9"), ("1/3", "≈0.33333"), ("12345678", "12345678"), ("-1/7", "≈-0.14286")))
def test_a_number_in_a_few_letters(value, words):
    assert limits.brief(Fraction(value)) == words


# ---- the sum that proves that there is no plan

CROSSED = """         PROGRAM
         CONVERT
         SETUP('BOUND','B')
         PRIMAL
         EXIT
         PEND
NAME          CROSSED
ROWS
 N  COST
 L  SUM
COLUMNS
    X         COST      1              SUM       1
RHS
    R         SUM       9
BOUNDS
 LO B         X         5
 UP B         X         3
ENDATA
"""


def test_limits_that_cross():
    "5 <= X <= 3: -X is at most -5 and X at most 3, so 0 at most -2"
    listing = "CONVERT CROSSED  ROWS 2 COLUMNS 1 ENTRIES 2\nSETUP   CROSSED  MIN\nPRIMAL INFEASIBLE STEPS 0 CROSSED 3 CHECKED\nEND 1\n"
    text = words_of(check_page("crossed", page_of(CROSSED, listing)).text)
    for words in ("the lower limit of X is above its upper one", "X -1 at least 5 -5 −X 2", "X 1 at most 3 3 X 2", "Sum -2 0, whatever the plan",
                  "2 rows, 1 column, 2 entries"):
        assert words_of(words) in text, words


def test_a_ray_of_another_job(tmp_path):
    "rows whose sum isn't 0 by the job's entries prove nothing, and no page is made"
    job, listing = tmp_path / "other.job", EXAMPLES / "conflict.listing"
    job.write_text((EXAMPLES / "conflict.job").read_text().replace("HOURS     5", "HOURS     6"))
    told = call(SCRIPTS / "listing2html.py", job, listing)
    assert told.returncode == 65 and b"don't add up to 0" in told.stderr


@pytest.mark.parametrize("name", ("conflict", "endless", "pararhs", "paraobj"))
def test_a_listing_that_is_cut_off(name):
    "wherever the listing is cut off there is a page, which doesn't say that a part of a ray proves anything"
    listing = (EXAMPLES / f"{name}.listing").read_text().split("\n")
    for count in range(1, len(listing) - 1):
        text = check_page(name, page_of((EXAMPLES / f"{name}.job").read_text(), "\n".join([*listing[:count], ""]))).text
        assert "Cut off." in text and ("The sum that proves it" not in text) and "What changes" not in text


def test_a_direction_of_another_job(tmp_path):
    "a direction that meets a limit shows nothing"
    job = tmp_path / "other.job"
    job.write_text((EXAMPLES / "endless.job").read_text().replace("ENDATA", "BOUNDS\n UP B         BUY       9\nENDATA").replace("SETUP('MAX')", "SETUP('MAX','BOUND','B')"))
    told = call(SCRIPTS / "listing2html.py", job, EXAMPLES / "endless.listing")
    assert told.returncode == 65 and b"meets a limit" in told.stderr, told


@pytest.mark.parametrize("name, old, new", (
    ("endless", "    1 PROFIT   200 2\n", ""), ("endless", "UNBOUNDED STEPS 1 OBJECTIVE 200", "OPTIMAL STEPS 1 RAY"),
    ("conflict", "    2 HOURS    1\n    3 CHAIRS   -2\n    4 TABLES   -5\n", ""), ("paraobj", "    7 BUY      LL 0 0 -15 1\nINTERVAL 2", "INTERVAL 2"),
    ("paraobj", "    1 PROFIT   -32 -15\n", "")))
def test_a_listing_that_lacks_a_part(tmp_path, name, old, new):
    "what no run prints is told, and no page is made of it"
    listing, text = tmp_path / "part.listing", (EXAMPLES / f"{name}.listing").read_text()
    assert old in text
    listing.write_text(text.replace(old, new))
    told = call(SCRIPTS / "listing2html.py", EXAMPLES / f"{name}.job", listing)
    assert told.returncode == 65 and b"Traceback" not in told.stderr and not told.stdout, told


# ---- numbers and units

def test_numbers_of_many_digits():
    "thirty digits are shown whole; of more the first twelve and how many there are, and the whole where it is unfolded"
    thirty, more = "1" * 30, "-" + "123456789" * 4
    assert shown.exact(thirty) == f'<span class="long">{thirty}</span>'
    read = Read(shown.exact(f"{more}/7"))
    assert [tag for tag, _ in read.tags] == ["details", "summary", "span"] and read.pieces == ["-123456789123… (36 digits) / 7", f"{more}/7"]


@pytest.mark.parametrize("text, units", (
    ("* UNITS FLOUR: kg\n*UNITS a:b : t a day\n", {"FLOUR": "kg", "a:b": "t a day"}), ("\\ UNITS x1: EUR\r\n", {"x1": "EUR"}),
    ("* UNITS: kg\n* units x: kg\n UNITS x: kg\n* the UNITS x: kg\n* UNITS x:\n", {}), ("* UNITS x: kg\n* UNITS x: t\n", {"x": "t"})))
def test_the_units_of_remarks(text, units):
    assert units_of(text) == units


def test_units_on_a_page():
    "units stand with names, with the best value and in the heads of prices"
    text = words_of(page_text("ranging", old="NAME          BAKERY", new="* UNITS FLOUR: kg\n* UNITS PROFIT: EUR\nNAME          BAKERY"))
    for words in ("The greatest value of PROFIT is 1038.4 (exactly 5192/5) EUR :", "FLOUR kg 300 1.6 8/5", "100 % of at most 300 kg", "Shadow price EUR for each unit",
                  "by its price in EUR for each unit"):
        assert words_of(words) in text, words


def test_units_of_long_names(tmp_path):
    "units of a file whose names the job shortens"
    model, page = tmp_path / "glass.mps", tmp_path / "glass.html"
    model.write_text("* UNITS plant_3_hours: h\n* UNITS doors: batches\n* UNITS total_profit: kEUR\n" + (EXAMPLES / "glass.mps").read_text())
    call(SCRIPTS / "solve", "--with", "none", "--program", programs_at_hand.solver(tmp_path), "--html", page, "--keep", tmp_path, model)
    text = words_of(check_page("glass", page.read_text(encoding="utf-8")).text)
    for words in ("doors batches 2", "plant_3_hours h 18", "total_profit is 36 kEUR :"):
        assert words_of(words) in text, words
    assert json.loads((tmp_path / "glass.names").read_text())["units"] == {"plant_3_hours": "h", "doors": "batches", "total_profit": "kEUR"}


# ---- a narrow screen, and paper

def browser(tmp_path, *words):
    "what a browser without a window comes to"
    return subprocess.run([BROWSER, "--headless", "--no-sandbox", "--disable-gpu", f"--user-data-dir={tmp_path}/browser", *map(str, words)],
                          capture_output=True, timeout=120, check=False)


def twenty_columns():
    "a job of twenty columns, and its listing, as a reader may print it: column k has the number k on the row, and costs k; the last may be 3"
    names = [f"COLUMN{k:02}" for k in range(1, 21)]
    deck = [line for k, name in enumerate(names, 1) for line in (f"    {name}  COST      {k:<15}ROOM      {k}",)]
    job = ["         PROGRAM", "         TITLE('TWENTY')", "         CONVERT", "         SETUP('MAX')", "         PRIMAL", "         SOLUTION", "         EXIT",
           "         PEND", "NAME          TWENTY", "ROWS", " N  COST", " L  ROOM", "COLUMNS", *deck, "RHS", "    R         ROOM      60", "ENDATA"]
    lines = [f"{k + 2:5} {name} {'BS' if k == 20 else 'LL'} {3 if k == 20 else 0} {k} 0 NONE 0" for k, name in enumerate(names, 1)]
    listing = ["TITLE TWENTY", "CONVERT TWENTY   ROWS 2 COLUMNS 20 ENTRIES 40", "SETUP   TWENTY   MAX", "PRIMAL OPTIMAL STEPS 1 OBJECTIVE 60 CHECKED",
               "SOLUTION OPTIMAL", "SECTION 1 - ROWS", "NUMBER ROW AT ACTIVITY SLACK LOWER UPPER DUAL", "    1 COST     BS 60 -60 NONE NONE 0",
               "    2 ROOM     UL 60 0 NONE 60 1", "SECTION 2 - COLUMNS", "NUMBER COLUMN AT ACTIVITY COST LOWER UPPER REDUCED", *lines, "END 0"]
    return "\n".join([*job, ""]), "\n".join([*listing, ""])


@pytest.mark.parametrize("name", ("ranging", "conflict", "endless", "pararhs", "wide", "twenty"))
def test_on_a_narrow_screen(tmp_path, name):
    "nothing but a table's own frame is scrolled sideways at 390 pixels"
    if not BROWSER:
        pytest.skip("no browser (chromium) is installed")
    texts = twenty_columns() if name == "twenty" else ((EXAMPLES / f"{name}.job").read_text(), (EXAMPLES / f"{name}.listing").read_text())
    around = tmp_path / "around.html"
    text = json.dumps(page_of(*texts, origin=PROVED)).replace("</", "<\\/")
    around.write_text("<!DOCTYPE html><title>none</title><iframe id=f width=390 height=900 style='border:0'></iframe><script>"
                      "const f = document.getElementById('f'); f.onload = () => { const root = f.contentDocument.documentElement;"
                      "document.title = root.scrollWidth <= f.contentWindow.innerWidth ? 'fits' : root.scrollWidth; };"
                      f"f.srcdoc = {text}</script>", encoding="utf-8")
    told = browser(tmp_path, "--virtual-time-budget=4000", "--dump-dom", f"file://{around}")
    assert b"<title>fits</title>" in told.stdout, told.stdout[:200]


def pages_of(pdf):
    "how many pages a PDF has"
    return len(re.findall(rb"/Type\s*/Page[^s]", pdf.read_bytes()))


@pytest.mark.parametrize("is_exact", (False, True))
def test_on_paper(tmp_path, is_exact):
    "twenty columns are two pages at most, with fractions and without"
    if not BROWSER:
        pytest.skip("no browser (chromium) is installed")
    page, pdf = tmp_path / "page.html", tmp_path / "page.pdf"
    text = page_of(*twenty_columns(), origin=PROVED)
    page.write_text(text.replace('id="exact"', 'id="exact" checked') if is_exact else text, encoding="utf-8")
    browser(tmp_path, "--no-pdf-header-footer", f"--print-to-pdf={pdf}", f"file://{page}")
    assert 1 <= pages_of(pdf) <= 2


# ---- random jobs

@pytest.mark.parametrize("seed", range(40))
def test_the_page_of_a_random_job(seed):
    "whatever a job does, its page is made: each ray's activities add up to 0 by the job's entries, and no limit stops a direction; so is that of a part"
    job = random_jobs.job(seed, True, True, True, True, True, True)
    run = oracle_listing.Run(job)
    run.run()
    check_page(str(seed), page_of(job, "\n".join([*run.lines, ""])))
    check_page(str(seed), page_of(job, "\n".join([*run.lines[:seed % len(run.lines)], ""])))


@pytest.mark.parametrize("where", ("cb", "ub", "ar", "cbura"))
@pytest.mark.parametrize("seed", range(8))
def test_the_page_of_long_numbers(seed, where):
    "of a model whose long numbers stand on several rows in its job, the activities of a ray add up to 0 by the file's rows and columns"
    job = exact_job(read_text(random_text(seed, where, 3), Reading(negative_up="free", numbers="exact")), True, "long")
    run = oracle_listing.Run(job.text)
    run.run()
    read = check_page(where, page_of(job.text, "\n".join([*run.lines, ""]), names_of(job.name_map())))
    if "Infeasible." in read.text:
        assert "The sum that proves it" in read.text and "The activities, column by column" in read.text
        added = set(job.split.table(job)["rows"]) | set(job.split.table(job)["columns"]) if job.split else set()
        shown_ = read.text.partition("What is proved")[0].split()
        assert not added & {word.strip("()") for word in shown_}
