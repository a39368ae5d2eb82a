"""listing2html.py: the pages of the examples, as docs/LISTING.md works them out by hand, what can't be made a page, and names of strangers in all forms of
an answer; in a browser where one is installed."""
import csv
import html
import io
import json
import re
import shutil

import places
import programs_at_hand
import pytest
from calls import call
from mps360.pages import html as listing2html
from page_checks import check_page, words_of

SCRIPTS, EXAMPLES = places.SCRIPTS, places.EXAMPLES
BROWSERS = ("chromium", "chromium-browser", "google-chrome")

# Names that do something where they aren't taken for text: markup, quotes, formulas, escapes of a terminal, a turned direction of writing.
HOSTILE = ("<script>alert(1)</script>", "\"'><img/src=x>", "&lt;", "=1+1", "+SUM(A1)", "-2+3", "@SUM(A1)", "'=1", "\x1b[31mred\x1b[0m", "\x07bell",
           "a\u202eb",
           "</title><script>x</script>", "Zürich")
# What the pages of the examples say, as docs/LISTING.md works it out by hand.
SAID = {
    "first": ("The greatest value of PROFIT is 1511.75 (exactly 6047/4)", "SHELF 8 8.5 17/2 at its upper limit 36 0 8",
              "BOARDS 240 4.0625 65/16 at its upper limit 0 240"),
    "ranging": ("BREAD 238.4 1192/5 0 basic 3 0 2 to ≈5.333333 16/3", "FLOUR 300 1.6 8/5 at its upper limit 0 300 151 to 376",
                "PIES 0 -0.4 -2/5 at its lower limit 4 0 −∞ to 4.4 22/5 −∞ to 76", "5 rows, 4 columns, 17 entries"),
    "conflict": ("the limits of HOURS, CHAIRS and TABLES conflict", "HOURS 1 at most 100 100 2 CHAIR + 5 TABLE 10", "CHAIRS -2 at least 20 -40 -2 CHAIR 5",
                 "TABLES -5 at least 14 -70 -5 TABLE 2", "Sum -10 0, whatever the plan", "the sum is at most -10, and 0 isn't",
                 "CHAIR 2 (HOURS) − 2 (CHAIRS) 0", "TABLE 5 (HOURS) − 5 (TABLES) 0"),
    "endless": ("PROFIT grows without end", "BUY 1 0 it has no upper limit", "SELL 1 40 it has no upper limit", "After 1 step of",
                "Each unit changes PROFIT by -3 · 1 (BUY) + 5 · 1 (SELL) = 2."),
    "pararhs": ("0 to 10 90 + 3 θ 90 120", "10 to 15 70 + 5 θ 120 145", "the sum is at most 18 − θ, which is less than 0 for every theta past 18",
                "NEED -1 at least 30 + θ -30 − θ −FARM − COOP", "FARM 0.5 1/2 at most 40 20 0.5 1/2 FARM",
                "10: 120", "18: 160"),
    "paraobj": ("2 to 15 -32 + 16 θ 0 208", "Each unit changes PROFIT + θ SOLD by -15 + θ, which is more than 0 for every theta past 15"),
    "wide": ("700000029600000359100001323/100000003700000039900000132300000000", "700000029600000359100001323 / 100000003700… (36 digits)"),
}


JOBS = sorted([*EXAMPLES.glob("*.job"), *places.DATA.glob("*.job")])


@pytest.mark.parametrize("job", JOBS)
def test_the_page_of_a_job(job):
    "a page without parts from outside, on which each line of the listing stands, and what was worked out"
    if job.stem in SAID:
        told = call(SCRIPTS / "listing2html.py", job, job.with_suffix(".listing"))
        assert told.returncode == 0, told.stderr.decode()
        page = told.stdout.decode()
    else:
        page = listing2html.page(job.read_text(), job.with_suffix(".listing").read_text())
    read = check_page(job.name, page)
    for text in SAID.get(job.stem, ()):
        assert words_of(text) in words_of(read.text), f"no {text!r}"
    for line in job.with_suffix(".listing").read_text().splitlines():
        assert line in html.unescape(page), line


@pytest.mark.parametrize("status, words", (
    (0, (EXAMPLES / "first.job", EXAMPLES / "first.listing", "-o", "PAGE")), (64, (EXAMPLES / "first.job",)),
    (73, (EXAMPLES / "first.job", EXAMPLES / "first.listing", "-o", "/none/page")), (65, (EXAMPLES / "first.job", EXAMPLES / "ranging.listing")),
    (66, (EXAMPLES / "first.job", "/none"))))
def test_the_ends_of_listing2html(tmp_path, status, words):
    told = call(SCRIPTS / "listing2html.py", *words, cwd=tmp_path)
    assert told.returncode == status and bool(told.stderr) == (status > 0) and b"Traceback" not in told.stderr, told


@pytest.mark.parametrize("text, words", (
    ((EXAMPLES / "first.listing").read_text()[:300].rpartition("\n")[0] + "\n", "Cut off."), ("STOP 12 DECK FAULT 6 CARD 12\n", "Stopped with status 12")))
def test_a_listing_that_stops(tmp_path, text, words):
    listing = tmp_path / "cut.listing"
    listing.write_text(text)
    assert words in check_page("a cut listing", call(SCRIPTS / "listing2html.py", EXAMPLES / "first.job", listing).stdout.decode()).text


# ---- strangers' names

def hostile_file(path):
    "an MPS file whose names are hostile; the plan has a 1 of each column"
    lines = ["NAME hostile", "ROWS", " N cost"] + [f" G row{k}{name}" for k, name in enumerate(HOSTILE)] + ["COLUMNS"]
    for k, name in enumerate(HOSTILE):
        lines.append(f" {name} cost 1 row{k}{name} 1")
    lines += ["RHS", *(f" RHS row{k}{name} 1" for k, name in enumerate(HOSTILE)), "ENDATA", ""]
    path.write_text("\n".join(lines), encoding="utf-8")


def no_control(output):
    return not re.search(rb"[\x00-\x09\x0b-\x1f\x7f]", output) and "\u202e" not in output.decode("utf-8")


def solved(tmp_path, *words):
    "what solve makes of the hostile file"
    model = tmp_path / "hostile.mps"
    hostile_file(model)
    return call(SCRIPTS / "solve", "--with", "none", "--program", programs_at_hand.solver(tmp_path), *words, model)


SHOWN = [name.replace("\x1b", r"\x1b").replace("\x07", r"\x07").replace("\u202e", r"\u202e") for name in HOSTILE]


def test_hostile_names_in_json_and_on_a_page(tmp_path):
    page = tmp_path / "hostile.html"
    told = solved(tmp_path, "--html", page, "--json")
    assert told.returncode == 0 and told.stdout.isascii() and no_control(told.stdout + told.stderr), told.stderr.decode()
    solution = next(report for report in json.loads(told.stdout)["reports"] if report["report"] == "solution")
    assert [line["name"] for line in solution["columns"]] == list(HOSTILE), "JSON has the names exactly"
    read = check_page("hostile names", page.read_text(encoding="utf-8"))
    assert all(name in read.pieces for name in SHOWN) and "\x1b" not in page.read_text(encoding="utf-8"), "the page shows the names as text"


def test_hostile_names_in_csv(tmp_path):
    told = solved(tmp_path, "--csv").stdout
    cells = [line["name"] for line in csv.DictReader(io.StringIO(told.decode())) if line["section"] == "columns"]
    assert cells == ["'" + name if name[0] in "=+-@'" else name for name in SHOWN] and no_control(told), "no formula"


def test_hostile_names_on_a_terminal(tmp_path):
    told = solved(tmp_path)
    assert no_control(told.stdout + told.stderr) and rb"\x1b[31mred" in told.stdout, "a terminal gets no control character"


@pytest.mark.parametrize("old, new", (("TABLE   ", "<b>x</b>"), ("A WEEK IN THE SHOP", "</title><script>alert(1)</script>\x1b[2J")))
def test_a_hostile_listing_on_a_page(tmp_path, old, new):
    job, listing = tmp_path / "hostile.job", tmp_path / "hostile.listing"
    job.write_text((EXAMPLES / "first.job").read_text().replace(old, new))
    listing.write_text((EXAMPLES / "first.listing").read_text().replace(old, new))
    told = call(SCRIPTS / "listing2html.py", job, listing)
    assert told.returncode == 0 and no_control(told.stdout)
    check_page(old, told.stdout.decode())


@pytest.mark.parametrize("text", (
    "PRIMAL OPTIMAL STEPS " + "9" * 5000 + " OBJECTIVE 1 CHECKED\n", "    1 PROFIT   BS NONE 0 NONE NONE 0\n",
    "PRIMAL OPTIMAL STEPS 1 OBJECTIVE 1/0 CHECKED\nEND 0\n", "PRIMAL OPTIMAL STEPS 1 OBJECTIVE " + "9" * 100_001 + " CHECKED\nEND 0\n", "", "\n"))
def test_what_is_no_listing(tmp_path, text):
    listing = tmp_path / "hostile.listing"
    listing.write_text(text)
    for script, words in (("listing2json.py", (listing,)), ("listing2html.py", (EXAMPLES / "first.job", listing))):
        told = call(SCRIPTS / script, *words)
        assert told.returncode == 65 and b"Traceback" not in told.stderr, script


def test_in_a_browser(tmp_path):
    "a browser shows the pages, and says nothing on its console"
    browser = next((path for name in BROWSERS if (path := shutil.which(name))), None)
    if not browser:
        pytest.skip("no browser (chromium) is installed")
    hostile, plain, picture = tmp_path / "hostile.html", tmp_path / "plain.html", tmp_path / "picture.png"
    solved(tmp_path, "--html", hostile)
    call(SCRIPTS / "listing2html.py", "-o", plain, EXAMPLES / "ranging.job", EXAMPLES / "ranging.listing")
    for page in (hostile, plain):
        told = call(browser, "--headless=new", "--no-sandbox", "--disable-gpu", f"--user-data-dir={tmp_path}/browser", "--enable-logging=stderr",
                    f"--screenshot={picture}", f"file://{page}")
        assert picture.exists() and picture.stat().st_size > 5000 and b"CONSOLE" not in told.stderr, told.stderr.decode()[-300:]
        picture.unlink(missing_ok=True)
