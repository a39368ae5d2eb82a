"""Numbers of more than 12 columns: small models whose answers are worked out by hand, and random ones against esolver's exact objective. Each answer,
as it comes back in the file's names, is tested in fractions against the model that was read.

Jobs are run by MPS360_PROGRAM, by the proved program where it is fresh, else by oracle/listing.py. Where esolver isn't installed, what it says is
left out."""
import os
import pathlib
import re
import shutil
import subprocess
import tempfile
from fractions import Fraction

import pytest

import places
import exact_answers
from long_models import random_text
from mps360 import bases, long_answers, mps, programs, solutions
from mps360.jobs.write import exact_job
from mps360.errors import Refused
from mps360.listings import read as listing_read, restore
from mps360.listings.write import Answer
from oracle import attesting, listing as oracle_listing

assert places
PROGRAM = os.environ.get("MPS360_PROGRAM") or programs.proved_program()
ESOLVER = shutil.which("esolver")
COUNT = 200


def listing_by_program(text):
    if PROGRAM:
        return subprocess.run([PROGRAM], input=text.encode(), stdout=subprocess.PIPE, timeout=120).stdout.decode()
    run = oracle_listing.Run(text)
    run.run()
    return "\n".join(run.lines) + "\n"


def reading(**words):
    return mps.Reading(numbers="exact", **words)


def restored(job, listing):
    "the reports of a listing, without what was added to the job"
    reports = listing_read.parse(listing)["reports"]
    entry = job.name_map().get("long")
    if entry:
        restore.restore(reports, restore.Table(entry))
    return reports


def run_model(model, ranging=False):
    job = exact_job(model, ranging)
    return job, restored(job, listing_by_program(job.text))


def report_of(reports, kind):
    return next(report for report in reports if report["report"] == kind)


def lines_of(report, key):
    return {line["name"]: line for line in report[key]}


def model_of(rows, columns, rhs=(), ranges=(), bounds=(), sense="MIN", **words):
    "a model of lines of a file"
    parts = (("ROWS", rows), ("COLUMNS", columns), ("RHS", rhs), ("RANGES", ranges), ("BOUNDS", bounds))
    lines = ["NAME T", "OBJSENSE", f"    {sense}", *(line for section, items in parts if items for line in (section, *(" " + item for item in items)))]
    return mps.read_text("\n".join([*lines, "ENDATA"]) + "\n", reading(**words))


# ---- worked out by hand

def test_costs_sides_and_bounds():
    "X at most 2.718281828459045, X + Y at least 3.141592653589793: X is as large as can be, since Y costs more"
    model = model_of(["N COST", "L LIM", "G NEED"],
                     ["X COST 1.123456789012345", "X LIM .3333333333333333", "X NEED 1", "Y COST 2", "Y LIM 1", "Y NEED 1"],
                     ["B LIM 100", "B NEED 3.141592653589793"], (), ["UP BND X 2.718281828459045"])
    job, reports = run_model(model, True)
    x, y = Fraction("2.718281828459045"), Fraction("3.141592653589793") - Fraction("2.718281828459045")
    total = Fraction("1.123456789012345") * x + 2 * y
    assert report_of(reports, "verdict")["objective"] == str(total) == "156019752995708028115153276421/40000000000000000000000000000"
    solution = report_of(reports, "solution")
    exact_answers.check_solution(model, solution, total)
    line = lines_of(solution, "columns")["X"]
    assert (line["at"], line["activity"], line["reduced"]) == ("UL", str(x), str(Fraction("1.123456789012345") - 2))
    line = lines_of(solution, "rows")["NEED"]
    assert (line["at"], line["activity"], line["slack"], line["dual"]) == ("LL", str(x + y), "0", "2")
    # X may be from where Y would be below 0 up to where it meets NEED; Y may not go below 0
    ranges = report_of(reports, "ranges")
    line = lines_of(ranges, "columns_at_limit")["X"]
    assert (line["limit_high"], line["cost_low"], line["cost_high"]) == (str(x + y), None, "2")
    assert lines_of(ranges, "rows_at_limit")["NEED"]["limit_low"] == str(x)
    assert not set(lines_of(ranges, "columns_between")) - {"Y"} and not set(lines_of(ranges, "rows_between")) - {"COST", "LIM"}


def test_no_row_is_added_for_a_right_hand_side():
    model = model_of(["N COST", "G NEED"], ["X COST 1", "X NEED 1"], ["B NEED 3.141592653589793"])
    job, _ = run_model(model)
    assert list(job.rows) == ["COST", "NEED"] and len(job.columns) == 2
    assert "3.1415926535" in job.text and "-89793E-15" in job.text


@pytest.mark.parametrize("sense, at, value", [("MAX", "UL", "2.345678901234567"), ("MIN", "LL", "1.111111011111110211")])
def test_range(sense, at, value):
    "1.5123456 X between 1.111111011111110211 and 2.345678901234567"
    model = model_of(["N COST", "L R"], ["X COST 1", "X R 1.5123456"], ["B R 2.345678901234567"], ["R R 1.234567890123456789"], sense=sense)
    _, reports = run_model(model, True)
    solution, x = report_of(reports, "solution"), Fraction(value) / Fraction("1.5123456")
    exact_answers.check_solution(model, solution, x)
    line = lines_of(solution, "rows")["R"]
    assert (line["at"], line["activity"], line["dual"]) == (at, str(Fraction(value)), str(1 / Fraction("1.5123456")))
    assert (line["lower"], line["upper"]) == (str(Fraction("1.111111011111110211")), str(Fraction("2.345678901234567")))
    # the price of R holds as far as the other limit, and down to where X is 0
    line = lines_of(report_of(reports, "ranges"), "rows_at_limit")["R"]
    ends = (str(Fraction("1.111111011111110211")), None) if sense == "MAX" else ("0", str(Fraction("2.345678901234567")))
    assert (line["limit_low"], line["limit_high"]) == ends
    assert not [line for line in report_of(reports, "ranges")["rows_between"] if line["name"] != "COST"]


def test_multiplier():
    "a combination 1.234567890123456789 P + Q of at most 2, where Q is 1: X is 1 / 1.234567890123456789"
    model = model_of(["N COST", "N P", "N Q", "DL BOTH P 1.234567890123456789 Q 1"], ["X COST 1", "X P 1", "Y Q 1"], ["B BOTH 2"], (),
                     ["FX BND Y 1"], sense="MAX")
    _, reports = run_model(model)
    exact_answers.check_solution(model, report_of(reports, "solution"), 1 / Fraction("1.234567890123456789"))


def test_combination_with_a_long_side_and_range():
    model = model_of(["N COST", "N P", "N Q", "DL BOTH P 1.5 Q 1"], ["X COST 1", "X P 1", "Y Q 1"], ["B BOTH 2.00000000000000001"],
                     ["R BOTH 1.00000000000000002"], ["UP BND Y 1", "LO BND Y .5"])
    for sense, total in (("MAX", Fraction("1.50000000000000001") / Fraction("1.5")), ("MIN", 0)):
        model.sense = sense
        _, reports = run_model(model)
        exact_answers.check_solution(model, report_of(reports, "solution"), total)


@pytest.mark.parametrize("bounds, sense, at, value", [
    (["LO BND X 1.23456789012345678"], "MIN", "LL", "1.23456789012345678"),
    (["LO BND X -1.23456789012345678"], "MIN", "LL", "-1.23456789012345678"),
    (["UP BND X 1.23456789012345678"], "MAX", "UL", "1.23456789012345678"),
    (["MI BND X", "UP BND X -1.23456789012345678"], "MAX", "UL", "-1.23456789012345678"),
    (["FX BND X 1.23456789012345678"], "MAX", "EQ", "1.23456789012345678"),
    (["LO BND X 1.23456789012345678", "UP BND X 1.23456789012345679"], "MIN", "LL", "1.23456789012345678"),
    (["LO BND X 1.23456789012345678", "UP BND X 1.23456789012345679"], "MAX", "UL", "1.23456789012345679"),
    (["UP BND X .00000000000000000123456789012345678"], "MAX", "UL", ".00000000000000000123456789012345678"),
    (["UP BND X 12345678901234567890"], "MAX", "UL", "12345678901234567890")])
def test_bounds(bounds, sense, at, value):
    model = model_of(["N COST", "L R"], ["X COST 3", "X R 1", "Y R 1"], [f"B R {'100' if Fraction(value) < 100 else '1E20'}"], (), bounds, sense, infinity=Fraction(10) ** 30)
    _, reports = run_model(model, True)
    solution = report_of(reports, "solution")
    exact_answers.check_solution(model, solution, 3 * Fraction(value))
    line = lines_of(solution, "columns")["X"]
    assert (line["at"], line["activity"], line["reduced"]) == (at, str(Fraction(value)), "3")
    assert "X" in lines_of(report_of(reports, "ranges"), "columns_at_limit")


def test_infeasible():
    "X + Y at least 3.0000000000000001, but X at most 1.00000000000000001 and Y at most 2: the rows' and columns' factors in the file's names"
    model = model_of(["N COST", "G NEED"], ["X COST 1", "X NEED 1", "Y COST 1", "Y NEED 1"], ["B NEED 3.0000000000000001"], (),
                     ["UP BND X 1.00000000000000001", "UP BND Y 2"])
    _, reports = run_model(model)
    verdict = report_of(reports, "verdict")
    exact_answers.check_ray(model, verdict)
    assert {line["name"]: line["multiplier"] for line in verdict["ray"]} == {"NEED": "-1", "X": "1", "Y": "1"}


def test_crossed_by_a_last_digit():
    model = model_of(["N COST", "L R"], ["X COST 1", "X R 1"], ["B R 9"], (), ["LO BND X 1.00000000000000002", "UP BND X 1.00000000000000001"])
    _, reports = run_model(model)
    verdict = report_of(reports, "verdict")
    assert verdict["verdict"] == "infeasible" and "ray" not in verdict
    assert verdict["crossed"] == list(exact_job(model).columns).index("X") + len(exact_job(model).rows) + 1


def test_unbounded():
    model = model_of(["N COST", "L R"], ["X COST 1.00000000000000001", "X R 1", "Y R -1"], ["B R 2.00000000000000001"], (), ["LO BND X 1.5000000000000001"], "MAX")
    _, reports = run_model(model)
    verdict = report_of(reports, "verdict")
    assert verdict["verdict"] == "unbounded"
    exact_answers.check_direction(model, verdict)


def test_constant_of_the_objective():
    model = model_of(["N COST", "G NEED"], ["X COST 1", "X NEED 1"], ["B NEED 2", "B COST -1.23456789012345678"])
    job, reports = run_model(model)
    assert model.constant == Fraction("1.23456789012345678")
    names = listing_read.names_of(job.name_map())
    listing_read.add_constant(reports, *names)
    assert report_of(reports, "verdict")["objective_with_constant"] == str(Fraction("3.23456789012345678"))


def test_short_numbers_change_nothing():
    model = model_of(["N COST", "G NEED"], ["X COST 1", "X NEED 1"], ["B NEED 2"])
    job = exact_job(model)
    assert job.split is None and job.model is model and "long" not in job.name_map()


def test_made_up_names_are_no_names_of_the_file():
    model = model_of(["N COST", "G P1", "G B2"], ["ONE3 COST 1", "ONE3 P1 1.00000000000000001", "P2 P1 1", "P2 B2 1"],
                     ["B P1 2.00000000000000001", "B B2 1"])
    job, reports = run_model(model)
    assert len(set(job.rows) | set(job.columns)) == len(job.rows) + len(job.columns)
    exact_answers.check_solution(model, report_of(reports, "solution"), Fraction(report_of(reports, "verdict")["objective"]))


def test_sets_that_are_not_taken():
    "another set of right-hand sides says another thing beside the column that is fixed at 1: it is left out, and that is said"
    rows, columns = ["N COST", "G NEED"], ["X COST 1", "X NEED 1"]
    job = exact_job(model_of(rows, columns, ["A NEED 2.00000000000000001", "B NEED 5"], rhs_set="A"))
    assert list(job.model.rhs) == ["A"] and any(said.startswith("the set B of RHS, which isn't taken, is left out") for said in job.said)
    job = exact_job(model_of(rows, ["X COST 1.00000000000000001", "X NEED 1"], ["A NEED 2", "B NEED 5"], rhs_set="A"))
    assert list(job.model.rhs) == ["A", "B"]


# ---- what is refused

@pytest.mark.parametrize("word, cause", [("1." + "1" * 39, "more than 38 digits"), ("1E-37", "digits below 1E-36"), ("1E41", "past 1E40")])
def test_too_many_digits(word, cause):
    text = f"NAME T\nROWS\n N COST\n G NEED\nCOLUMNS\n X COST 1\n X NEED {word}\nRHS\n B NEED 1\nENDATA\n"
    with pytest.raises(Refused) as refused:
        exact_job(mps.read_text(text, reading()))
    lines = str(refused.value).split("\n")
    assert lines[0].startswith("line 7: ") and cause in lines[0]
    assert lines[1] == f"     X NEED {word}" and lines[2] == " " * 12 + "^" * len(word)


def test_a_number_without_a_decimal_form():
    "of a model that no file was read for: 1/3, and what has a decimal form but no short one"
    model = model_of(["N COST", "G NEED"], ["X COST 1", "X NEED 1"], ["B NEED 1"])
    model.columns["X"]["NEED"] = Fraction(1, 3)
    with pytest.raises(Refused) as refused:
        exact_job(model)
    assert str(refused.value) == "1/3 has no decimal form, however many digits it had: multiply its row or its limit"
    model.columns["X"]["NEED"] = Fraction(1, 2 ** 40)
    with pytest.raises(Refused) as refused:
        exact_job(model)
    assert "digits below 1E-36" in str(refused.value)
    model.columns["X"]["NEED"] = Fraction(1, 2 ** 30)
    _, reports = run_model(model)
    exact_answers.check_solution(model, report_of(reports, "solution"), 2 ** 30)


def test_too_many_rows():
    "999 rows fit, and the two parts of their costs don't"
    rows = ["N COST", *(f"L R{k}" for k in range(998))]
    columns = [line for k in range(998) for line in (f"X{k} COST 1.0000000000{k + 1:07}", f"X{k} R{k} 1")]
    with pytest.raises(Refused) as refused:
        exact_job(model_of(rows, columns, ["B R1 1"]))
    assert str(refused.value).startswith("the job would have 1,001 rows, and 1,000 are the most: 2 of them hold the digits of numbers")


# ---- doubles

@pytest.mark.parametrize("word, taken", [("0.10000000000000001", "0.1"), ("0.3333333333333333", "0.3333333333333333"), ("1.1000000000000001", "1.1"),
                                         ("0.29999999999999998890", "0.29999999999999998890"), ("123456789012", "123456789012"),
                                         ("9.9999999999999995D-07", "1e-06"), ("-2.2999999999999998", "-2.3")])
def test_doubles(word, taken):
    model = model_of(["N COST", "G NEED"], [f"X COST {word}", "X NEED 1"], ["B NEED 2"], doubles=True)
    assert model.columns["X"]["COST"] == Fraction(taken)
    assert [short for _, _, short in model.doubles] == ([taken] if word != taken else [])
    told = [said for said in model.said if "the same double" in said]
    assert told == ([f"1 number of 16 or 17 digits was taken as the shortest decimal that is the same double, as {taken} for {word} in line 8"] if word != taken else [])


# ---- random models

def solution_of_esolver(text, folder):
    "what esolver writes of a file, or nothing where it refuses the file"
    model, solution, basis = (pathlib.Path(folder, name) for name in ("m.mps", "m.sol", "m.bas"))
    model.write_text(text)
    subprocess.run([ESOLVER, "-O", solution, "-b", basis, model], capture_output=True, timeout=60)
    return (solution.read_text() if solution.exists() else ""), (basis.read_text() if basis.exists() else "")


KINDS = [("c", 5), ("b", 5), ("u", 5), ("r", 4), ("cb", 5), ("cu", 4), ("br", 4), ("a", 1), ("a", 2), ("bur", 5)]


def check_against_esolver(model, text, verdict):
    with tempfile.TemporaryDirectory() as folder:
        solution, basis = solution_of_esolver(text, folder)
    status = (re.match(r"status(?: =)? (\S+)", solution) or [None, None])[1]
    if status is None:    # (esolver takes no file with limits that cross)
        limits = [model.column_limits(column) for column in model.columns]
        assert verdict["verdict"] == "infeasible" and any(None not in ends and ends[0] > ends[1] for ends in limits)
        return
    assert status == verdict["verdict"].upper()
    if status == "OPTIMAL":
        assert Fraction(re.search(r"Value = (\S+)", solution)[1]) == Fraction(verdict["objective"])
        check_attested(model, solution)
        check_basis(model, basis, verdict["objective"])


def check_attested(model, solution):
    "esolver's answer of the file is one of the job, and is attested"
    job = exact_job(model)
    status, said = attesting.attest(job.text.encode(), long_answers.listing_of(job, solutions.read_esolver(solution, model)).encode())
    assert status in (0, 42), said


def check_basis(model, text, objective):
    "esolver's basis of the file is one of the job, and PRIMAL makes no step from there"
    job = exact_job(model)
    listing = listing_by_program(bases.with_insert(job, bases.read_text(text, model, "esolver")))
    assert f"PRIMAL OPTIMAL STEPS 0 OBJECTIVE {objective} CHECKED" in listing or "STOP 20" in listing, listing


def test_random_models_are_as_esolver_says():
    "200 files of 17 digits: each verdict and objective is esolver's, and each answer holds in the file's own numbers; a run may stop with 20"
    came, stopped = {"optimal": 0, "infeasible": 0, "unbounded": 0}, 0
    for seed in range(COUNT // len(KINDS)):
        for where, rows in KINDS:
            text = random_text(seed, where, rows)
            model = mps.read_text(text, reading(negative_up="free"))
            job = exact_job(model, True)
            listing = listing_by_program(job.text)
            if "\nSTOP 20 " in listing:
                stopped += 1
                continue
            reports = restored(job, listing)
            verdict = report_of(reports, "verdict")
            came[verdict["verdict"]] += 1
            if verdict["verdict"] == "optimal":
                exact_answers.check_solution(model, report_of(reports, "solution"), Fraction(verdict["objective"]))
            elif "ray" in verdict:
                exact_answers.check_ray(model, verdict)
            elif verdict["verdict"] == "unbounded":
                exact_answers.check_direction(model, verdict)
            if ESOLVER:
                check_against_esolver(model, text, verdict)
    assert sum(came.values()) + stopped == COUNT and stopped < COUNT // 10 and min(came.values()) >= 5, (came, stopped)


# ---- answers of others

def test_prices_of_limits_that_are_rows():
    "the price of a column's long limit is the reduced cost that the answer says, and what it doesn't say is worked out"
    model = model_of(["N COST", "G NEED"], ["X COST 1", "X NEED 1", "Y COST 2", "Y NEED 1"], ["B NEED 3"], (), ["UP BND X 2.00000000000000001"])
    job, x = exact_job(model), Fraction("2.00000000000000001")
    answer = Answer("optimal", columns={"X": x, "Y": 3 - x}, prices={"NEED": Fraction(2)})
    for reduced in (None, {"X": Fraction(-1), "Y": Fraction(0)}):
        answer.reduced = reduced
        listing = long_answers.listing_of(job, answer)
        assert attesting.attest(job.text.encode(), listing.encode())[1].startswith("ATTESTED"), listing
        exact_answers.check_solution(model, report_of(restored(job, listing), "solution"), x + 2 * (3 - x))
    answer.reduced = {"X": Fraction(-2), "Y": Fraction(0)}
    listing = long_answers.listing_of(job, answer)
    assert attesting.attest(job.text.encode(), listing.encode())[1].startswith("WRONG")


def test_costs_that_are_sums():
    "the objective is a combination, 2 P, so X of at most 2.00000000000000001 costs 2: its reduced cost is worked out from that"
    model = model_of(["N P", "DN COST P 2", "G NEED"], ["X P 1", "X NEED 1", "Y P 1.5", "Y NEED 1"], ["B NEED 3"], (), ["UP BND X 2.00000000000000001"],
                     objective="COST")
    job, x = exact_job(model), Fraction("2.00000000000000001")
    answer = Answer("optimal", columns={"X": x, "Y": 3 - x}, prices={"NEED": Fraction(3)})
    listing = long_answers.listing_of(job, answer)
    assert attesting.attest(job.text.encode(), listing.encode())[1].startswith("ATTESTED"), listing
    exact_answers.check_solution(model, report_of(restored(job, listing), "solution"), 2 * x + 3 * (3 - x))


def test_ray_of_limits_that_are_rows():
    model = model_of(["N COST", "G NEED"], ["X COST 1", "X NEED 1"], ["B NEED 3.00000000000000001"], (), ["UP BND X 3"])
    job = exact_job(model)
    for ray, answer in (({"NEED": Fraction(-1)}, "ATTESTED"), ({"NEED": Fraction(1)}, "WRONG")):
        listing = long_answers.listing_of(job, Answer("infeasible", ray=ray))
        assert attesting.attest(job.text.encode(), listing.encode())[1].startswith(answer), listing
    model = model_of(["N COST", "L R"], ["X COST 1", "X R 1"], ["B R 9"], (), ["LO BND X 1.00000000000000002", "UP BND X 1.00000000000000001"])
    job = exact_job(model)
    listing = long_answers.listing_of(job, Answer("infeasible", crossed=("column", "X")))
    assert attesting.attest(job.text.encode(), listing.encode())[1].startswith("ATTESTED"), listing


def test_a_spoilt_table_is_refused():
    entry = exact_job(model_of(["N COST", "G NEED"], ["X COST 1", "X NEED 1"], ["B NEED 2.00000000000000001"])).name_map()["long"]
    restore.Table(entry)
    for key, value in (("rows", 3), ("places", [{}]), ("moved", {"B1": {"of": "row", "name": "NO", "end": "lower", "shift": "0"}}), ("columns", None)):
        with pytest.raises(restore.BadTable):
            restore.Table(entry | {key: value})
