"What the reports of a listing mean: what a SETUP took, verdicts with their rays and directions, parametric runs."
from collections.abc import Iterator, Mapping, Sequence
from fractions import Fraction
from typing import Any

from mps360.commands import DOCUMENTS
from mps360.explain.stops import MOST_SHOWN, PLACES, more_than
from mps360.jobs.selection import LinearProgram
from mps360.listings.follow import UNKNOWN, Followed, ListingEnds, Told
from mps360.listings.made import OtherJob
from mps360.listings.read import Line, Listing
from mps360.pages.parametric import value_at


# ---- the run of a listing, without solving

class Setup:
    "what a SETUP took, and what a PRIMAL after it took otherwise"
    def __init__(self, run: "Replayed", verb: str) -> None:
        assert run.setup is not None
        problem, options = run.setup
        self.card, self.verb, self.problem, self.options, self.lp = run.card, verb, problem, options, run.lp
        self.has_sense = run.has_sense
        self.objective, self.is_moved = list(problem.rows)[run.lp.objective], "XOBJ" in run.cells
        self.rhs, self.is_rhs_moved = run.cells.get("XRHS", next(iter(problem.sets["RHS"]), None)), "XRHS" in run.cells

    def taken(self) -> tuple[str, str]:
        return self.objective, self.rhs


class Replayed(Followed):
    "keeps, beside what each report is about, each SETUP, and what a verb after it chose otherwise"
    def __init__(self, text: str, reports: Sequence[Told]) -> None:
        super().__init__(text, reports)
        self.setups: list[Setup] = []
        self.has_sense = False

    def select(self) -> None:
        super().select()
        now = Setup(self, self.verb)
        if self.verb == "SETUP" or now.taken() != self.setups[-1].taken():
            self.setups.append(now)

    def set_up(self, words: list[str]) -> None:
        self.has_sense = "MIN" in words or "MAX" in words
        super().set_up(words)


def replay(text: str, parsed: Listing) -> tuple[Replayed | None, str | None]:
    "the run of the listing over the job, as far as both go together; None and why where the job isn't followed, or the listing is another's"
    run, why = None, None
    try:
        run = Replayed(text, parsed["reports"])
        run.run()
        if len(run.about) < len(run.reports):
            why = "the listing has more reports than the job"
    except ListingEnds:
        if parsed["end"] and parsed["end"]["text"].startswith("END"):
            why = "the listing ends before the job does"
    except OtherJob as cause:
        why = str(cause)
    except UNKNOWN:
        pass
    return (None, why) if why else (run, None)


# ---- what a SETUP took, and what was perhaps forgotten

def listed(names: list[str]) -> str:
    return ", ".join(names[:MOST_SHOWN]) + more_than(names)


def lines_of_sets(what: str, option: str, name: str | None, sets: Mapping[str, Any]) -> str:
    "which set of bounds or ranges counts"
    others = [f"'{other}'" for other in sets if other != name]
    if name is not None:
        return f"{what}: the set '{name}'" + (f"; of no account: {listed(others)}" if others else "")
    if others:
        return (f"{what}: none, since SETUP names none. LOOK: the deck's {'set' if len(others) == 1 else 'sets'} {listed(others)} "
                f"of {what} {'does' if len(others) == 1 else 'do'}n't count; SETUP('{option}',{others[0]}) takes {'it' if len(others) == 1 else 'the first'}")
    return f"{what}: none; the deck has none"


def line_of_choice(what: str, name: str, is_moved: bool, cell: str, names: list[str]) -> str:
    others = [f"'{other}'" for other in names if other != name]
    if name is None:
        return f"{what}: no set; all are 0"
    if is_moved:
        how = f"as {cell} says"
    else:
        how = f"the first of {len(names)}" if others else "the only one"
    return f"{what}: '{name}', {how}" + (f" (the others: {listed(others)}); MOVE({cell},{others[0]}) before SETUP takes another" if others and not is_moved else "")


def does_nothing(setup: Setup) -> bool:
    "whether doing nothing is a best plan, since every cost is 0 or worse and no limit forces anything"
    lp = setup.lp
    costs = [entries.get(lp.objective, Fraction(0)) * lp.better() for entries in lp.columns]
    ends = list(zip(lp.lower, lp.upper))
    keeps_zero = all((low is None or low <= 0) and (high is None or high >= 0) for low, high in ends)
    return any(costs) and all(cost <= 0 for cost in costs) and keeps_zero and all(
        not cost or low == 0 for cost, (low, _) in zip(costs, ends[lp.m:]))


def setup_lines(setup: Setup) -> Iterator[str]:
    "what SETUP selects, in words"
    problem, free = setup.problem, [name for name, kind in setup.problem.rows.items() if kind == "N"]
    sense = setup.options.sense
    if setup.verb == "SETUP":
        yield f"SETUP, card {setup.card}: problem '{problem.name}', {sense}" + ("" if setup.has_sense else ", since SETUP names neither MIN nor MAX")
    else:
        yield f"{setup.verb}, card {setup.card}, chooses otherwise than SETUP did, by the cells as they stand then:"
    yield "  " + line_of_choice("objective", setup.objective, setup.is_moved, "XOBJ", free)
    if not any(setup.lp.objective in entries for entries in setup.lp.columns):
        yield f"  LOOK: the objective '{setup.objective}' has no entry, so each plan is as good as another"
    yield "  " + line_of_choice("right-hand side", setup.rhs, setup.is_rhs_moved, "XRHS", list(problem.sets["RHS"]))
    constant = setup.lp.rhs[setup.lp.objective]
    if constant:
        yield f"  LOOK: the number {constant} on the objective in RHS is used in SLACK alone; many programs read it as a constant of {-constant}"
    if setup.verb == "SETUP":
        yield "  " + lines_of_sets("bounds", "BOUND", setup.options.bound, problem.sets["BOUNDS"])
        yield "  " + lines_of_sets("ranges", "RANGE", setup.options.ranges, problem.sets["RANGES"])
    if does_nothing(setup):
        all_costs, other = ("0 or more", "MAX") if sense == "MIN" else ("0 or less", "MIN")
        yield f"  LOOK: every cost is {all_costs} and no limit forces anything, so under {sense} doing nothing is best; is {other} meant?"


def explain_setups(run: Replayed) -> None:
    "each SETUP, once where it is run again in a loop"
    told = list(dict.fromkeys("\n".join(setup_lines(setup)) for setup in run.setups[:1000]))
    for lines in told[:MOST_SHOWN]:
        print("\n" + lines)
    if len(told) > MOST_SHOWN:
        print(f"\n{more_than(told).strip()}")


def affine(constant: Fraction, rate: Fraction) -> str:
    "constant + rate * theta, as text"
    if not rate:
        return str(constant)
    term = "theta" if abs(rate) == 1 else f"{abs(rate)} theta"
    if not constant:
        return term if rate > 0 else "-" + term
    return f"{constant} {'+' if rate > 0 else '-'} {term}"


def is_of(ray: list[Line], program: LinearProgram, shift: Mapping[str, Fraction]) -> bool:
    "whether a ray's sum cancels in this linear program, each limit that it takes is there, and they don't cancel"
    factors = {line["number"] - 1: Fraction(line["multiplier"]) for line in ray}
    if any(not 0 <= k < len(program.names) or program.names[k] != line["name"] for k, line in zip(factors, ray)):
        return False
    limits = {k: (program.upper if factor > 0 else program.lower)[k] for k, factor in factors.items()}
    parts = [factors[k] * limit for k, limit in limits.items() if limit is not None]
    if len(parts) < len(limits) or not shift and sum(parts) >= 0:
        return False
    return all(not factors.get(program.m + j, 0) + sum(value * factors.get(i, 0) for i, value in entries.items())
               for j, entries in enumerate(program.columns))


def explain_ray(ray: list[Line], program: LinearProgram | None, shift: Mapping[str, Fraction]) -> list[Fraction] | None:
    "the sum of the ray's limits, as a constant and a rate with theta; None where they aren't known. The shift is of the rows' limits with theta"
    print("Multiply these activities and add them up: they cancel, whatever the plan, and their limits don't.\n")
    total = [Fraction(0), Fraction(0)]
    if program and not is_of(ray, program, shift):
        print("(The limits aren't shown: the ray doesn't cancel over this job's deck, so the listing is of another job.)\n")
        program = None
    for line in ray:
        factor, place = Fraction(line["multiplier"]), line["number"] - 1
        start = f"  {line['multiplier']:>8} x {line['name']:<8} which is"
        if program:
            limit = (program.upper if factor > 0 else program.lower)[place] or Fraction(0)
            rate = shift.get(line["name"], Fraction(0)) if place < program.m else Fraction(0)
            total = [total[0] + factor * limit, total[1] + factor * rate]
            print(f"{start} {'at most' if factor > 0 else 'at least'} {affine(limit, rate)}: at most {affine(factor * limit, factor * rate)}")
        else:
            print(f"{start} {'at most its upper' if factor > 0 else 'at least its lower'} limit")
    if program:
        print(f"\n  together 0, and at most {affine(*total)}", end="")
    return total if program else None


def explain_direction(direction: list[Line]) -> None:
    for line in direction:
        if Fraction(line["direction"]):
            print(f"  {line['name']:<8} changes by {line['direction']} a unit of the way")


def explain_verdict(report: Told, program: LinearProgram | None) -> None:
    "a verdict in words, and what its ray or its direction says"
    if report["by"] in ("paraobj", "pararhs"):
        print(f"At XPARAM, where {report['by'].upper()} begins, there is no best plan, so there are no intervals.")
    if report["verdict"] == "infeasible" and "ray" in report:
        print("No plan keeps all limits. ", end="")
        total = explain_ray(report["ray"], program, {})
        if total:
            print(f": so these limits conflict. One of them has to give way, by {-total[0]} over its factor at least.")
    elif report["verdict"] == "infeasible":
        name = f" ({program.names[report['crossed'] - 1]})" if program else ""
        print(f"No plan keeps all limits: variable {report['crossed']}{name} has a lower limit above its upper one. A negative UP leaves the\n"
              "lower limit at 0; look at its bounds and ranges.")
    elif report["verdict"] == "unbounded":
        print("The objective has no bound. From the activities of the table one may go along the direction as far as one likes:\n")
        explain_direction(report["direction"])
        print("\nA row or a bound that should stop this is missing, or the sense is the wrong one.")
    else:
        print(f"The plan of SOLUTION is best: {report['objective']}, after {report['steps']} steps" +
              (", checked again." if report["checked"] else "; its check met a number too large (UNCHECKED).") + f" {DOCUMENTS}/LISTING.md says how to read it.")


def explain_change(before: list[Line], now: list[Line]) -> None:
    "the variables that stand elsewhere than in the interval before"
    moved = [(old, new) for old, new in zip(before, now) if old["at"] != new["at"]]
    for old, new in moved[:MOST_SHOWN]:
        if new["at"] == "BS":
            told = "it has entered the basis"
        else:
            told = ("it has left the basis, and " if old["at"] == "BS" else "it ") + PLACES.get(new["at"], "stands elsewhere")
        print(f"  {new['name']:<8} {old['at']}, now {new['at']}: {told}")
    if len(moved) > MOST_SHOWN:
        print("  " + more_than(moved).strip())


def explain_interval(interval: Told, before: list[Line]) -> None:
    "an interval of a parametric run in words, and what changed at its beginning"
    lines, first, last = interval["lines"], *(Fraction(interval[end]) for end in ("from", "to"))
    constant, there = (value_at(lines, Fraction(theta)) for theta in (0, 1))
    rate = there - constant
    if first == last:
        print(f"At theta = {first} alone: the objective is {constant + rate * first}.")
    elif rate:
        print(f"Theta from {first} to {last}: the objective is {affine(constant, rate)}, from {constant + rate * first} to {constant + rate * last}.")
    else:
        print(f"Theta from {first} to {last}: the objective is {constant}.")
    explain_change(before, lines)


def explain_past_limits(report: Told, program: LinearProgram | None, shift: Mapping[str, Fraction]) -> None:
    print(f"Past theta = {report['at']} no plan keeps all limits. ", end="")
    total = explain_ray(report["ray"], program, shift)
    if total:
        share = "" if total[1] == -1 else f" over {-total[1]}"
        print(f", which is less than 0 past {report['at']}: so these limits conflict there.\n"
              f"  A unit by which one of them gives way moves that end by its factor{share} at most.")


def explain_past_bound(report: Told, program: LinearProgram | None) -> None:
    print(f"Past theta = {report['at']} the objective has no bound. From the activities of the table one may go along the direction as far as one likes:\n")
    explain_direction(report["direction"])
    if program:
        moves = [Fraction(line["direction"]) for line in report["direction"]]
        change = next(Fraction(line["direction"]) for line in report["direction"] if line["name"] == report["change"])
        print(f"\nEach time the objective changes by {affine(moves[program.objective], change)}", end="")
        print(f", which is {'more' if program.sense == 'MAX' else 'less'} than 0 past {report['at']}.", end="")
    print("\nA row or a bound that should stop this is missing, or theta isn't to go so far.")


def explain_parametric(report: Told, program: LinearProgram | None, shift: Mapping[str, Fraction]) -> None:
    "a parametric run"
    verb = report["by"].upper()
    print(f"{verb}: theta times the {'row' if verb == 'PARAOBJ' else 'set'} {report['change']} is added to the {'objective' if verb == 'PARAOBJ' else 'limits of the rows'}.")
    before: list[Line] = []
    for interval in report["intervals"]:
        explain_interval(interval, before)
        before = interval["lines"]
    if report.get("end") == "ends":
        print(f"XPARMAX is reached, and XPARAM is left at {report['at']}: after a MOVE of a greater XPARMAX, {verb} goes on from there.")
    elif report.get("end") == "infeasible":
        explain_past_limits(report, program, shift)
    elif report.get("end") == "unbounded":
        explain_past_bound(report, program)


def explain_reports(reports: Sequence[Told], run: Replayed | None) -> None:
    "each parametric run, and the last verdict"
    last = max((k for k, report in enumerate(reports) if report["report"] == "verdict"), default=None)
    for k, report in enumerate(reports):
        program = run.about[k] if run and k < len(run.about) else None
        if k == last:
            print()
            explain_verdict(report, program)
        elif report["report"] == "parametric":
            print()
            explain_parametric(report, program, run.shifts.get(k, {}) if run else {})
