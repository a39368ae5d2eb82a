"""What proves that there is no plan, or no best one, as a reader can add it up: the limits that conflict, each times its factor, with their sum; and
the direction along which the objective gets better, with what no limit stops and by how much each unit of the way is better."""
from __future__ import annotations

import functools
from collections.abc import Callable, Iterator, Mapping, Sequence
from dataclasses import dataclass
from fractions import Fraction

from mps360.listings.made import OtherJob
from mps360.listings.read import Line
from mps360.pages.markup import Head, Html, folded, joined, paragraph, table
from mps360.pages.shown import affine, combined, fraction, number, said
from mps360.pages.subject import Naming, Subject
from mps360.text import as_text

CUT = "The listing is cut off here: what proves it isn't all there."
MOST_NAMED, MOST_TERMS, MOST_OPEN, MOST_COLUMNS = 6, 6, 12, 200


@dataclass(frozen=True)
class Taken:
    "a limit with its factor: at most the limit where the factor is positive, at least where it is negative; moves is how the limit moves with theta"
    line: Line
    place: int
    factor: Fraction
    limit: Fraction
    moves: Fraction

    @property
    def words(self) -> Html:
        "the limit in words"
        return joined(["at most " if self.factor > 0 else "at least ", affine(self.limit, self.moves)])

    @property
    def times(self) -> tuple[Fraction, Fraction]:
        "the factor times the limit, as a constant and a rate with theta"
        return self.factor * self.limit, self.factor * self.moves


def conflict_of(ray: Sequence[Line]) -> str:
    "whose limits conflict, as words"
    names = [as_text(line["name"]) for line in ray]
    if not names:
        raise OtherJob("a ray without lines")
    if len(names) == 1:
        return f"the two limits of {names[0]}"
    if len(names) > MOST_NAMED:
        return f"the limits of the {len(names)} rows and columns below"
    return f"the limits of {', '.join(names[:-1])} and {names[-1]}"


def crossed_ray(name: str, number_: int) -> list[Line]:
    "the two limits of a variable whose lower one is above its upper one, as a ray"
    return [{"number": number_, "name": name, "multiplier": factor} for factor in ("-1", "1")]


class Conflict:
    "a ray of a linear program; shift is how the limits of rows move with theta, past the parameter past which there is no plan"

    def __init__(self, subject: Subject, ray: Sequence[Line], shift: Mapping[str, Fraction], past: str | None = None) -> None:
        self.subject, self.past = subject, past
        self.taken = [self.take(line, shift) for line in ray]
        self.total = sum((one.times[0] for one in self.taken), Fraction(0)), sum((one.times[1] for one in self.taken), Fraction(0))

    def take(self, line: Line, shift: Mapping[str, Fraction]) -> Taken:
        "the limit that a line of the ray names; OtherJob where the job hasn't got it"
        place, factor = line["number"] - 1, Fraction(line["multiplier"])
        limit = self.subject.limits(place)[1 if factor > 0 else 0]
        if limit is None:
            raise OtherJob("the ray names a limit that the job hasn't")
        moves = shift.get(self.subject.program.names[place], Fraction(0)) if place < self.subject.program.m else Fraction(0)
        return Taken(line, place, factor, limit, moves)

    def sums(self) -> tuple[list[dict[int, Fraction]], dict[int, list[tuple[Taken, Fraction]]]]:
        "each line's factor times its activity as a sum of columns; and for each column its parts in these. OtherJob where they don't add up to 0"
        forms = self.subject.in_columns({one.place for one in self.taken})
        sums = [{column: one.factor * entry for column, entry in forms[one.place].items()} for one in self.taken]
        parts: dict[int, list[tuple[Taken, Fraction]]] = {}
        for one, terms in zip(self.taken, sums):
            for column, value in terms.items():
                parts.setdefault(column, []).append((one, value))
        if any(sum(value for _, value in found) for found in parts.values()):
            raise OtherJob("the ray's rows and columns, each times its factor, don't add up to 0 in this job")
        return sums, parts

    def html(self) -> Iterator[Html]:
        "the sum, line by line, and what it says"
        forms, parts = self.sums()
        by_line = {id(one.line): (one, terms) for one, terms in zip(self.taken, forms)}
        name, total = self.subject.naming.name_cell, self.total

        def of(shown: Callable[[Taken, dict[int, Fraction]], str]) -> Callable[[Line], str]:
            return lambda line: shown(*by_line[id(line)])

        heads = [Head("Limit of", name), Head("Factor", lambda line: number(line["multiplier"])), Head("Its limit", of(lambda one, _: one.words), "text"),
                 Head("Factor times limit", of(lambda one, _: affine(*one.times))),
                 Head("Factor times activity", of(lambda _, terms: self.named(terms)), "text")]
        foot = ["Sum", "", "", affine(*total), "0, whatever the plan"]
        if self.past is None:
            heads.append(Head("Alone it must give way by", of(lambda one, _: fraction(abs(total[0] / one.factor)))))
            foot.append("")
        yield paragraph("Take each of these limits times its factor: in each line factor times activity is at most factor times limit. Added up, the "
                        "activities give 0, whatever the plan.")
        yield table("The sum that proves it", heads, [one.line for one in self.taken], foot=foot)
        yield self.conclusion()
        yield from self.columns(parts)

    def columns(self, parts: dict[int, list[tuple[Taken, Fraction]]]) -> Iterator[Html]:
        "that the activities add up to 0 in each column; folded where there are many columns, left out where there are too many"
        if len(parts) <= MOST_OPEN:
            yield self.by_column(parts)
        elif len(parts) <= MOST_COLUMNS:
            yield folded(f"The activities, column by column: {len(parts)} columns", self.by_column(parts))
        else:
            yield paragraph(f"The activities add up to 0 in each of {len(parts)} columns, too many for a page.", class_="soft")

    def named(self, terms: dict[int, Fraction]) -> Html:
        "a sum of columns by their names"
        return combined([(self.subject.column_name(column), value) for column, value in terms.items()], MOST_TERMS)

    def conclusion(self) -> Html:
        "what the sum says"
        total = self.total
        if self.past is not None:
            return paragraph("But by these limits the sum is at most ", affine(*total), ", which is less than 0 for every theta past ", said(self.past), ".")
        return paragraph("But by these limits the sum is at most ", said(str(total[0])), ", and 0 isn't: so no plan keeps all of them.")

    def by_column(self, parts: dict[int, list[tuple[Taken, Fraction]]]) -> Html:
        "for each column the factors times its entries, with the row or the column that each is of: they add up to 0"
        def added(line: Line) -> Html:
            return combined([(f"({self.subject.name(one.place)})", value) for one, value in parts[line["number"]]], MOST_TERMS, with_one=True)
        lines = [{"number": column, "name": self.subject.column_name(column)} for column in sorted(parts)]
        return table("The activities, column by column: factor times entry", [Head("Column", lambda line: str(line["name"])), Head("Added up", added, "text"),
                                                    Head("Sum", lambda line: number("0"))], lines)


def factors(ray: Sequence[Line], naming: Naming) -> Iterator[Html]:
    "a ray of a linear program that isn't known"
    yield paragraph("Multiply these activities by their factors and add them up: the sum is 0, whatever the plan, and by their limits it would be less.")
    yield table("The limits that conflict", [Head("Name", naming.name_cell), Head("Factor", lambda line: number(line["multiplier"]))], ray)


# ---- no bound

def direction(lines: Sequence[Line], naming: Naming, subject: Subject | None) -> Iterator[Html]:
    "the direction, with what no limit stops"
    yield paragraph("From the activities of the table one may go along the direction as far as one likes, and all limits are kept.")
    moving = [line for line in lines if Fraction(line["direction"])]
    heads = [Head("Name", naming.name_cell), Head("Changes by", lambda line: number(line["direction"])),
             Head("From", lambda line: number(line["activity"]))]
    if subject:
        heads.append(Head("No limit stops it", functools.partial(unlimited, subject), "text"))
    yield table("What changes, for each unit of the way", heads, moving)
    if len(moving) < len(lines):
        yield paragraph("All other rows and columns stay where they are.", class_="soft")


def unlimited(subject: Subject, line: Line) -> str:
    "the limit that a moving variable hasn't got; OtherJob where it has"
    rises, limits = Fraction(line["direction"]) > 0, subject.limits(line["number"] - 1)
    if limits[1 if rises else 0] is not None:
        raise OtherJob("the direction meets a limit of the job")
    return "it has no limit" if limits == (None, None) else "it has no upper limit" if rises else "it has no lower limit"


def step_of(lines: Sequence[Line], row: int) -> str:
    "the change of a row for each unit of the way; OtherJob where the direction hasn't got it"
    step = next((line["direction"] for line in lines if line["number"] == row + 1), None)
    if step is None:
        raise OtherJob("the direction lacks the objective")
    return str(step)


def change_of(lines: Sequence[Line], subject: Subject, row: int) -> Html:
    "how the change of a row for each unit of the way adds up of those of the columns, each entry times the change; nothing where that are too many"
    m = subject.program.m
    moving = [(line, Fraction(line["direction"]), subject.columns[line["number"] - 1 - m].get(row, Fraction(0))) for line in lines if line["number"] > m]
    terms = [(f"· {step if step > 0 else f'({step})'} ({line['name']})", entry) for line, step, entry in moving if step and entry]
    return joined([combined(terms, MOST_NAMED, with_one=True), " = "]) if 1 < len(terms) <= MOST_NAMED else Html("")
