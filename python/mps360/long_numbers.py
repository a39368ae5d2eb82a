"""Numbers that 12 columns don't hold, kept exactly: a model with such numbers becomes one of short numbers that says the same.

    split = split_model(MODEL)      a Split: the model of short numbers, and how answers of the one become answers of the other. Refused where
                                    a number has too many digits, with its line, or a job can't hold what is added

jobs.write.exact_job makes the job.

The activity of a sum of rows is the sum of their activities, exactly. So

- a row with a long entry becomes a combination of new N rows, its parts, which hold the digits of its entries, eleven each; their multipliers
  are the powers of ten at which these digits stand;
- a long right-hand side keeps its leading digits, and the entry of a new column, fixed at 1, on the row takes away the rest;
- a long limit of a column becomes a row of its own, which has 1 on the column, and the limit as its right-hand side;
- a row with a long range becomes an N row, and its two limits become rows of which it is the part;
- a long multiplier of a combination is dealt out over its part and a copy of this part, which is a combination of the part alone.

What is added is named nowhere but in the job: listings.restore leaves it out of what a listing says, and puts shifted numbers back."""
from __future__ import annotations

from dataclasses import dataclass, field, replace
from fractions import Fraction
from typing import TYPE_CHECKING, Any, Callable, Iterator, TypeVar

from mps360.errors import Refused
from mps360.model import MOST, Limits, Model, of_set
from mps360.numbers import MOST_POWER, decimal_parts, text_of
from mps360.text import counted, some_of

if TYPE_CHECKING:
    from mps360.jobs.write import Job

# digits of an entry on a part: with a sign they fill 12 columns, and beside an exponent of two digits with its sign
DIGITS, DIGITS_BESIDE_POWER = 11, 7
MOST_DIGITS, LEAST_POWER = 38, -36
# what a refusal says last, for readers of files that may round
ROUNDS = ": --round takes the nearest number of 12 columns"
ZERO, UNIT = Fraction(0), Fraction(1)
Entries = dict[str, Fraction]
Item = TypeVar("Item")
End = str  # "lower", "upper" or "both"


def is_long(value: Fraction | None) -> bool:
    "whether 12 columns don't hold this number"
    return value is not None and text_of(value) is None


def power_of_ten(power: int) -> Fraction:
    return Fraction(10) ** power


@dataclass(frozen=True)
class Moved:
    "a limit that is a row of its own: of the column or the row of this name, at this end; shift is what its activity lacks"
    of: str  # "column" or "row"
    name: str
    end: End
    shift: Fraction


@dataclass
class Split:
    "a model of short numbers, made of the file's; all names are those of these two models"
    file: Model
    model: Model
    one: str | None = None                                     # the column that is fixed at 1
    added: list[str] = field(default_factory=list)             # rows that the file hasn't
    shifts: dict[str, Fraction] = field(default_factory=dict)  # of a row of the file: its activity and limits are greater by this in the file
    moved: dict[str, Moved] = field(default_factory=dict)      # of an added row: the limit that it stands for

    def table(self, job: Job) -> dict[str, Any]:
        "what was added to the job of the model and what was moved, for a table of names: listings.restore says what is in it"
        short = {"row": job.rows, "column": job.columns}
        numbers = {("row", row): k for k, row in enumerate(job.rows, 1)}
        numbers |= {("column", column): k for k, column in enumerate(job.columns, len(job.rows) + 1)}
        changed = dict.fromkeys([*(("row", row) for row in self.shifts), *((moved.of, moved.name) for moved in self.moved.values())])
        moved = {job.rows[row]: {"of": limit.of, "name": short[limit.of][limit.name], "end": limit.end, "shift": str(limit.shift)}
                 for row, limit in self.moved.items()}
        places = [{"name": short[of][name], "number": numbers[of, name], **self.place(of, name)} for of, name in changed]
        entries = sum(len(column) or 1 for column in self.file.columns.values())
        return {"rows": [job.rows[row] for row in self.added], "columns": [job.columns[self.one]] if self.one else [], "places": places, "moved": moved,
                "counts": {"rows": len(self.file.rows), "columns": len(self.file.columns), "entries": entries}}

    def place(self, of: str, name: str) -> dict[str, str | None]:
        "the limits that a row or a column has in the file, and what its activity lacks in the job"
        lower, upper = self.file.row_limits(name) if of == "row" else self.file.column_limits(name)
        rhs = {"rhs": str(of_set(self.file.rhs, self.file.rhs_set).get(name, 0))} if of == "row" else {}
        return {"of": of, "lower": None if lower is None else str(lower), "upper": None if upper is None else str(upper),
                "shift": str(self.shifts.get(name, ZERO) if of == "row" else ZERO), **rhs}


# ---- digits

def places_of(value: Fraction, model: Model) -> tuple[int, int]:
    "the digits of a number as an integer, and the power of ten of the last of them; Refused where they are too many or too small"
    parts = decimal_parts(value)
    if parts is None and not is_decimal(value):
        raise refused_number(value, model, "no decimal form, however many digits it had: multiply its row or its limit")
    if parts is None or len(str(abs(parts[0]))) > MOST_DIGITS or parts[1] < LEAST_POWER:
        raise refused_number(value, model, f"more than {MOST_DIGITS} digits, or digits below 1E{LEAST_POWER} or past 1E40{ROUNDS}")
    return parts


def is_decimal(value: Fraction) -> bool:
    "whether a number has a decimal form: no prime but 2 and 5 divides its denominator"
    bottom = value.denominator
    return bool(pow(10, bottom.bit_length(), bottom) == 0)


def refused_number(value: Fraction, model: Model, cause: str) -> Refused:
    "a refusal that names the line and the word of a long number, where the reader knows these"
    shown = str(value) if len(str(value)) <= 60 else str(value)[:57] + "..."
    place = model.long.get(value)
    refusal = Refused(f"{place.word[:60] if place else shown} has {cause}")
    if place:
        refusal.line, refusal.text, refusal.span = place.line, place.text, place.span
    return refusal


def halves(value: Fraction, model: Model) -> tuple[Fraction, Fraction]:
    "the leading digits of a number, as many as 12 columns hold (0 where none are), and the rest; of several ways one whose rest is short"
    digits, power = places_of(value, model)
    bare, sign = str(abs(digits)), -1 if digits < 0 else 1
    found = None
    for count in range(min(len(bare), DIGITS), 0, -1):
        head = sign * int(bare[:count]) * power_of_ten(power + len(bare) - count)
        if text_of(head) is None:
            continue
        if not is_long(value - head):
            return head, value - head
        found = found or head
    return (found, value - found) if found else (ZERO, value)


def powers_for(values: list[Fraction], model: Model) -> list[int]:
    "the powers of ten at which the digits of these numbers are cut, from the least on"
    places = [places_of(value, model) for value in values]
    at, end = min(power for _, power in places), max(power + len(str(abs(digits))) for digits, power in places)
    powers = []
    while at < end:
        powers.append(at)
        at += DIGITS if -MOST_POWER <= at <= MOST_POWER else DIGITS_BESIDE_POWER
    return powers


def multiplier_of(power: int) -> Fraction:
    return power_of_ten(max(-MOST_POWER, min(MOST_POWER, power)))


def part_of_short(value: Fraction, powers: list[int]) -> int | None:
    "the part whose entry alone may hold a short number"
    return next((k for k in reversed(range(len(powers))) if not is_long(value / multiplier_of(powers[k]))), None)


def powers_of(entries: Entries, model: Model) -> list[int]:
    "the powers of ten at which the digits of a row's entries are cut: its long entries decide, and short ones that no part holds alone"
    cut = [value for value in entries.values() if is_long(value)]
    powers = powers_for(cut, model)
    others = [value for value in entries.values() if value and not is_long(value)]
    if missing := [value for value in others if part_of_short(value, powers) is None]:
        powers = powers_for(cut + missing, model)
        if any(part_of_short(value, powers) is None for value in others):
            powers = powers_for(cut + others, model)
    return powers


def dealt_out(value: Fraction, powers: list[int], model: Model) -> Iterator[tuple[int, Fraction]]:
    "the parts and their entries, which times their multipliers add up to this number"
    if not is_long(value) and (alone := part_of_short(value, powers)) is not None:
        yield alone, value / multiplier_of(powers[alone])
        return
    digits, power = places_of(value, model)
    left, sign = abs(digits) * 10 ** (power - powers[0]), -1 if digits < 0 else 1
    for k, at in enumerate(powers):
        width = powers[k + 1] - at if k + 1 < len(powers) else len(str(left))
        left, chunk = divmod(left, 10 ** width)
        if chunk:
            yield k, sign * chunk * power_of_ten(at) / multiplier_of(at)


# ---- the model of short numbers

class Splitter:
    "makes the model of short numbers"

    def __init__(self, model: Model) -> None:
        self.file = model
        self.new = replace(model, said=list(model.said), rhs=copied(model.rhs), ranges=copied(model.ranges), bounds=copied(model.bounds))
        # (parts come before their combinations, so the rows are put anew, in their order)
        self.new.rows, self.new.parts, self.new.columns = {}, {}, {}
        self.split = Split(model, self.new)
        self.taken, self.count = {*model.rows, *model.columns}, 0
        self.rhs, self.ranges = of_set(self.new.rhs, model.rhs_set), of_set(self.new.ranges, model.range_set)
        self.entries = self.rows_to_cut()
        self.long_multipliers: list[str] = []

    def run(self) -> Split:
        for row, kind in self.file.rows.items():
            self.take_row(row, kind)
        for column, limits in of_set(self.file.bounds, self.file.bound_set).items():
            self.take_limits(column, limits)
        self.leave_out_sets()
        self.tell()
        return self.split

    def rows_to_cut(self) -> dict[str, Entries]:
        "the entries of the rows that have a long one, or are to have one; all others go to the new columns as they are"
        cut: dict[str, Entries] = {row: {} for entries in self.file.columns.values() for row, value in entries.items() if is_long(value)}
        for row, right in of_set(self.file.rhs, self.file.rhs_set).items():
            if self.is_shifted(row) and row not in self.file.parts and is_long(halves(right, self.file)[1]):
                cut[row] = {}
        for column, entries in self.file.columns.items():
            self.new.columns[column] = {row: value for row, value in entries.items() if row not in cut}
            for row, value in entries.items():
                if row in cut:
                    cut[row][column] = value
        return cut

    def has_long_range(self, row: str) -> bool:
        return is_long(of_set(self.file.ranges, self.file.range_set).get(row))

    def is_shifted(self, row: str) -> bool:
        "whether the row keeps the leading digits of its right-hand side alone"
        right = of_set(self.file.rhs, self.file.rhs_set).get(row)
        return self.file.rows[row] != "N" and is_long(right) and not self.has_long_range(row)

    # ---- names

    def named(self, stem: str) -> str:
        while True:
            self.count += 1
            if (name := f"{stem}{self.count}") not in self.taken:
                self.taken.add(name)
                return name

    def add_row(self, stem: str) -> str:
        name = self.named(stem)
        self.split.added.append(name)
        return name

    def one(self) -> str:
        "the column that is fixed at 1"
        if self.split.one is None:
            self.split.one = name = self.named("ONE")
            self.new.columns[name] = {}
            if self.new.bound_set is None:
                self.new.bound_set = "BND"
            self.new.bounds.setdefault(self.new.bound_set, {})[name] = Limits(UNIT, UNIT)
        return self.split.one

    # ---- rows

    def take_row(self, row: str, kind: str) -> None:
        if kind != "N" and self.has_long_range(row):
            self.take_range(row)
        elif self.is_shifted(row):
            self.rhs[row], self.split.shifts[row] = halves(self.rhs[row], self.file)
            self.put(row, kind, {self.one(): -self.split.shifts[row]})
        else:
            self.put(row, kind, {})

    def put(self, row: str, kind: str, more: Entries) -> None:
        "a row of the file, with more entries than those that it has there"
        if row in self.file.parts:
            self.put_combination(row, kind, more)
        elif row in self.entries:
            self.put_digits(row, kind, self.entries[row] | more)
        else:
            self.put_short(row, kind, more)

    def put_new(self, row: str, kind: str, entries: Entries) -> None:
        "a row that the file hasn't"
        put = self.put_digits if any(is_long(value) for value in entries.values()) else self.put_short
        put(row, kind, entries)

    def put_short(self, row: str, kind: str, entries: Entries) -> None:
        "a plain row, with these entries beside those that it has"
        self.new.rows[row] = kind
        for column, value in entries.items():
            self.new.columns[column][row] = value

    def put_digits(self, row: str, kind: str, entries: Entries) -> None:
        "a combination of new rows which hold the digits of these entries"
        powers = powers_of(entries, self.file)
        names = [self.add_row("P") for _ in powers]
        self.new.rows |= {name: "N" for name in names}
        self.new.rows[row] = kind
        self.new.parts[row] = {name: multiplier_of(power) for name, power in zip(names, powers)}
        for column, value in entries.items():
            for k, part in dealt_out(value, powers, self.file):
                self.new.columns[column][names[k]] = part

    def put_combination(self, row: str, kind: str, more: Entries) -> None:
        "a combination of the file; its own parts stay, and one is added where it is to have more entries"
        parts: Entries = {}
        for part, times in self.file.parts[row].items():
            parts |= self.multiples(part, times)
        if any(map(is_long, self.file.parts[row].values())):
            self.long_multipliers.append(row)
        if more:
            name = self.add_row("P")
            self.put_new(name, "N", more)
            parts[name] = UNIT
        self.new.rows[row], self.new.parts[row] = kind, parts

    def multiples(self, part: str, times: Fraction) -> Entries:
        "rows and short multipliers that add up to a multiple of a row; each further row is a combination of the one before"
        found = {}
        while is_long(times):
            head, times = halves(times, self.file)
            scale = UNIT if head else power_of_ten(-MOST_POWER if abs(times) < 1 else MOST_POWER)
            if head:
                found[part] = head
            copy, times = self.add_row("P"), times / scale
            self.new.rows[copy], self.new.parts[copy] = "N", {part: scale}
            part = copy
        return found | {part: times}

    def take_range(self, row: str) -> None:
        "a row with a long range: it becomes an N row, and its limits rows of which it is a part"
        lower, upper = self.file.row_limits(row)
        assert lower is not None and upper is not None
        self.put(row, "N", {})
        for section in (self.rhs, self.ranges):
            section.pop(row, None)
        self.take_row_limit(row, "lower", "G", lower)
        self.take_row_limit(row, "upper", "L", upper)

    def take_row_limit(self, row: str, end: End, kind: str, limit: Fraction) -> None:
        "a limit of a row becomes a row of this kind, of which it is the part"
        name, shift = self.add_row("B"), ZERO
        self.new.parts[name] = {row: UNIT}
        if is_long(limit):
            limit, shift = halves(limit, self.file)
            part = self.add_row("P")
            self.put_new(part, "N", {self.one(): -shift})
            self.new.parts[name][part] = UNIT
        self.new.rows[name] = kind
        self.set_right(name, limit)
        self.split.moved[name] = Moved("row", row, end, shift)

    def set_right(self, row: str, value: Fraction) -> None:
        if value:
            if self.new.rhs_set is None:
                self.new.rhs_set = "RHS"
            self.rhs = self.new.rhs.setdefault(self.new.rhs_set, self.rhs)
            self.rhs[row] = value

    # ---- limits of columns

    def take_limits(self, column: str, limits: Limits) -> None:
        "the long limits of a column become rows"
        lower, upper = limits.lower, limits.upper
        equal = lower is not None and lower == upper
        for end, kind, limit in (("both", "E", lower),) if equal else (("lower", "G", lower), ("upper", "L", upper)):
            if limit is not None and is_long(limit):
                head, shift = halves(limit, self.file)
                name = self.add_row("B")
                self.put_new(name, kind, {column: UNIT, self.one(): -shift})
                self.set_right(name, head)
                self.split.moved[name] = Moved("column", column, end, shift)
        of_set(self.new.bounds, self.file.bound_set)[column] = replace(limits, lower=None if is_long(lower) else lower, upper=None if is_long(upper) else upper)

    # ---- sets, and what is told

    def leave_out_sets(self) -> None:
        "sets that aren't taken stay only where they say the same beside the new rows and columns"
        new = self.new
        self.leave_out("RHS", new.rhs, new.rhs_set, lambda row, value: [value] if self.file.rows[row] != "N" else [])
        self.leave_out("RANGES", new.ranges, new.range_set, lambda row, value: [value])
        self.leave_out("BOUNDS", new.bounds, new.bound_set, lambda column, limits: [limits.lower, limits.upper])

    def leave_out(self, what: str, sets: dict[str, dict[str, Item]], taken: str | None, numbers: Callable[[str, Item], list[Fraction | None]]) -> None:
        "leaves out those sets of a section; numbers has those of an item, a limit that isn't there as None"
        changed = self.split.one is not None or bool(self.split.moved)
        for name in [name for name in sets if name != taken]:
            if changed or any(is_long(value) for row, item in sets[name].items() for value in numbers(row, item)):
                del sets[name]
                self.new.said.append(f"the set {name[:30] or 'without a name'} of {what}, which isn't taken, is left out of the job: it has long numbers, "
                                     "or says another thing beside those that are taken")

    def tell(self) -> None:
        more = [counted(len(self.split.added), "row")] + (["a column fixed at 1"] if self.split.one else [])
        cut = [*self.entries, *self.long_multipliers, *self.split.shifts, *(moved.name for moved in self.split.moved.values())]
        self.new.said.append(f"numbers of more than 12 columns ({some_of(list(dict.fromkeys(cut)))}) are kept exactly: the job has {' and '.join(more)} "
                             "more, which no answer shows")


def copied(sets: dict[str, dict[str, Item]]) -> dict[str, dict[str, Item]]:
    "the sets of a section, which may be changed apart from those of the file"
    return {name: dict(items) for name, items in sets.items()}


def check_sizes(split: Split) -> None:
    "Refused where the job would be too large by what was added"
    sizes = {"rows": (len(split.file.rows), len(split.model.rows)),
             "entries": tuple(sum(map(len, model.columns.values())) for model in (split.file, split.model))}
    for what, (before, after) in sizes.items():
        if after > MOST[what] >= before:
            raise Refused(f"the job would have {after:,} {what}, and {MOST[what]:,} are the most: {after - before:,} of them hold the digits of numbers "
                          "of more than 12 columns; --round rounds these, --doubles takes the shortest decimals that are the same doubles")


def split_model(model: Model) -> Split:
    "the model of short numbers that says the same as this one"
    split = Splitter(model).run()
    check_sizes(split)
    return split
