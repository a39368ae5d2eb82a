"""Reads exact solutions of linear programs that other programs wrote, by the names of the model. solution2listing.py imports it.

    answer = read_file(PATH, MODEL)     an answer_listing.Answer by the model's names; MODEL is mps_file's. NoSolution says what is wrong,
                                        and in which line or under which key; OSError where PATH can't be read

Two forms are read, gzipped too: what `esolver -O` of QSopt_ex writes, which leaves out what is 0; and JSON, which the page on models of other
solvers describes. Numbers are whole, or fractions such as -7/3: a decimal number is refused, since most programs round it."""
import json
import re
from fractions import Fraction
from typing import Any, NoReturn

from mps360.commands import called
from mps360.errors import Refused
from mps360.files import unzipped
from mps360.listings.write import Answer
from mps360.model import Model
from mps360.model import Sums
from mps360.numbers import MOST_DIGITS
from mps360.text import short_text

FRACTION = re.compile(r"[+-]?[0-9]+(?:/[0-9]+)?")
DECIMAL = re.compile(r"[+-]?(?:[0-9]+(?:\.[0-9]*)?|\.[0-9]+)(?:[eE][+-]?[0-9]+)?")
MOST_BYTES = 300_000_000
SECTIONS = {"VARS:": "columns", "REDUCED COST:": "reduced", "PI:": "prices", "SLACK:": "slack"}
KEYS = {"optimal": {"columns", "prices", "reduced", "objective"}, "infeasible": {"ray", "column_ray", "crossed"},
        "unbounded": {"columns", "direction", "objective"}}
TABLES = {"columns": "columns", "prices": "rows", "reduced": "columns", "ray": "rows", "column_ray": "columns", "direction": "columns"}
NEEDED = {"optimal": ("columns", "prices"), "infeasible": (), "unbounded": ("columns", "direction")}


# what helps where a solver gives rounded numbers
OF_FLOATS = (f"Of rounded numbers nothing is proved, but of the basis at which a solver ended: {called('solve')} --with highs MODEL.mps asks the solver for it, "
             f"and {called('prove')} --basis BASIS MODEL.mps takes one that was written")


class NoSolution(Exception):
    "why a file isn't taken"


def number(word: str) -> Fraction:
    "an exact number, whole or a fraction"
    if DECIMAL.fullmatch(word) and not FRACTION.fullmatch(word):
        raise NoSolution(f"{word[:40]} is a decimal number, which may be rounded: an exact one is whole, or a fraction such as -7/3. {OF_FLOATS}")
    if not FRACTION.fullmatch(word) or re.search(r"/0+$", word):
        raise NoSolution(f"{word[:40]!r} isn't a number, whole or a fraction such as -7/3")
    if any(len(part) > MOST_DIGITS for part in word.lstrip("+-").split("/")):
        raise NoSolution(f"{word[:40]}.. has more than {MOST_DIGITS:,} digits above or below the line")
    return Fraction(word)


class Names:
    "the names of a model's rows and columns"
    def __init__(self, model: Model) -> None:
        self.rows, self.columns = model.rows, model.columns

    def put(self, table: dict[str, Fraction], kind: str, name: str, value: Fraction) -> None:
        "puts the number of a row or a column into a table; kind is rows or columns"
        if name not in getattr(self, kind):
            raise NoSolution(f"the model has no {kind[:-1]} {name[:60]!r}")
        if name in table:
            raise NoSolution(f"the {kind[:-1]} {name[:60]!r} stands twice")
        table[name] = value


# ---- what esolver writes

def read_esolver(text: str, model: Model) -> Answer:
    "the answer of what esolver -O writes"
    lines = text.split("\n")
    status = lines[0].removeprefix("status").strip(" =").split(" ")[0]
    if status != "OPTIMAL":
        raise NoSolution(f"esolver says {status}, and writes no ray and no direction that would prove it. PRIMAL finds them: "
                         f"{called('solve')} MODEL.mps, or with another solver's basis {called('solve')} --basis BASIS MODEL.mps")
    names, told, section = Names(model), None, ""
    tables: dict[str, dict[str, Fraction]] = {}
    for place, line in enumerate(lines, 1):
        try:
            if line.strip() in SECTIONS:
                section = SECTIONS[line.strip()]
                if section in tables:
                    raise NoSolution(f"a second section {line.strip()}")
                tables[section] = {}
            elif not section and (found := re.match(r"\s*Value = (.*)", line)):
                told = number(found[1].strip())
            elif section and line.strip():
                name, equals, word = line.rpartition(" = ")
                if not equals:
                    raise NoSolution(f"{line[:60]!r} isn't a name and its number")
                names.put(tables[section], "columns" if section in ("columns", "reduced") else "rows", name.strip(), number(word.strip()))
        except NoSolution as cause:
            raise NoSolution(f"line {place}: {cause}") from None
    for title, section in SECTIONS.items():
        if section not in tables and section != "slack":
            raise NoSolution(f"the section {title} is missing, and it isn't made up here")
    check_objective(told, tables["columns"], model)
    return Answer("optimal", columns=tables["columns"], prices=tables["prices"], reduced=tables["reduced"])


def check_objective(told: Fraction | None, columns: dict[str, Fraction], model: Model) -> None:
    "an objective that isn't that of the activities tells of another model, or of one that was read otherwise; a constant may be in it or not"
    if told is None:
        return
    sums = Sums(model)
    worth = sum((value * sums.of(name).get(model.objective, Fraction(0)) for name, value in columns.items()), Fraction(0))
    if told not in (worth, worth + model.constant):
        raise NoSolution(f"the objective is said to be {short_text(told)}, and by the activities it is {short_text(worth)}: a solution of another model, or of one that its "
                         "solver reads otherwise")


# ---- JSON

def no_float(word: str) -> NoReturn:
    "NoSolution, since a decimal number may be rounded"
    raise NoSolution(f"{word[:40]} is a decimal number, which may be rounded: write an exact one as text, such as \"-7/3\". {OF_FLOATS}")


def no_twice(pairs: list[tuple[str, Any]]) -> dict[str, Any]:
    "an object of JSON, in which no key stands twice"
    table = dict(pairs)
    if len(table) < len(pairs):
        seen = [key for key, _ in pairs]
        raise NoSolution(f"{next(key for key in seen if seen.count(key) > 1)[:60]!r} stands twice")
    return table


def read_json(text: str, model: Model) -> Answer:
    "the answer of a JSON object"
    try:
        whole = json.loads(text, parse_float=no_float, parse_constant=no_float, object_pairs_hook=no_twice)
    except RecursionError:
        raise NoSolution("it isn't JSON of this form: too deep") from None
    except ValueError as cause:
        raise NoSolution(f"it isn't JSON: {cause}") from None
    kind = whole.get("answer") if isinstance(whole, dict) else None
    if not isinstance(kind, str) or kind not in KEYS:
        raise NoSolution('"answer" is to be "optimal", "infeasible" or "unbounded"')
    unknown = set(whole) - KEYS[kind] - {"answer", "said"}
    if unknown:
        raise NoSolution(f"an answer {kind} has no {min(unknown)[:60]!r}: its keys are {', '.join(sorted(KEYS[kind]))}")
    for key in NEEDED[kind]:
        if key not in whole:
            raise NoSolution(f"{key!r} is missing, and it isn't made up here")
    if kind == "infeasible" and ("ray" in whole) == ("crossed" in whole):
        raise NoSolution("an answer infeasible has a 'ray', or the variable that is 'crossed'")
    if "column_ray" in whole and "ray" not in whole:
        raise NoSolution("'column_ray' stands beside a 'ray'")
    tables = {key: read_table(key, whole[key], model) for key in TABLES if key in whole}
    if "objective" in whole:
        check_objective(json_number("objective", whole["objective"]), tables["columns"], model)
    return Answer(kind, crossed=read_crossed(whole["crossed"], model) if "crossed" in whole else None, **tables)


def json_number(key: str, value: object) -> Fraction:
    "an exact number of JSON"
    if isinstance(value, bool) or not isinstance(value, (int, str)):
        raise NoSolution(f"{key}: {str(value)[:40]} isn't a number, whole or a text such as \"-7/3\"")
    try:
        return number(str(value))
    except NoSolution as cause:
        raise NoSolution(f"{key}: {cause}") from None


def read_table(key: str, given: object, model: Model) -> dict[str, Fraction]:
    "a table of names and numbers"
    if not isinstance(given, dict):
        raise NoSolution(f"{key!r} is to be a table of names and numbers")
    names = Names(model)
    table: dict[str, Fraction] = {}
    for name, value in given.items():
        try:
            names.put(table, TABLES[key], name, json_number(name[:60], value))
        except NoSolution as cause:
            raise NoSolution(f"{key}: {cause}") from None
    return table


def read_crossed(given: object, model: Model) -> tuple[str, str]:
    "the row or the column whose limits cross"
    kind, name = next(iter(given.items())) if isinstance(given, dict) and len(given) == 1 else (None, None)
    if kind not in ("row", "column") or not isinstance(name, str):
        raise NoSolution('crossed: it is to be {"row": NAME} or {"column": NAME}')
    Names(model).put({}, kind + "s", name, Fraction(0))
    return kind, name


# ---- a file

def read_bytes(data: bytes, model: Model) -> Answer:
    "the answer of the bytes of a file, gzipped or not"
    try:
        data = unzipped(data, MOST_BYTES)
    except Refused as cause:
        raise NoSolution(str(cause)) from None
    try:
        text = data.decode("utf-8-sig")
    except UnicodeDecodeError as cause:
        # (names as the reader of models has them, of a file that isn't UTF-8)
        text = data.decode("latin-1")
        if text.lstrip()[:1] == "{":
            raise NoSolution(f"line {text.count(chr(10), 0, cause.start) + 1}: it isn't UTF-8, as JSON is") from None
    if text.lstrip()[:1] == "{":
        return read_json(text, model)
    if re.match(r"status(?: =)? \S", text):
        return read_esolver(text, model)
    raise NoSolution(f"it is neither what esolver -O writes, which begins with status, nor a JSON object. {OF_FLOATS}")


def read_file(path: str, model: Model) -> Answer:
    "the answer of a file"
    with open(path, "rb") as source:
        return read_bytes(source.read(MOST_BYTES + 1), model)
