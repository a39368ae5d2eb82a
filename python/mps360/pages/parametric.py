"The best value over the parameter of a parametric run: its breakpoints, and pictures of it in letters and in SVG."
from __future__ import annotations

from collections.abc import Callable, Iterable, Iterator, Sequence
from fractions import Fraction
from xml.sax.saxutils import escape

from mps360.listings.read import Line, Parametric
from mps360.text import as_text

Point = tuple[Fraction, Fraction]       # a parameter and the best value there

WIDTH, HEIGHT = 61, 17
# of the picture: its width, and of its labels the width of a letter, as wide as those of usual fonts are, and the height of a row
WHOLE, LETTER, ROW = 640, 7, 18
WIDE, TALL, LEFT, TOP = 520, 300, 90, 40        # of the plot in it: its size, and its corner
MOST_LETTERS, MOST_ROWS = 12, 8
PASTS = {"ends": "the run ends at {}", "infeasible": "no plan past {}", "unbounded": "no bound past {}"}


class NoRun(Exception):
    "there is no parametric run that can be drawn"


def value_at(lines: Iterable[Line], theta: Fraction) -> Fraction:
    "price times activity, summed up"
    return sum(((Fraction(line["price"]) + theta * Fraction(line["price_rate"])) * (Fraction(line["value"]) + theta * Fraction(line["value_rate"]))
                for line in lines), Fraction(0))


def points_of(report: Parametric) -> list[Point]:
    "the parameters at which the chain of lines bends or ends, with the values there"
    points: list[Point] = []
    for interval in report["intervals"]:
        for theta in (Fraction(interval["from"]), Fraction(interval["to"])):
            value = value_at(interval["lines"], theta)
            if points and points[-1][0] == theta and points[-1][1] != value:
                raise NoRun(f"at {theta} one interval ends with {points[-1][1]}, and the next begins with {value}")
            if not points or points[-1][0] != theta:
                points.append((theta, value))
    return points


def title(report: Parametric) -> str:
    "what is drawn, in a line"
    if report["by"] == "paraobj":
        return f"PARAOBJ: the best value, where the parameter times the row {report['change']} is added to the objective"
    return f"PARARHS: the best value, where the parameter times the set {report['change']} is added to the limits"


def rounded(value: Fraction) -> str:
    "a number with six digits"
    return f"{float(value):.6g}"


def scaled(points: Sequence[Point], width: int, height: int) -> tuple[Callable[[Fraction, Fraction], Point], Fraction, Fraction]:
    "from exact points to places in a picture, from the left and from the top; and the least and the greatest value"
    first, last = points[0][0], points[-1][0]
    low, high = min(value for _, value in points), max(value for _, value in points)

    def place(theta: Fraction, value: Fraction) -> Point:
        across = (theta - first) / (last - first) if last > first else Fraction(1, 2)
        up = (value - low) / (high - low) if high > low else Fraction(1, 2)
        return across * width, (1 - up) * height
    return place, low, high


def between(points: Sequence[Point], theta: Fraction) -> Fraction:
    "the value at a parameter between the points"
    for (first, low), (last, high) in zip(points, points[1:]):
        if first <= theta <= last:
            return low + (high - low) * (theta - first) / (last - first)
    return points[0][1]


def in_letters(report: Parametric, points: Sequence[Point]) -> str:
    "the picture of letters, with a table of the exact values below it"
    place, low, high = scaled(points, WIDTH - 1, HEIGHT - 1)
    first, last = points[0][0], points[-1][0]
    labels = {round(place(first, value)[1]): rounded(value) for value in (low, high)}
    lines = [title(report), ""] + [f"{labels.get(k, ''):>12} |{row}" for k, row in enumerate(letters(points))]
    under = rounded(first) + (rounded(last).rjust(WIDTH - len(rounded(first))) if last > first else "")
    lines += [" " * 13 + "+" + "-" * WIDTH, " " * 14 + under, ""]
    lines += [f"{'parameter':>16} {'value':>24}  change a unit"]
    for number, (theta, value) in enumerate(points):
        slope = (points[number + 1][1] - value) / (points[number + 1][0] - theta) if number + 1 < len(points) else ""
        lines.append(f"{str(theta):>16} {str(value):>24}  {slope}".rstrip())
    return "\n".join([*lines, how_it_ends(report)]) + "\n"


def letters(points: Sequence[Point]) -> list[str]:
    "the rows of the picture of letters: a dot for the line, an o for each point"
    place, _, _ = scaled(points, WIDTH - 1, HEIGHT - 1)
    grid = [[" "] * WIDTH for _ in range(HEIGHT)]
    first, last = points[0][0], points[-1][0]
    for step in range(WIDTH if last > first else 0):
        theta = first + (last - first) * step / (WIDTH - 1)
        across, down = place(theta, between(points, theta))
        grid[round(down)][round(across)] = "."
    for theta, value in points:
        across, down = place(theta, value)
        grid[round(down)][round(across)] = "o"
    return ["".join(row).rstrip() for row in grid]


def how_it_ends(report: Parametric) -> str:
    "how the run ends, in a few words"
    return PASTS[report["end"]].format(report["at"]) if "end" in report else "the listing is cut off"


def labelled(points: Sequence[Point], across: Sequence[float]) -> list[tuple[str, float, int]]:
    """the labels of the breakpoints, in rows, so that none lies over another: the text, where its middle is, its row. A number that has more
    than MOST_LETTERS letters comes as a decimal; its exact value stands in the breakpoint's title. What finds no row is left out."""
    ends: list[float] = []
    labels: list[tuple[str, float, int]] = []
    for (theta, _), x in zip(points, across):
        words = str(theta) if len(str(theta)) <= MOST_LETTERS else rounded(theta)
        half = len(words) * LETTER / 2
        middle = min(max(x, half), WHOLE - half)
        row = next((row for row, end in enumerate(ends) if end + LETTER < middle - half), len(ends))
        if row == MOST_ROWS:
            continue
        ends[row:row + 1] = [middle + half]
        labels.append((words, middle, row))
    return labels


def svg_text(x: float, y: float, words: str, anchor: str = "middle") -> str:
    "a text in the picture, with its middle, or another point, there"
    return f'<text x="{x:.1f}" y="{y:.1f}" text-anchor="{anchor}">{escape(as_text(words))}</text>'


def svg_marks(points: Sequence[Point], spots: Sequence[tuple[float, float]], floor: int) -> Iterator[str]:
    "the line through the points, a dot for each with its exact numbers as a title, and its tick on the axis"
    yield f'<polyline points="{" ".join(f"{x:.1f},{y:.1f}" for x, y in spots)}" fill="none" stroke="navy" stroke-width="2"/>'
    for (theta, value), (x, y) in zip(points, spots):
        yield f'<circle cx="{x:.1f}" cy="{y:.1f}" r="4" fill="navy"><title>{theta}: {value}</title></circle>'
        yield f'<path d="M{x:.1f} {floor}v5" stroke="black"/>'


def in_svg(report: Parametric, points: Sequence[Point]) -> str:
    "the picture in SVG"
    place, low, high = scaled(points, WIDE, TALL)
    spots = [(LEFT + float(across), TOP + float(down)) for across, down in (place(*point) for point in points)]
    labels = labelled(points, [x for x, _ in spots])
    floor = TOP + TALL
    below = floor + ROW * (1 + max(row for _, _, row in labels))
    left_out = f" ({len(points) - len(labels)} labels left out: see the titles of the points)" if len(labels) < len(points) else ""
    parts = [f'<svg xmlns="http://www.w3.org/2000/svg" viewBox="0 0 {WHOLE} {below + 80}" font-family="sans-serif" font-size="12">',
             f'<rect width="{WHOLE}" height="{below + 80}" fill="white"/>', svg_text(320, 20, title(report)),
             f'<path d="M{LEFT} {TOP}V{floor}H{LEFT + WIDE}" fill="none" stroke="black"/>', *svg_marks(points, spots, floor)]
    parts += [svg_text(x, floor + ROW * (row + 1), words) for words, x, row in labels]
    parts += [svg_text(LEFT - 8, float(place(points[0][0], value)[1]) + TOP + 4, rounded(value), "end") for value in dict.fromkeys((low, high))]
    parts += [svg_text(320, below + 25, f"the parameter theta{left_out}"), svg_text(320, below + 50, how_it_ends(report)), "</svg>"]
    return "\n".join(parts) + "\n"
