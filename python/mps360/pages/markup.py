"""HTML as text: what is put into a tag is escaped, unless it is Html already; tables, and paragraphs.

    tag("p", "a < b", class_="soft")        Html('<p class="soft">a &lt; b</p>')"""
from __future__ import annotations

import html
from collections.abc import Callable, Iterable, Sequence
from dataclasses import dataclass
from typing import Literal

from mps360.listings.read import Line
from mps360.text import as_text


Kind = Literal["number", "text", "interval"]


class Html(str):
    "text that is HTML already; every other text is escaped where it is put into a tag"


def content(part: str) -> Html:
    "a text as HTML"
    return part if isinstance(part, Html) else Html(html.escape(as_text(part), quote=True))


def joined(parts: Iterable[str]) -> Html:
    "texts one behind the other"
    return Html("".join(content(part) for part in parts))


def tag(name: str, *parts: str, **attributes: str | None) -> Html:
    "a tag with its content; class_ is the attribute class, aria_label is aria-label, and an attribute that is None is left out"
    words = "".join(f' {key.rstrip("_").replace("_", "-")}="{content(value)}"' for key, value in attributes.items() if value is not None)
    return Html(f"<{name}{words}>{joined(parts)}</{name}>")


def paragraph(*parts: str, class_: str | None = None) -> Html:
    "a paragraph; a division where a part folds, which no paragraph may hold"
    whole = joined(parts)
    if "<details" in whole:
        return tag("div", whole, class_=f"paragraph {class_ or ''}".strip())
    return tag("p", whole, class_=class_)


def folded(summary: str, *parts: str, class_: str | None = None) -> Html:
    "what is shown where its summary is chosen"
    return tag("details", tag("summary", summary), *parts, class_=class_)


@dataclass(frozen=True)
class Head:
    "the head of a table's column: its words, how its cell is made of a line, what that holds, and a unit below the words"
    words: str
    cell: Callable[[Line], str]
    kind: Kind = "number"
    unit: str = ""

    @property
    def css_class(self) -> str | None:
        "the class of its cells"
        return {"number": None, "text": "t", "interval": "i"}[self.kind]

    def html(self, is_first: bool) -> Html:
        "the cell of the head"
        below = [Html("<br>"), tag("span", self.unit, class_="unit")] if self.unit else []
        return tag("th", self.words, *below, scope="col", class_="t" if is_first else self.css_class)


def table(caption: str, heads: Sequence[Head], lines: Iterable[Line], zero: Callable[[Line], bool] = lambda line: False,
          foot: Sequence[str] = ()) -> Html:
    """a table: the first head makes the heads of the lines. Lines that are zero may be left out by the reader. The foot is the last line, a cell for
    each head. On a narrow screen it is scrolled within its own frame"""
    def row(line: Line) -> Html:
        cells = [tag("td", head.cell(line), class_=head.css_class) for head in heads[1:]]
        return tag("tr", tag("th", heads[0].cell(line), scope="row"), *cells, class_="zero" if zero(line) else None)

    def last() -> Html:
        cells = [tag("td", part, class_=head.css_class) for head, part in zip(heads[1:], foot[1:])]
        return tag("tfoot", tag("tr", tag("th", foot[0], scope="row"), *cells))

    more = tag("span", "more columns to the right", class_="more") if len(heads) > 3 else ""
    made = tag("table", tag("caption", caption, more), tag("thead", tag("tr", *(head.html(k == 0) for k, head in enumerate(heads)))),
               tag("tbody", *map(row, lines)), last() if foot else "")
    return tag("div", made, class_="wide", tabindex="0", role="region", aria_label=caption)
