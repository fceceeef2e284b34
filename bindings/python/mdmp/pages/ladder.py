"""Draws things at their places, from the first place at the top to the last at the bottom, as SVG.

The height of a piece between two borders goes by the logarithm of its length, so 24 bytes can be seen next to 5 GB.
Things of one sort are in one column. The names are to the right of the columns: each is whole, or left out if it does
not fit. WIDTH is that of a narrow screen, so that letters are large enough there.
"""

from __future__ import annotations

import html
import math
from dataclasses import dataclass, field
from typing import Callable, NamedTuple

from . import text
from .places import Run
from .runs import Kinds

WIDTH = 360
DIGIT = 6.65  # width of a letter of the font of 11 points
_TOP = 8
_LINE = 14
_LONGEST = 1100
_COLUMN = 25
_GAPS = 6  # the most gaps that are labelled


@dataclass
class Ladder:
    """What is drawn. `over` are the stretches with more than one thing, drawn over `over_columns` columns. `gaps` are
    the stretches with nothing, and `marks` lines at a place. `strip` is the size of what is shown to scale above."""

    key: str
    title: str
    about: str
    columns: int
    kinds: Kinds
    runs: list[Run]
    place: Callable[[int], str]
    tail: Callable[[Run], str]
    over: list[tuple[int, int]] = field(default_factory=list)
    over_columns: int = 3
    gaps: list[tuple[int, int]] = field(default_factory=list)
    marks: list[tuple[int, str, str]] = field(default_factory=list)
    strip: int = 0


class _Label(NamedTuple):
    wanted: float
    words: str
    tail: str
    sort: str
    right: float


def _size(stretch: tuple[int, int]) -> int:
    return stretch[1] - stretch[0]


def escaped(words: str) -> str:
    """Text, escaped for SVG."""
    return html.escape(words, quote=True)


def _number(value: float) -> str:
    return f"{value:.1f}".removesuffix(".0")


def rectangle(left: float, top: float, width: float, height: float, sort: str, words: str = "") -> str:
    """A rectangle, with the words that are shown when a pointer rests on it."""
    place = f'x="{_number(left)}" y="{_number(top)}"'
    shape = f'<rect {place} width="{_number(max(width, 0.8))}" height="{_number(max(height, 0.8))}" class="{sort}"'
    return f"{shape}><title>{escaped(words)}</title></rect>" if words else f"{shape}/>"


def line(x1: float, y1: float, x2: float, y2: float, sort: str) -> str:
    """A line."""
    return f'<line x1="{_number(x1)}" y1="{_number(y1)}" x2="{_number(x2)}" y2="{_number(y2)}" class="{sort}"/>'


def words_at(x: float, y: float, words: str, sort: str, tail: str = "") -> str:
    """Text at a place, followed by a faint part."""
    behind = f' <tspan class="faint">{escaped(tail)}</tspan>' if tail else ""
    return f'<text x="{_number(x)}" y="{_number(y)}" class="{sort}">{escaped(words)}{behind}</text>'


def heights(borders: list[int], is_held: Callable[[int, int], bool], least: float) -> list[float]:
    """The place of each border on the picture, by the logarithms of the lengths between them."""
    steps = []
    for start, end in zip(borders, borders[1:]):
        size = math.log10(1 + end - start)
        steps.append(6 + 5 * size if is_held(start, end) else 3 + 2.5 * size)
    total = sum(steps)
    wanted = max(least, min(total, _LONGEST))
    at, places = 0.0, [0.0]
    for step in steps:
        at += max(step * wanted / total, 2.5)
        places.append(at)
    return places


def spread(wanted: list[float], distance: float, end: float) -> list[float]:
    """Places that are as near to the wanted ones, which are in order, as the distance between places allows."""
    places: list[float] = []
    for place in wanted:
        places.append(max(place, places[-1] + distance) if places else place)
    limit = end
    for at in range(len(places) - 1, -1, -1):
        places[at] = min(places[at], limit)
        limit = places[at] - distance
    return places


def side_by_side(found: list[Run]) -> list[tuple[Run, int, int]]:
    """The runs of a column, each with its place among the runs that it overlaps, and how many places these need."""
    out: list[tuple[Run, int, int]] = []
    cluster: list[tuple[Run, int]] = []
    ends: list[int] = []
    for run in sorted(found):
        if ends and run.start >= max(ends):
            out += [(one, at, len(ends)) for one, at in cluster]
            cluster, ends = [], []
        at = next((at for at, end in enumerate(ends) if end <= run.start), len(ends))
        ends[at : at + 1] = [run.end]
        cluster.append((run, at))
    return out + [(one, at, len(ends)) for one, at in cluster]


class _Drawing:
    """A picture in the making: shapes, lines to names, and names."""

    def __init__(self, ladder: Ladder) -> None:
        self.ladder = ladder
        ends = {border for run in ladder.runs for border in (run.start, run.end)}
        ends |= {border for stretch in ladder.over for border in stretch} | {
            position for position, _, _ in ladder.marks
        }
        self.borders = sorted(ends)
        self.gaps = [gap for gap in sorted(ladder.gaps, key=_size)[-_GAPS:] if _size(gap) >= 64 and set(gap) <= ends]
        self.left = max(len(ladder.place(border)) for border in self.borders) * DIGIT + 8
        self.first = self.left + 10
        self.right = self.first + _COLUMN * ladder.columns
        self.top = _TOP + (34 if ladder.strip else 0)
        count = len(ladder.runs) + len(ladder.marks) + len(ladder.over) + len(self.gaps)
        places = heights(self.borders, self.is_held, _LINE * count + 20)
        self.at = {border: self.top + place for border, place in zip(self.borders, places)}
        self.height = max(self.at.values()) + 14
        self.shapes: list[str] = []
        self.labels: list[_Label] = []

    def is_held(self, start: int, end: int) -> bool:
        """Whether there is a thing between two consecutive borders."""
        return any(run.start <= start and end <= run.end for run in self.ladder.runs)

    def told(self, words: str, start: int, end: int) -> str:
        """What is from one place to another, in words."""
        place = self.ladder.place
        return f"{words}: {place(start)} to {place(end)}, {text.in_units(end - start)}"

    def label(self, start: float, size: float, words: str, tail: str, sort: str, right: float) -> None:
        """Adds words for a thing that begins at a height, has a size, and ends at `right`."""
        self.labels.append(_Label(start + min(size / 2, 9), words, tail, sort, right))

    def empty(self) -> None:
        """Draws the gaps, and labels the largest."""
        for start, end in zip(self.borders, self.borders[1:]):
            if not self.is_held(start, end):
                size = self.at[end] - self.at[start]
                words = self.told("nothing", start, end)
                self.shapes.append(rectangle(self.first, self.at[start], self.right - self.first, size, "gap", words))
        for start, end in self.gaps:
            size = self.at[end] - self.at[start]
            self.label(self.at[start], size, "nothing", text.of(end - start, "byte"), "label faint", self.right)

    def column(self, number: int) -> None:
        """Draws the runs of a column."""
        ladder = self.ladder
        for run, beside, count in side_by_side([run for run in ladder.runs if ladder.kinds[run.kind][0] == number]):
            width = (_COLUMN - 3) / count
            left, start = self.first + _COLUMN * number + beside * width, self.at[run.start]
            size = self.at[run.end] - start
            sort = f"shape {run.kind}" + (" outside" if ladder.strip and run.start >= ladder.strip else "")
            self.shapes.append(rectangle(left, start, width, size, sort, self.told(run.label, run.start, run.end)))
            self.label(start, size, run.label, ladder.tail(run), "label", left + width)

    def over(self) -> None:
        """Draws the stretches with more than one thing."""
        for start, end in self.ladder.over:
            size = self.at[end] - self.at[start]
            width = _COLUMN * self.ladder.over_columns + 1
            words = self.told("more than one thing", start, end)
            self.shapes.append(rectangle(self.first - 2, self.at[start], width, size, "over", words))
            self.label(
                self.at[start],
                size,
                "over one another",
                text.of(end - start, "byte"),
                "label strong",
                self.first + width - 2,
            )

    def marks(self) -> None:
        """Draws the lines at a place."""
        for position, words, sort in self.ladder.marks:
            height = self.at[position]
            self.shapes.append(line(self.left, height, self.right + 4, height, f"mark {sort}"))
            self.label(height, 0, words, "", "label strong", self.right + 4)

    def axis(self) -> list[str]:
        """The places of the borders, as many as fit."""
        shown, last = [], -float(_LINE)
        for border in self.borders:
            if self.at[border] - last >= 12.5:
                last = self.at[border]
                shown.append(words_at(self.left - 2, last + 4, self.ladder.place(border), "place"))
                shown.append(line(self.left, last, self.first, last, "tick"))
        return shown

    def names(self) -> tuple[list[str], list[str]]:
        """The lines to the names, and the names that fit."""
        room = int((WIDTH - self.right - 20) / DIGIT)
        labels = sorted(label for label in self.labels if text.columns(label.words) <= room)
        heights_of = spread([label.wanted for label in labels], _LINE, self.height - 6)
        lines, shown = [], []
        for label, height in zip(labels, heights_of):
            points = [(label.right, label.wanted), (self.right + 6, label.wanted), (self.right + 15, height)]
            joined = " ".join(f"{_number(across)},{_number(down)}" for across, down in points)
            lines.append(f'<polyline points="{joined}" class="leader"/>')
            is_tail_shown = text.columns(label.words) + 1 + len(label.tail) <= room
            tail = label.tail if is_tail_shown else ""
            shown.append(words_at(self.right + 18, height + 4, label.words, label.sort, tail))
        return lines, shown


def draw(ladder: Ladder) -> str:
    """The picture, or an empty string if there is nothing to draw."""
    if not ladder.runs:
        return ""
    drawing = _Drawing(ladder)
    drawing.empty()
    for number in range(ladder.columns):
        drawing.column(number)
    drawing.over()
    drawing.marks()
    lines, names = drawing.names()
    parts = [*_strip(ladder), *lines, *drawing.shapes, *drawing.axis(), *names]
    inside = _hatch(ladder.key) + "\n".join(parts)
    return framed(ladder.key, ladder.title, ladder.about, drawing.height, ladder.key, inside)


def _strip(ladder: Ladder) -> list[str]:
    """All of the file in a row, to scale."""
    size = ladder.strip
    if not size:
        return []
    shapes = [words_at(0, 10, "to scale, from 0", "label"), words_at(WIDTH, 10, text.of(size, "byte"), "label end")]
    shapes.append(rectangle(0, 15, WIDTH, 14, "gap"))
    for run in sorted(ladder.runs, key=lambda run: run.start - run.end):
        start, end = min(run.start, size), min(run.end, size)
        if end > start:
            left = min(WIDTH * start / size, WIDTH - 0.8)
            shapes.append(rectangle(left, 15, WIDTH * (end - start) / size, 14, f"bare {run.kind}"))
    return shapes


def _hatch(key: str) -> str:
    """The pattern of stretches with more than one thing."""
    shape = 'width="6" height="6" patternUnits="userSpaceOnUse" patternTransform="rotate(45)"'
    inside = '<rect width="6" height="6" class="hatch-ground"/><rect width="2.2" height="6" class="hatch-line"/>'
    return f'<defs><pattern id="{key}-hatch" {shape}>{inside}</pattern></defs>\n'


def framed(key: str, title: str, about: str, height: float, sort: str, inside: str) -> str:
    """A picture with its title and its content in words, for people who do not see it."""
    names = f'role="img" aria-labelledby="{key}-title {key}-about"'
    return (
        f'<svg viewBox="0 0 {WIDTH} {_number(height)}" {names} class="picture {sort}">\n'
        f'<title id="{key}-title">{escaped(title)}</title>\n'
        f'<desc id="{key}-about">{escaped(about)}</desc>\n'
        f"{inside}\n</svg>"
    )
