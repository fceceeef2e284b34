"""Draws when crashes were, by hour or by day, as SVG."""

from __future__ import annotations

import datetime
from collections import Counter
from typing import NamedTuple

from . import text
from .counting import DAY, HOUR, Counted
from .ladder import DIGIT, WIDTH, framed, line, rectangle, words_at

# The most bars: of the hours of two days, or of two months.
_HOURS, _DAYS = 48, 62
_HEIGHT, _TOP = 96, 16


class Times(NamedTuple):
    """A picture, and what it shows in words."""

    svg: str
    about: str


class _Bars(NamedTuple):
    """Counts by consecutive numbers of an hour or a day since 1970."""

    counts: Counter[int]
    first: int
    last: int
    seconds: int

    def time(self, number: int) -> str:
        moment = datetime.datetime.fromtimestamp(number * self.seconds, datetime.timezone.utc)
        return f"{moment:%Y-%m-%d %H:00}" if self.seconds == HOUR else f"{moment:%Y-%m-%d}"

    @property
    def shown(self) -> int:
        """How many crashes are in the picture."""
        return sum(count for number, count in self.counts.items() if self.first <= number <= self.last)


def _fullest(days: Counter[int]) -> tuple[int, int]:
    """The first and the last of the consecutive days with the most crashes, if there are more days than bars."""
    numbers = sorted(days)
    best, held, end = (0, 0), 0, 0
    for start, number in enumerate(numbers):
        while end < len(numbers) and numbers[end] < number + _DAYS:
            held += days[numbers[end]]
            end += 1
        best = max(best, (held, -start))
        held -= days[number]
    start = -best[1]
    first = numbers[start]
    return first, max(number for number in numbers[start:] if number < first + _DAYS)


def _bars_of(hours: Counter[int], days: Counter[int]) -> _Bars:
    """The hours of the fullest days if they are few, else these days."""
    first, last = _fullest(days)
    held = [number for number in hours if first <= number * HOUR // DAY <= last]
    if held and max(held) - min(held) < _HOURS:
        return _Bars(hours, min(held), max(held), HOUR)
    return _Bars(days, first, last, DAY)


def draw(counted: Counted) -> Times:
    """The picture, or empty texts if no crash has a time."""
    if not counted.days:
        return Times("", "")
    bars = _bars_of(counted.hours, counted.days)
    most = max(bars.counts[number] for number in range(bars.first, bars.last + 1))
    count = bars.last - bars.first + 1
    step = min(WIDTH / count, 24.0)
    parts = [words_at(0, 11, f"{text.grouped(most)} in one bar", "label faint")]
    for at in range(count):
        held = bars.counts[bars.first + at]
        if held:
            height = max(_HEIGHT * held / most, 1.5)
            words = f"{bars.time(bars.first + at)}: {text.of(held, 'crash', 'crashes')}"
            parts.append(rectangle(at * step, _TOP + _HEIGHT - height, step * 0.85, height, "bar", words))
    floor = _TOP + _HEIGHT
    parts.append(line(0, floor, WIDTH, floor, "tick"))
    first, last = bars.time(bars.first), bars.time(bars.last)
    parts.append(words_at(0, floor + 14, first, "label"))
    if count > 1 and (len(first) + len(last) + 2) * DIGIT < WIDTH:
        parts.append(words_at(WIDTH, floor + 14, f"to {last}", "label end"))
    kind = "hour" if bars.seconds == HOUR else "day"
    about = f"{text.of(bars.shown, 'crash', 'crashes')} by {kind} in UTC, from {first} to {last}."
    left = counted.crashes - bars.shown
    if left:
        about += f" {text.of(left, 'other')} {'is' if left == 1 else 'are'} of no time or of times far from these."
    return Times(framed("times", f"Crashes by {kind}", about, floor + 18, "times", "\n".join(parts)), about)
