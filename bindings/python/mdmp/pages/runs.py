"""Spans that are too many to be drawn one by one, gathered into runs of one kind."""

from __future__ import annotations

from typing import Callable

from . import text
from .places import Run, Span

Kinds = dict[str, tuple[int, str, str]]


class _Group:
    """Spans of one kind that are drawn as one."""

    __slots__ = ("start", "end", "count", "first", "is_joined")

    def __init__(self, span: Span) -> None:
        self.start, self.end, self.count, self.first, self.is_joined = span.start, span.end, 1, span, False


def _distinct(spans: list[Span]) -> list[_Group]:
    """The spans in order. Spans at exactly one place are one group."""
    groups: list[_Group] = []
    start = end = -1
    for span in sorted(spans):
        if span[0] == start and span[1] == end:
            groups[-1].count += 1
        else:
            groups.append(_Group(span))
            start, end = span[:2]
    return groups


def _nearer(groups: list[_Group], distance: int) -> list[_Group]:
    """The groups; those that are at most `distance` apart are joined."""
    joined: list[_Group] = []
    for group in groups:
        if joined and group.start <= joined[-1].end + distance:
            joined[-1].end = max(joined[-1].end, group.end)
            joined[-1].count += group.count
            joined[-1].is_joined = True
        else:
            joined.append(group)
    return joined


def runs(spans: list[Span], most: int, kinds: Kinds, label: Callable[[Span], str]) -> list[Run]:
    """The spans as at most `most` runs, or as one run for each kind. The kind that has the most is joined first: spans
    that touch, and then spans that are ever farther apart."""
    of_kind: dict[str, list[Span]] = {kind: [] for kind in kinds}
    for span in spans:
        if span.end > span.start:
            of_kind[span.kind].append(span)
    groups = {kind: _distinct(found) for kind, found in of_kind.items()}
    distance = dict.fromkeys(kinds, 0)
    while sum(map(len, groups.values())) > most:
        kind = max(groups, key=lambda one: len(groups[one]))
        if len(groups[kind]) < 2:
            break
        groups[kind] = _nearer(groups[kind], distance[kind])
        distance[kind] = max(16, distance[kind] * 16)
    out = []
    for kind, found in groups.items():
        for group in found:
            words = text.of(group.count, kinds[kind][1], kinds[kind][2]) if group.is_joined else label(group.first)
            if group.count > 1 and not group.is_joined:
                words += f", {text.grouped(group.count)} times"
            out.append(Run(group.start, group.end, kind, group.count, words))
    return sorted(out)


def joined(stretches: list[tuple[int, int]], most: int) -> list[tuple[int, int]]:
    """Stretches in order. The nearest are joined until at most `most` are left."""
    distance = 0
    while len(stretches) > most:
        nearer: list[tuple[int, int]] = []
        for start, end in stretches:
            if nearer and start <= nearer[-1][1] + distance:
                nearer[-1] = (nearer[-1][0], max(end, nearer[-1][1]))
            else:
                nearer.append((start, end))
        stretches, distance = nearer, max(16, distance * 16)
    return stretches
