"""How much of a file a dump reads, and how much memory it uses."""

from __future__ import annotations

from dataclasses import dataclass, replace
from enum import Enum
from typing import Any, Final

from . import _structures


class Left(Enum):
    """The value of an argument that a caller leaves out, if None has a meaning of its own."""

    OUT = "left out"


def number(name: str, given: int, bits: int) -> int:
    """A number for a u32 or a u64 of the library: ctypes would drop its higher bits."""
    if not 0 <= given < 1 << bits:
        raise ValueError(f"{name} is not between 0 and {(1 << bits) - 1}")
    return given


@dataclass(frozen=True, slots=True)
class Limits:
    """How much of a file a dump reads, and how much memory it uses. None is no limit, and 0 is no byte. If no limits are
    given, a dump has those of `untrusted`.

    >>> import mdmp
    >>> mdmp.Limits.untrusted().budget
    67108864
    >>> try:
    ...     mdmp.open("crashpad-one.dmp", limits=mdmp.Limits(budget=31)).threads
    ... except mdmp.LimitReached as reached:
    ...     print(reached)
    fetch budget reached: offset 0 size 32
    """

    window: int = _structures.WINDOW
    """The size of the buffer for records, in bytes: 168 to 2^30."""
    name: int = _structures.NAME
    """The longest name that is read, in bytes: at most 2^30."""
    budget: int | None = None
    """The most bytes of the file that one listing or one copy reads. Each table, each text and `memory` is a listing of
    its own. If its first buffer is too short, the listing is made again, and counts from 0 again."""
    memory: int | None = None
    """The most bytes that the lists of one listing or copy take: window, directory, ranges of memory, name."""
    aside: int | None = None
    """The most bytes of CodeView records that one text with `pdb` reads. `budget` does not count them."""
    output: int | None = None
    """The most bytes of the rows that one property keeps, as `sys.getsizeof` counts them with their names. Also the most
    bytes of one text. It does not limit `write_list` and copies."""

    def __post_init__(self) -> None:
        number("window", self.window, 32)
        number("name", self.name, 32)
        for name in ("budget", "memory", "aside", "output"):
            given = getattr(self, name)
            if given is not None:
                number(name, given, 64)

    @classmethod
    def untrusted(cls) -> Limits:
        """The limits for files from strangers: 64 MiB each for `budget`, `memory`, `aside` and `output`."""
        most = _structures.UNTRUSTED
        return cls(budget=most, memory=most, aside=most, output=most)

    def _plain(self) -> _structures.Limits:
        most = [_structures.NO_LIMIT if given is None else given for given in (self.budget, self.memory, self.aside)]
        return _structures.Limits(self.window, self.name, *most)


UNTRUSTED: Final = Limits.untrusted()


def limits_of(limits: Limits | None, **given: Any) -> Limits:
    """These limits, or no limit if they are None, with the numbers that a caller did not leave out."""
    numbers = {name: given for name, given in given.items() if given is not Left.OUT}
    return replace(Limits() if limits is None else limits, **numbers)
