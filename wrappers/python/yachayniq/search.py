"""The calls for a tree and for paths, on a request by itself or in a PCReq."""

import ctypes
from collections.abc import Iterable, Iterator, Sequence
from itertools import repeat
from typing import Any, NamedTuple

from .arguments import Address, float_of, listed, numbered
from .calls import library
from .refusal import Refused, unless_refused
from .values import Entry, Path, Tree

MOST_ADDRESSES = 17
MOST_ENTRIES = 241

_Numbers = ctypes.c_uint32 * 4
_PathRoom = ctypes.c_uint32 * MOST_ADDRESSES
_EntryNumbers = ctypes.c_uint32 * MOST_ENTRIES
_EntryMarks = ctypes.c_bool * MOST_ENTRIES
_new: Any = tuple.__new__


class Asked(NamedTuple):
    """What a call begins with.

    calls        how the calls' names begin: "" for a request, "pcreq_" for a PCReq
    arguments    profile and request, or profile, ingress and message
    destination  what every path of it ends with
    """

    calls: str
    arguments: tuple[Any, ...]
    destination: int


def tree(asked: Asked) -> Tree:
    levels, nodes, costs = _EntryNumbers(), _EntryNumbers(), _EntryNumbers()
    reachable = _EntryMarks()
    numbers = _Numbers()
    _make(
        asked, "tree", 0, levels, MOST_ENTRIES, nodes, MOST_ENTRIES,
        reachable, MOST_ENTRIES, costs, MOST_ENTRIES, numbers,
    )
    _, count, tally, in_round = numbers
    rows = zip(levels[:count], nodes[:count], reachable[:count], costs[:count])
    # As Entry._make does, without a call in Python for each of hundreds.
    entries: Iterator[Entry] = map(_new, repeat(Entry), rows)
    return Tree(tuple(entries), tally, in_round)


def first(asked: Asked) -> Path | None:
    path = _PathRoom(*_unlike(asked.destination, 1))
    numbers = _Numbers()
    if _make(asked, "first", 1, path, MOST_ADDRESSES, numbers) == 1:
        return None
    return _path(_up_to_last(asked.destination, path[:]), numbers[1:])


def following(asked: Asked, after: Sequence[int]) -> Path | None:
    """The next path after these addresses."""
    count = len(after)
    given, path = (ctypes.c_uint32 * count)(*after), _PathRoom()
    numbers = _Numbers()
    if _make(asked, "next", 2, given, count, path, MOST_ADDRESSES, numbers) == 2:
        return None
    return _path(path[:count], numbers[1:])


def paths(asked: Asked) -> Iterator[Path]:
    return _on_from(asked, first(asked))


def _on_from(asked: Asked, path: Path | None) -> Iterator[Path]:
    while path is not None:
        yield path
        path = following(asked, path.numbers)


def series(asked: Asked, calls: Iterable[str]) -> list[Path | None | Refused]:
    kinds = [_kind(call) for call in listed(calls, "calls", 'a list of "first" and "next"')]
    count = len(kinds)
    room = MOST_ADDRESSES * count
    buffers = (ctypes.c_uint32 * room)(*_unlike(asked.destination, count))
    numbers = (ctypes.c_uint32 * (5 * count))()
    number = library().yq_series(
        *asked.arguments, (ctypes.c_uint8 * count)(*kinds), count,
        (ctypes.c_uint32 * count)(*[MOST_ADDRESSES] * count), count,
        buffers, room, numbers, 5 * count,
    )
    unless_refused("series", number, 0)
    return [
        _answer(
            asked.destination,
            buffers[MOST_ADDRESSES * i : MOST_ADDRESSES * (i + 1)],
            numbers[5 * i : 5 * i + 5],
        )
        for i in range(count)
    ]


def addresses_of(after: Path | Iterable[Address]) -> Sequence[int]:
    if isinstance(after, Path):
        return after.numbers
    addresses = listed(after, "after", "a Path or a list of addresses")
    return [numbered(address, "after") for address in addresses]


def _make(asked: Asked, name: str, none: int, *lent: Any) -> int:
    """Makes a call; the number that says that there is nothing is no refusal."""
    call = asked.calls + name
    number: int = getattr(library(), "yq_" + call)(*asked.arguments, *lent)
    if number != none:
        unless_refused(call, number, lent[-1][0])
    return number


def _unlike(destination: int, paths: int) -> list[int]:
    """What room for paths holds beforehand: nothing that a path could end with. A
    path's length isn't stored, but what lies past it is left as it was."""
    return [~destination & 0xFFFFFFFF] * (MOST_ADDRESSES * paths)


def _up_to_last(destination: int, room: list[int]) -> list[int]:
    """The path in such room: it may go through its destination before its end."""
    return room[: len(room) - room[::-1].index(destination)]


def _path(nodes: list[int], numbers: list[int]) -> Path:
    total, bits, in_round = numbers
    return Path(tuple(nodes), total, float_of(bits), in_round)


def _kind(call: str) -> int:
    if call not in ("first", "next"):
        raise ValueError(f"calls: {call!r} is neither 'first' nor 'next'")
    return ("first", "next").index(call)


def _answer(destination: int, room: list[int], numbers: list[int]) -> Path | None | Refused:
    number, place, *rest = numbers
    if number == 0:
        return _path(_up_to_last(destination, room), rest)
    return None if number in (1, 2) else Refused(number, place, "series")
