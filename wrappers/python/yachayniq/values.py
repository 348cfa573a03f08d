"""What is asked of a profile, and what it answers."""

from dataclasses import dataclass
from typing import NamedTuple

from .arguments import Address, Number, Octets, dotted


@dataclass(frozen=True)
class Request:
    """What is asked of a profile: a path from source to destination.

    ingress    the index of the domain that the source is in
    include    the domains to cross after it: the body of an IRO
    exclude    what to leave out: the subobjects of an XRO
    bandwidth  the least that a hop must have; taken as the nearest 32-bit float
    bound      the most that a path may cost, likewise; None: any cost
    """

    source: Address
    destination: Address
    include: Octets = b""
    exclude: Octets = b""
    bandwidth: Number = 0.0
    bound: Number | None = None
    ingress: int = 0


@dataclass(frozen=True)
class Stop:
    """A domain of a sequence, the node to enter it through, if one is set, and its EXRS,
    what is excluded for it alone.

    exrs  whole EXRS, back to back: write_exrs makes one, read_exrs takes them apart;
          the first domain has none
    """

    domain: int
    pin: Address | None = None
    exrs: Octets = b""


class Entry(NamedTuple):
    """A node of the tree, as a number and as dotted text; the cost is 0 where the
    destination can't be reached."""

    level: int
    number: int
    reachable: bool
    cost: int

    @property
    def address(self) -> str:
        return dotted(self.number)

    def __repr__(self) -> str:
        return (
            f"Entry(level={self.level}, address={self.address!r}, "
            f"reachable={self.reachable}, cost={self.cost})"
        )


@dataclass(frozen=True)
class Tree:
    """A request's tree, how many hop records were examined for it, and its round."""

    entries: tuple[Entry, ...]
    tally: int
    round: int


@dataclass(frozen=True, repr=False)
class Path:
    """A shortest path, its nodes as numbers and as dotted text, its total as a whole
    number and as the nearest 32-bit float, and its round."""

    numbers: tuple[int, ...]
    total: int
    total_float: float
    round: int

    @property
    def addresses(self) -> tuple[str, ...]:
        return tuple(map(dotted, self.numbers))

    def __repr__(self) -> str:
        return (
            f"Path(addresses={self.addresses}, total={self.total}, "
            f"total_float={self.total_float}, round={self.round})"
        )
