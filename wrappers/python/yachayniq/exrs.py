"""EXRS (RFC 5521): what is excluded for one domain of a sequence alone, made of
exclusions and taken apart into them.

This is the package's own work; what it makes has the form that the library asks for.
"""

from collections.abc import Iterable
from dataclasses import dataclass

from .arguments import Address, Octets, dotted, field, listed, numbered, octets, whole

EXRS, X = 33, 0x80
NODES, AS, OSPF_AREA, ISIS_AREA, SHORT_AS = 1, 5, 6, 7, 32
MOST_BYTES = 252
MOST_AREA = 13
NODE = 1  # the attribute of an address that is a node's
NOBODYS = 0, 23456  # AS numbers that no network has (RFC 7607, RFC 6793)


@dataclass(frozen=True)
class WithoutAs:
    """The exclusion of an AS; only desired, it counts where some path keeps all."""

    number: int
    desired: bool = False


@dataclass(frozen=True)
class WithoutOspfArea:
    """The exclusion of an OSPF area, by its number."""

    number: int
    desired: bool = False


@dataclass(frozen=True)
class WithoutIsisArea:
    """The exclusion of an IS-IS area of 1 to 13 bytes."""

    area: Octets
    desired: bool = False


@dataclass(frozen=True)
class WithoutNodes:
    """The exclusion of a node, or of all that begin with the same bits, as many as the
    prefix says."""

    address: Address
    prefix: int = 32
    desired: bool = False


Exclusion = WithoutAs | WithoutOspfArea | WithoutIsisArea | WithoutNodes


def write_exrs(exclusions: Iterable[Exclusion]) -> bytes:
    """An EXRS with these exclusions. A ValueError says why it can't be made: it has
    none, or they take over 252 bytes, or one is out of range. Several EXRS of a domain,
    back to back, add up."""
    each = listed(exclusions, "exclusions", "a list of exclusions")
    if not each:
        raise ValueError("exclusions: an EXRS has one exclusion or more")
    inside = b"".join(map(_subobject, each))
    length = 4 + len(inside)
    if length > MOST_BYTES:
        raise ValueError(
            f"exclusions: an EXRS has at most {MOST_BYTES} bytes, not {length}; several add up"
        )
    return bytes((EXRS, length, 0, 0)) + inside


def read_exrs(data: Octets) -> list[Exclusion]:
    """All exclusions in EXRS that stand back to back, as a Stop has them; a ValueError
    where the bytes are not whole EXRS of right form."""
    given = octets(data, "data")
    exclusions: list[Exclusion] = []
    at = 0
    while at < len(given):
        end = at + given[at + 1] if at + 4 < len(given) else at
        if given[at] != EXRS or not at + 4 < end <= len(given):
            raise _wrong_form(at)
        at += 4
        while at < end:
            exclusion = _exclusion(given[at:end])
            if exclusion is None:
                raise _wrong_form(at)
            exclusions.append(exclusion)
            at += given[at + 1]
    return exclusions


def _subobject(exclusion: Exclusion) -> bytes:
    match exclusion:
        case WithoutAs(number):
            as_number = field(number, 32, "number")
            if as_number in NOBODYS:
                raise ValueError(f"number: AS {as_number} is nobody's")
            kind, body = AS, bytes(2) + as_number.to_bytes(4, "big")
        case WithoutOspfArea(number):
            kind, body = OSPF_AREA, bytes(2) + field(number, 32, "number").to_bytes(4, "big")
        case WithoutIsisArea(area):
            kind, body = ISIS_AREA, _area_body(octets(area, "area"))
        case WithoutNodes(address, prefix):
            length = whole(prefix, "prefix")
            if not 0 <= length <= 32:
                raise ValueError(f"prefix: {length} is not 0 to 32")
            node = numbered(address, "address").to_bytes(4, "big")
            kind, body = NODES, node + bytes((length, NODE))
        case _:
            raise TypeError(
                "exclusion must be a WithoutAs, WithoutOspfArea, WithoutIsisArea or "
                f"WithoutNodes, not {type(exclusion).__name__}"
            )
    first = kind | X if _marked(exclusion.desired) else kind
    return bytes((first, 2 + len(body))) + body


def _area_body(area: bytes) -> bytes:
    if not 1 <= len(area) <= MOST_AREA:
        raise ValueError(f"area: an IS-IS area has 1 to {MOST_AREA} bytes, not {len(area)}")
    return bytes((len(area), 0)) + _padded(area)


def _marked(desired: bool) -> bool:
    if not isinstance(desired, bool):
        raise TypeError(f"desired must be a bool, not {type(desired).__name__}")
    return desired


def _exclusion(data: bytes) -> Exclusion | None:
    """The exclusion that these bytes begin with; None where its form is wrong."""
    if len(data) < 4 or not 4 <= data[1] <= len(data):
        return None
    piece, desired = data[: data[1]], data[0] >= X
    kind, length = data[0] & ~X, data[1]
    if kind == NODES and length == 8 and piece[6] <= 32 and piece[7] == NODE:
        return WithoutNodes(dotted(_number(piece[2:6])), piece[6], desired)
    if (kind, length) in ((AS, 8), (SHORT_AS, 4)):
        number = _number(piece[length // 2 :])
        return None if number in NOBODYS else WithoutAs(number, desired)
    if kind == OSPF_AREA and length == 8:
        return WithoutOspfArea(_number(piece[4:]), desired)
    if kind == ISIS_AREA and 1 <= piece[2] <= MOST_AREA:
        area = piece[4 : 4 + piece[2]]
        if len(area) == piece[2] and piece[4:] == _padded(area):
            return WithoutIsisArea(area, desired)
    return None


def _padded(area: bytes) -> bytes:
    return area + bytes(-len(area) % 4)


def _number(data: bytes) -> int:
    return int.from_bytes(data, "big")


def _wrong_form(at: int) -> ValueError:
    return ValueError(f"data: no EXRS of right form at offset {at}")
