"""PCRep messages, written and read by the library."""

import ctypes
from collections.abc import Sequence
from dataclasses import dataclass

from .arguments import Address, Octets, dotted, field, instance, listed, numbered, octets
from .calls import library
from .metrics import COMPUTED, TE, Metric, MetricRoom, checked
from .pcreq import MOST_BYTES, Pcreq
from .refusal import unless_refused
from .values import Path

MOST_ADDRESSES = 8_189  # in a message of 65,535 bytes


@dataclass(frozen=True)
class Pcrep:
    """What a PCRep answers.

    addresses  the path; None: there is none, a NO-PATH
    nature, c  the NO-PATH's nature of issue and flag C; not written with a path
    rp_flags   as in a Pcreq; no other bit is written
    """

    request_id: int
    addresses: Sequence[Address] | None
    metrics: Sequence[Metric] = ()
    rp_flags: int = 0
    nature: int = 0
    c: bool = False

    @classmethod
    def of(cls, asked: Pcreq, path: Path) -> "Pcrep":
        """The reply with a path, and its total as a METRIC: TE, computed."""
        instance(asked, Pcreq, "asked")
        instance(path, Path, "path")
        total = Metric.of(TE, COMPUTED, path.total_float)
        return cls(asked.request_id, path.addresses, (total,))

    @classmethod
    def none(cls, asked: Pcreq) -> "Pcrep":
        """The reply that there is no path: nature of issue 0, no flags, no METRIC."""
        instance(asked, Pcreq, "asked")
        return cls(asked.request_id, None)


def write_pcrep(reply: Pcrep) -> bytes:
    """The reply as a PCRep."""
    instance(reply, Pcrep, "reply")
    found = reply.addresses is not None
    nodes = () if reply.addresses is None else reply.addresses
    nodes = listed(nodes, "addresses", "a list of addresses, or None")
    path = [numbered(node, "addresses") for node in nodes]
    metrics = checked(reply.metrics)
    count = len(metrics)
    out = (ctypes.c_uint8 * MOST_BYTES)()
    numbers = (ctypes.c_uint32 * 2)()
    number = library().yq_write_pcrep(
        field(reply.request_id, 32, "request_id"), field(reply.rp_flags, 32, "rp_flags"),
        found, (ctypes.c_uint32 * len(path))(*path), len(path),
        field(reply.nature, 8, "nature"), reply.c,
        (ctypes.c_uint8 * count)(*(metric.kind for metric in metrics)), count,
        (ctypes.c_uint8 * count)(*(metric.flags for metric in metrics)), count,
        (ctypes.c_uint32 * count)(*(metric.bits for metric in metrics)), count,
        out, MOST_BYTES, numbers,
    )
    unless_refused("write_pcrep", number, numbers[0])
    return ctypes.string_at(out, numbers[1])


def read_pcrep(message: Octets) -> Pcrep:
    """What a PCRep answers; Refused is raised where it can't be read."""
    given = octets(message, "message")
    addresses = (ctypes.c_uint32 * MOST_ADDRESSES)()
    room = MetricRoom()
    numbers = (ctypes.c_uint32 * 8)()
    number = library().yq_read_pcrep(
        given, len(given), addresses, MOST_ADDRESSES, *room.lent(), numbers
    )
    unless_refused("read_pcrep", number, numbers[0])
    _, request_id, rp_flags, found, nature, c, count, metrics = numbers
    path = tuple(map(dotted, addresses[:count])) if found else None
    return Pcrep(request_id, path, room.first(metrics), rp_flags, nature, c == 1)
