"""PCReq messages: read by the library, and written here."""

import ctypes
from dataclasses import dataclass

from .arguments import (
    Octets, dotted, field, float_bits, float_of, instance, numbered, octets,
)
from .calls import library
from .metrics import BOUND, TE, Metric, MetricRoom, checked
from .refusal import Refused, unless_refused
from .values import Request

MOST_BYTES = 65_535
RP, END_POINTS, BANDWIDTH, METRIC, IRO, XRO = 2, 4, 5, 6, 10, 17
RP_FLAGS = 0x3F


@dataclass(frozen=True)
class Pcreq:
    """What a PCReq asks.

    rp_flags        O 0x20, B 0x10, R 0x08, and the priority in the low three bits
    bandwidth_bits  the bits of a 32-bit float, 0 without a BANDWIDTH
    include         the IRO's body, empty without one
    exclude         the XRO's subobjects, empty without one
    """

    request_id: int
    rp_flags: int
    source: str
    destination: str
    bandwidth_bits: int = 0
    metrics: tuple[Metric, ...] = ()
    include: bytes = b""
    exclude: bytes = b""

    @classmethod
    def of(cls, request_id: int, request: Request) -> "Pcreq":
        """The PCReq that asks for this, its bound as a METRIC: TE, with flag B. The
        ingress goes beside a PCReq, not into it."""
        instance(request, Request, "request")
        bound = () if request.bound is None else (Metric.of(TE, BOUND, request.bound),)
        return cls(
            request_id, 0,
            dotted(numbered(request.source, "source")),
            dotted(numbered(request.destination, "destination")),
            float_bits(request.bandwidth, "bandwidth"), bound,
            octets(request.include, "include"), octets(request.exclude, "exclude"),
        )

    @property
    def bandwidth(self) -> float:
        return float_of(self.bandwidth_bits)

    @property
    def bound(self) -> float | None:
        """The bound that counts: that of the first METRIC with flag B, of any kind."""
        bounds = (metric.value for metric in self.metrics if metric.flags & BOUND)
        return next(bounds, None)

    def request(self, ingress: int = 0) -> Request:
        """What it asks of a profile, with the ingress domain given beside it."""
        return Request(
            self.source, self.destination, self.include, self.exclude,
            self.bandwidth, self.bound, ingress,
        )


def read_pcreq(message: Octets) -> Pcreq:
    """What a PCReq asks; Refused is raised where it can't be read."""
    return _read(octets(message, "message"), "read_pcreq")


def write_pcreq(asked: Pcreq) -> bytes:
    """These fields as a PCReq, with P set in every object; RP flags that have no name
    are not written.

    The library has no such call: the message is laid out here, then read by the
    library's reader, and refused as that refuses it. So what is written reads back
    as its fields.
    """
    instance(asked, Pcreq, "asked")
    message = _laid_out(asked)
    _read(message, "write_pcreq")
    return message


def destination_of(message: bytes) -> int:
    """The destination of the first END-POINTS, which a path of the request ends with.
    Where there is none, any number will do: the library refuses the message."""
    at, end = 4, min(len(message), MOST_BYTES) - 12
    while at <= end:
        if message[at] == END_POINTS and message[at + 1] >> 4 == 1:
            return int.from_bytes(message[at + 8 : at + 12], "big")
        at += max(4, int.from_bytes(message[at + 2 : at + 4], "big"))
    return 0


def _read(message: bytes, call: str) -> Pcreq:
    room = MetricRoom()
    numbers = (ctypes.c_uint32 * 11)()
    number = library().yq_read_pcreq(message, len(message), *room.lent(), numbers)
    unless_refused(call, number, numbers[0])
    _, request_id, rp_flags, source, destination, bandwidth, metrics, *lists = numbers
    include, include_length, exclude, exclude_length = lists
    return Pcreq(
        request_id, rp_flags, dotted(source), dotted(destination), bandwidth,
        room.first(metrics),
        message[include : include + include_length],
        message[exclude : exclude + exclude_length],
    )


def _laid_out(asked: Pcreq) -> bytes:
    include, exclude = octets(asked.include, "include"), octets(asked.exclude, "exclude")
    bandwidth = field(asked.bandwidth_bits, 32, "bandwidth_bits")
    bodies = [
        (RP, _words(field(asked.rp_flags, 32, "rp_flags") & RP_FLAGS,
                    field(asked.request_id, 32, "request_id"))),
        (END_POINTS, _words(numbered(asked.source, "source"),
                            numbered(asked.destination, "destination"))),
    ]
    if bandwidth != 0:
        bodies.append((BANDWIDTH, _words(bandwidth)))
    for metric in checked(asked.metrics):
        bodies.append((METRIC, _words(metric.flags << 8 | metric.kind, metric.bits)))
    if include:
        bodies.append((IRO, include))
    if exclude:
        bodies.append((XRO, _words(0) + exclude))
    length = 4 + sum(4 + len(body) for _, body in bodies)
    if length > MOST_BYTES or len(include) % 4 != 0 or len(exclude) % 4 != 0:
        raise Refused(37, 0, "write_pcreq")
    objects = (bytes((kind, 0x12)) + _length(4 + len(body)) + body for kind, body in bodies)
    return b"\x20\x03" + _length(length) + b"".join(objects)


def _words(*values: int) -> bytes:
    return b"".join(value.to_bytes(4, "big") for value in values)


def _length(count: int) -> bytes:
    return count.to_bytes(2, "big")
