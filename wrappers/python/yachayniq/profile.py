"""A profile, and what can be asked of it."""

import ctypes
from collections.abc import Iterable, Iterator

from . import search
from .arguments import (
    Address, Octets, dotted, float_bits, index, instance, listed, numbered, octets,
)
from .calls import library
from .pcreq import destination_of
from .refusal import Refused, unless_refused
from .values import Path, Request, Stop, Tree

MOST_DOMAINS = 16
MOST_LIST_BYTES = 1024


def check_profile(data: Octets) -> None:
    """Raises Refused unless these bytes are a profile."""
    _check(octets(data, "data"))


def _check(data: bytes) -> None:
    numbers = (ctypes.c_uint32 * 1)()
    number = library().yq_check_profile(data, len(data), numbers)
    unless_refused("check_profile", number, numbers[0])


class Profile:
    """A profile that was accepted; Refused is raised where it is not."""

    def __init__(self, data: Octets):
        self._data = octets(data, "data")
        _check(self._data)

    def read_include(self, include: Octets, ingress: int = 0) -> list[Stop]:
        """The sequence of domains that an include list means."""
        given = octets(include, "include")
        domains = (ctypes.c_uint16 * MOST_DOMAINS)()
        pinned = (ctypes.c_bool * MOST_DOMAINS)()
        pins = (ctypes.c_uint32 * MOST_DOMAINS)()
        exrs_counts = (ctypes.c_uint32 * MOST_DOMAINS)()
        exrs = (ctypes.c_uint8 * MOST_LIST_BYTES)()
        numbers = (ctypes.c_uint32 * 3)()
        number = library().yq_read_include(
            self._data, len(self._data), index(ingress, "ingress"), given, len(given),
            domains, MOST_DOMAINS, pinned, MOST_DOMAINS, pins, MOST_DOMAINS,
            exrs_counts, MOST_DOMAINS, exrs, MOST_LIST_BYTES, numbers,
        )
        unless_refused("read_include", number, numbers[0])
        stops, at = [], 0
        for i in range(numbers[1]):
            pin = dotted(pins[i]) if pinned[i] else None
            end = at + exrs_counts[i]
            stops.append(Stop(domains[i], pin, bytes(exrs[at:end])))
            at = end
        return stops

    def write_list(self, stops: Iterable[Stop]) -> bytes:
        """The list that means this sequence, read with its first domain as ingress."""
        stops = listed(stops, "stops", "a list of Stops")
        for stop in stops:
            instance(stop, Stop, "stop")
        count = len(stops)
        domains = [index(stop.domain, "domain") for stop in stops]
        pins = [0 if stop.pin is None else numbered(stop.pin, "pin") for stop in stops]
        exrs = [octets(stop.exrs, "exrs") for stop in stops]
        all_exrs = b"".join(exrs)
        out = (ctypes.c_uint8 * MOST_LIST_BYTES)()
        numbers = (ctypes.c_uint32 * 2)()
        number = library().yq_write_list(
            self._data, len(self._data),
            (ctypes.c_uint16 * count)(*domains), count,
            (ctypes.c_bool * count)(*(stop.pin is not None for stop in stops)), count,
            (ctypes.c_uint32 * count)(*pins), count,
            (ctypes.c_uint32 * count)(*map(len, exrs)), count,
            all_exrs, len(all_exrs),
            out, MOST_LIST_BYTES, numbers,
        )
        unless_refused("write_list", number, numbers[0])
        return bytes(out[: numbers[1]])

    def tree(self, request: Request) -> Tree:
        """The least cost from each entry node to the destination."""
        return search.tree(self._asked(request))

    def first(self, request: Request) -> Path | None:
        """The first of the shortest paths; None where there is none."""
        return search.first(self._asked(request))

    def next(self, request: Request, after: Path | Iterable[Address]) -> Path | None:
        """The next shortest path after a path, or after any list of addresses of
        a path's length; None where no other is greater."""
        return search.following(self._asked(request), search.addresses_of(after))

    def paths(self, request: Request) -> Iterator[Path]:
        """Every shortest path, in order, each found when it is asked for. A request
        is refused at once, and taken as it is now: what its lists are changed to
        later doesn't count."""
        return search.paths(self._asked(request))

    def series(self, request: Request, calls: Iterable[str]) -> list[Path | None | Refused]:
        """Calls for "first" and "next", in order, made as one call of the library.

        Each next goes on from the path last handed out before it. There is an
        answer for each call: its path; None where first finds none or next no
        more; or, not raised, the refusal: 33 for a next before any path, else what
        is wrong with the request, the same for every call.
        """
        return search.series(self._asked(request), calls)

    def pcreq_tree(self, message: Octets, ingress: int = 0) -> Tree:
        """The tree of the request that a PCReq carries."""
        return search.tree(self._carried(message, ingress))

    def pcreq_first(self, message: Octets, ingress: int = 0) -> Path | None:
        """The first of its shortest paths; None where there is none."""
        return search.first(self._carried(message, ingress))

    def pcreq_next(
        self, message: Octets, after: Path | Iterable[Address], ingress: int = 0
    ) -> Path | None:
        """The next of them, as `next` gives it."""
        return search.following(self._carried(message, ingress), search.addresses_of(after))

    def pcreq_paths(self, message: Octets, ingress: int = 0) -> Iterator[Path]:
        """Every one of them, as `paths` gives them."""
        return search.paths(self._carried(message, ingress))

    def _asked(self, request: Request) -> search.Asked:
        instance(request, Request, "request")
        destination = numbered(request.destination, "destination")
        include = octets(request.include, "include")
        exclude = octets(request.exclude, "exclude")
        arguments = (
            self._data, len(self._data), index(request.ingress, "ingress"),
            numbered(request.source, "source"), destination,
            include, len(include), exclude, len(exclude),
            float_bits(request.bandwidth, "bandwidth"), request.bound is not None,
            0 if request.bound is None else float_bits(request.bound, "bound"),
        )
        return search.Asked("", arguments, destination)

    def _carried(self, message: Octets, ingress: int) -> search.Asked:
        given = octets(message, "message")
        arguments = self._data, len(self._data), index(ingress, "ingress"), given, len(given)
        return search.Asked("pcreq_", arguments, destination_of(given))
