"""What a caller gives, as the library's calls take it.

A wrong type is a TypeError that names the argument. A bool is no number here: it
is a mark that stands in the wrong place.
"""

import ctypes
import ipaddress
import math
import operator
import socket
from collections.abc import Iterable
from typing import SupportsFloat, SupportsIndex, TypeVar

Address = str | int | ipaddress.IPv4Address
Octets = bytes | bytearray | memoryview
Number = SupportsFloat | SupportsIndex
T = TypeVar("T")


def octets(value: Octets, name: str) -> bytes:
    """These bytes as they are now."""
    if type(value) is bytes:
        return value
    try:
        return memoryview(value).tobytes()  # bytes(3) would be three zeros
    except TypeError:
        raise _wrong(name, "bytes, a bytearray or a memoryview", value) from None


def whole(value: SupportsIndex, name: str) -> int:
    if not isinstance(value, bool):
        try:
            return operator.index(value)
        except TypeError:
            pass
    raise _wrong(name, "a whole number", value)


def index(value: SupportsIndex, name: str) -> int:
    """A domain's index as 16 bits. One that has no place there would wrap round
    to some other domain; the largest is none of any profile, so it is refused."""
    domain = whole(value, name)
    return domain if 0 <= domain <= 0xFFFF else 0xFFFF


def field(value: SupportsIndex, bits: int, name: str) -> int:
    """A number that goes into a field of so many bits, where others wrap round."""
    number = whole(value, name)
    if not 0 <= number < 1 << bits:
        raise ValueError(f"{name}: {number} has no place in {bits} bits")
    return number


def numbered(address: Address, name: str) -> int:
    """An address as a number."""
    if isinstance(address, str):
        try:
            return int.from_bytes(socket.inet_pton(socket.AF_INET, address), "big")
        except (OSError, ValueError):
            raise ValueError(f"{name}: {address!r} is no IPv4 address") from None
    if isinstance(address, ipaddress.IPv4Address):
        return int(address)
    try:
        return field(address, 32, name)
    except TypeError:
        kinds = "an IPv4 address (text, a whole number or an ipaddress.IPv4Address)"
        raise _wrong(name, kinds, address) from None


def dotted(number: int) -> str:
    return f"{number >> 24}.{number >> 16 & 255}.{number >> 8 & 255}.{number & 255}"


def float_bits(value: Number, name: str) -> int:
    """The bits of the nearest 32-bit float; of infinity where value is too large."""
    if isinstance(value, (bool, str, bytes, bytearray)):
        raise _wrong(name, "a number", value)
    try:
        taken = float(value)
    except TypeError:
        raise _wrong(name, "a number", value) from None
    except OverflowError:
        taken = math.inf if value > 0 else -math.inf  # type: ignore[operator]
    return ctypes.c_uint32.from_buffer(ctypes.c_float(taken)).value


def float_of(bits: int) -> float:
    return ctypes.c_float.from_buffer(ctypes.c_uint32(bits)).value


def instance(value: object, kind: type, name: str) -> None:
    if not isinstance(value, kind):
        raise _wrong(name, f"a {kind.__name__}", value)


def listed(values: Iterable[T], name: str, wanted: str) -> list[T]:
    try:
        each = iter(values)
    except TypeError:
        raise _wrong(name, wanted, values) from None
    return list(each)


def _wrong(name: str, wanted: str, value: object) -> TypeError:
    return TypeError(f"{name} must be {wanted}, not {type(value).__name__}")
