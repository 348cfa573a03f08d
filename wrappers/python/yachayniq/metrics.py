"""The METRICs of a message."""

import ctypes
from collections.abc import Iterable
from dataclasses import dataclass
from typing import Any

from .arguments import Number, field, float_bits, float_of, instance, listed

MOST_METRICS = 5_460  # in a message of 65,535 bytes

IGP, TE, HOP_COUNT = 1, 2, 3
BOUND, COMPUTED = 0x01, 0x02


@dataclass(frozen=True)
class Metric:
    """A METRIC, its value as the bits of a 32-bit float.

    kind   1 IGP, 2 TE, 3 hop count, or any other
    flags  B, a bound, is 0x01; C, computed, is 0x02
    """

    kind: int
    flags: int
    bits: int

    @classmethod
    def of(cls, kind: int, flags: int, value: Number) -> "Metric":
        """The METRIC with the 32-bit float nearest to this value."""
        return cls(kind, flags, float_bits(value, "value"))

    @property
    def value(self) -> float:
        return float_of(self.bits)


def checked(metrics: Iterable[Metric]) -> list[Metric]:
    """These METRICs, each part with a place in its field."""
    return [_checked(metric) for metric in listed(metrics, "metrics", "a list of Metrics")]


def _checked(metric: Metric) -> Metric:
    instance(metric, Metric, "metric")
    kind, flags = field(metric.kind, 8, "kind"), field(metric.flags, 8, "flags")
    return Metric(kind, flags, field(metric.bits, 32, "bits"))


class MetricRoom:
    """Room for the METRICs of any message."""

    def __init__(self) -> None:
        self.kinds = (ctypes.c_uint8 * MOST_METRICS)()
        self.flags = (ctypes.c_uint8 * MOST_METRICS)()
        self.values = (ctypes.c_uint32 * MOST_METRICS)()

    def lent(self) -> tuple[Any, ...]:
        return self.kinds, MOST_METRICS, self.flags, MOST_METRICS, self.values, MOST_METRICS

    def first(self, count: int) -> tuple[Metric, ...]:
        return tuple(map(Metric, self.kinds[:count], self.flags[:count], self.values[:count]))
