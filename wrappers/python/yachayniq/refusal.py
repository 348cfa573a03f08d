"""What the library refuses."""

from .numbers import meaning


class Refused(Exception):
    """A refusal: its number, its place, and the call that made it.

    The call is named as in include/yachayniq.h, without yq_; write_pcreq is this
    package's own.
    """

    def __init__(self, number: int, place: int, call: str):
        super().__init__(number, place, call)  # what a copy is made of
        self.number = number
        self.place = place
        self.call = call

    @property
    def meaning(self) -> str:
        """What the number means in this call, and what the place counts."""
        return meaning(self.call, self.number, self.place)

    def __str__(self) -> str:
        return f"refused: number {self.number}, place {self.place}: {self.meaning}"


def unless_refused(call: str, number: int, place: int) -> None:
    if number != 0:
        raise Refused(number, place, call)
