"""wrappers/numbers.txt beside include/yachayniq.h: the same numbers for each call."""

import re
import unittest

import cases

HEADER = (cases.ROOT / "include" / "yachayniq.h").read_text()
DECLARED = re.compile(r"/\*((?:(?!\*/).)*)\*/\nuint32_t yq_(\w+)\(", re.DOTALL)
# Numbers at the start of a line with what they mean after two spaces, and those that
# every call of a series can answer with.
LISTED = re.compile(r"^ \* {3,5}(\d+(?: to \d+| and \d+)*)  |answer is (\d+ to \d+) ", re.MULTILINE)


def spread(text: str) -> set[int]:
    """The numbers of a text like `10 to 32 and 36 to 40`."""
    found: set[int] = set()
    for part in text.split(" and "):
        first, *last = map(int, part.split(" to "))
        found |= set(range(first, (last or [first])[0] + 1))
    return found


class Numbers(unittest.TestCase):
    def test_as_the_header_lists(self):
        listed = {
            call: set().union(*(spread(one or other) for one, other in LISTED.findall(comment)))
            for comment, call in DECLARED.findall(HEADER)
        }
        self.assertEqual(listed["check_profile"], {0, *range(10, 20)})
        told: dict[str, set[int]] = {}
        for call, number, _ in cases.table():
            told.setdefault(call, set()).add(number)
        # The wrappers' own call, which says what the reader says, and 37.
        self.assertEqual(told.pop("write_pcreq"), {0, *range(21, 28), 37})
        self.assertEqual(told, listed)


if __name__ == "__main__":
    unittest.main()
