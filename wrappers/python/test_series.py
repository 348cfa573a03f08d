"""A series of calls beside the same calls made one by one."""

import random
import unittest

import cases
from cases import BACK, EVERY, WITHOUT_Q, request
from yachayniq import Profile, Refused

W = Profile(cases.W)


def one_by_one(profile, asked, calls) -> list:
    """What first and next answer, each next given the path last handed out."""
    answers, last = [], ()
    for call in calls:
        try:
            answer = profile.first(asked) if call == "first" else profile.next(asked, last)
        except Refused as refusal:
            answer = refusal
        else:
            last = answer or last
        answers.append(answer)
    return plain(answers)


def plain(answers) -> list:
    """The answers, a refusal by its number and place."""
    return [(a.number, a.place) if isinstance(a, Refused) else a for a in answers]


class Series(unittest.TestCase):
    def test_worked(self):
        calls = ["next", "first", "next", "next", "next", "next", "first", "next"]
        refusal, *answers = W.series(request(), calls)
        self.assertEqual((refusal.number, refusal.place, refusal.call), (33, 0, "series"))
        listed = [answer and (answer.addresses, answer.total, answer.total_float, answer.round)
                  for answer in answers]
        one, two, three = ((path, 14, 14.0, 1) for path in EVERY)
        self.assertEqual(listed, [one, two, three, None, None, one, two])
        answers = W.series(request(bound=13.0), ["first", "next"])
        self.assertEqual(plain(answers), [None, (33, 0)])
        self.assertEqual(W.series(request(), []), [])
        answers = W.series(request(include=BACK), ["first", "next", "first"])
        self.assertEqual(plain(answers), [(30, 8)] * 3)

    def test_beside_first_and_next(self):
        chance = random.Random(1)
        largest, crossing = cases.largest()
        desired = b"\x81" + WITHOUT_Q[1:]
        asked = [(W, request(**changes)) for changes in (
            {}, {"bound": 14}, {"bound": 13}, {"exclude": WITHOUT_Q}, {"exclude": desired},
            {"include": b""}, {"include": BACK}, {"bandwidth": 100.1}, {"ingress": 3},
            {"destination": cases.U},
        )]
        for profile, one in [*asked, (largest, crossing)]:
            for length in range(12):
                calls = [chance.choice(("first", "next", "next")) for _ in range(length)]
                together = plain(profile.series(one, calls))
                self.assertEqual(together, one_by_one(profile, one, calls))

    def test_long(self):
        largest, crossing = cases.largest()
        answers = largest.series(crossing, ["first", *["next"] * 99])
        paths = largest.paths(crossing)
        self.assertEqual(answers, [next(paths, None) for _ in range(100)])
        self.assertEqual(len(answers[0].numbers), 17)

    def test_wrong_calls(self):
        for wrong in ["last"], ["first", 1], "first", [b"next"]:
            self.assertRaises(ValueError, W.series, request(), wrong)
        self.assertRaises(TypeError, W.series, request(), None)


if __name__ == "__main__":
    unittest.main()
