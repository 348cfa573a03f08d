"""What a refusal says: each row of wrappers/numbers.txt comes up, or it is said why it
can't; and a refusal can be copied and sent."""

import copy
import multiprocessing
import pickle
import unittest
from collections.abc import Callable

import cases
from cases import ASKED, BACK, ENDS, ONWARD, RP, S, W, Z, metric, pcrep, pcreq, request
from yachayniq import (
    Metric, Pcrep, Pcreq, Profile, Refused, Request, check_profile, read_pcrep, read_pcreq,
    write_pcrep, write_pcreq,
)

PROFILE = Profile(W)
# 64500 with two areas, then 64501 to 64511 with none.
MANY = Profile(
    bytes.fromhex("445350000100000D00000000")
    + bytes.fromhex("0000FBF4 0104").ljust(20, b"\0")
    + bytes.fromhex("0000FBF4 0104 00000004").ljust(20, b"\0")
    + b"".join(n.to_bytes(4, "big").ljust(20, b"\0") for n in range(64501, 64512))
)
# All sixteen of the first range, and one more.
SEVENTEEN = Profile(
    bytes.fromhex("445350000100001100000000")
    + b"".join(n.to_bytes(4, "big").ljust(20, b"\0") for n in [*range(64496, 64512), 65536])
)

INFINITE, LONG = 0x7F800000, bytes(1028)
# Each a list whose subobject at 4 is refused so, after AS 64497; none has a meaning yet.
WRONG_FORMS = {
    23: "0108C000",
    24: "2204FBF2",
    25: "2008FBF2 00000000",
    26: "0108C000 02162100",
    27: "A004FBF2",
}
# The same after an address, in the body of an ERO.
WRONG_EROS = {23: "0108C000", 24: "2004FBF2", 25: "0104C000", 26: "0108C000 02162100",
              27: "8108C000 02162000"}
FIFTEEN = b"".join(b"\x20\x04" + n.to_bytes(2, "big") for n in range(64497, 64512))
WRONG_MEANINGS = {
    28: (PROFILE, ONWARD[:4] + bytes.fromhex("2004FBFF"), 4),
    29: (MANY, bytes.fromhex("2004FBF5 2004FBF4"), 4),
    30: (PROFILE, BACK, 8),
    31: (SEVENTEEN, FIFTEEN + bytes.fromhex("05080000 00010000"), 60),
    32: (PROFILE, ONWARD + bytes.fromhex("0108C000 02162000"), 8),
    42: (PROFILE, ONWARD + bytes.fromhex("21080000 20040009"), 8),
}
HEADS = {
    36: (b"", 0),
    37: (pcreq(RP, bytes.fromhex("04120008 C0000201")), 16),
    38: (pcreq(RP, bytes.fromhex("04220004")), 16),
    39: (pcreq(ENDS), 0),
    40: (pcreq(RP), 0),
}
WRONG_PROFILES = {
    10: (b"", 0),
    11: (b"X" + W[1:], 0),
    12: (W[:5] + b"\2" + W[6:], 0),
    13: (W + b"\0", 0),
    14: (W[:16] + b"\3" + W[17:], 0),
    15: (W[:32] + W[12:32] + W[52:], 1),
    16: (W[:12] + b"\0\0\0\1" + W[16:], 0),
    17: (W[:224] + b"\1" + W[225:], 10),
    18: (W[:92] + W[72:92] + W[112:], 4),
}


def seventeen_entries() -> bytes:
    hops = (
        bytes.fromhex("00000001 C0000201") + (0xC0000210 + i).to_bytes(4, "big") + bytes(8)
        for i in range(17)
    )
    return W[:9] + b"\x11" + W[10:72] + b"".join(hops)


def an_object(kind: int, body: bytes) -> bytes:
    return bytes([kind, 0x12]) + (4 + len(body)).to_bytes(2, "big") + body


def asked_by(name: str) -> Callable[[Profile, Request], object]:
    """A call that takes a request, by name, raising also what a series answers with."""

    def call(profile: Profile, asked: Request) -> object:
        if name == "series":
            (answer,) = profile.series(asked, ["first"])
            if isinstance(answer, Refused):
                raise answer
            return answer
        more = [(S, Z)] if name == "next" else []
        return getattr(profile, name)(asked, *more)

    return call


def carried_by(name: str) -> Callable[[Profile, bytes], object]:
    """A call that takes a PCReq, by name."""

    def call(profile: Profile, message: bytes) -> object:
        if name == "read_pcreq":
            return read_pcreq(message)
        more = [(S, Z)] if name == "pcreq_next" else []
        return getattr(profile, name)(message, *more)

    return call


def of_requests():
    """Call, number, place, what is called, and what it is given."""
    for name in "tree", "first", "next", "series":
        call = asked_by(name)
        yield name, 20, 0, call, (PROFILE, request(ingress=3))
        yield name, 21, 0, call, (PROFILE, request(bandwidth=-1.0))
        yield name, 21, 1, call, (PROFILE, request(bound=float("nan")))
        yield name, 22, 0, call, (PROFILE, request(include=LONG))
        yield name, 22, 1, call, (PROFILE, request(exclude=LONG))
        for number, wrong in WRONG_FORMS.items():
            wrong = ONWARD[:4] + bytes.fromhex(wrong)
            yield name, number, 4, call, (PROFILE, request(include=wrong))
            if number < 27:
                yield name, number, 4, call, (PROFILE, request(exclude=wrong))
        for number, (profile, wrong, place) in WRONG_MEANINGS.items():
            yield name, number, place, call, (profile, request(include=wrong))
    yield "next", 33, 0, PROFILE.next, (request(), [S, Z])

    def next_alone() -> None:
        (answer,) = PROFILE.series(request(), ["next"])
        raise answer

    yield "series", 33, 0, next_alone, ()


def of_pcreqs():
    for name in "read_pcreq", "pcreq_tree", "pcreq_first", "pcreq_next":
        call = carried_by(name)
        for number, (wrong, place) in HEADS.items():
            yield name, number, place, call, (PROFILE, wrong)
        for number, place, wrong in (
            (21, 0, bytes.fromhex("05120008 7F800000")),
            (21, 1, metric(2, 1, INFINITE)),
            (22, 0, an_object(10, LONG)),
            (22, 1, an_object(17, bytes(4) + LONG)),
            *((number, 4, an_object(10, ONWARD[:4] + bytes.fromhex(wrong)))
              for number, wrong in WRONG_FORMS.items()),
            *((number, 4, an_object(17, bytes(4) + ONWARD[:4] + bytes.fromhex(wrong)))
              for number, wrong in WRONG_FORMS.items() if number < 27),
        ):
            yield name, number, place, call, (PROFILE, pcreq(RP, ENDS, wrong))
        if name != "read_pcreq":
            yield name, 20, 0, getattr(PROFILE, name), by_ingress(name)
            for number, (profile, wrong, place) in WRONG_MEANINGS.items():
                yield name, number, place, call, (profile, pcreq(RP, ENDS, an_object(10, wrong)))
    yield "pcreq_next", 33, 0, PROFILE.pcreq_next, (ASKED, [S, Z])


def by_ingress(name: str) -> tuple:
    return (ASKED, [S, Z], 3) if name == "pcreq_next" else (ASKED, 3)


def of_lists_and_profiles():
    for number, (wrong, place) in WRONG_PROFILES.items():
        yield "check_profile", number, place, check_profile, (wrong,)
    yield "check_profile", 19, 19, Profile, (seventeen_entries(),)
    yield "write_list", 35, 0, PROFILE.write_list, ([],)
    read = Profile.read_include
    yield "read_include", 20, 0, read, (PROFILE, b"", 3)
    yield "read_include", 22, 0, read, (PROFILE, LONG)
    for number, wrong in WRONG_FORMS.items():
        yield "read_include", number, 4, read, (PROFILE, ONWARD[:4] + bytes.fromhex(wrong))
    for number, (profile, wrong, place) in WRONG_MEANINGS.items():
        yield "read_include", number, place, read, (profile, wrong)


def of_written_pcreqs():
    def asked(**fields) -> tuple:
        return (Pcreq(7, 0, S, Z, **fields),)

    name, call = "write_pcreq", write_pcreq
    yield name, 21, 0, call, asked(bandwidth_bits=INFINITE)
    yield name, 21, 1, call, asked(metrics=(Metric(2, 0, INFINITE),))
    yield name, 22, 0, call, asked(include=LONG)
    yield name, 22, 1, call, asked(exclude=LONG)
    for number, wrong in WRONG_FORMS.items():
        wrong = ONWARD[:4] + bytes.fromhex(wrong)
        yield name, number, 4, call, asked(include=wrong)
        if number < 27:
            yield name, number, 4, call, asked(exclude=wrong)
    yield name, 37, 0, call, asked(include=bytes(5))


def of_pcreps():
    def read(*objects: bytes) -> tuple:
        return "read_pcrep", read_pcrep, (pcrep(*objects),)

    for number, place, (name, call, given) in (
        (36, 0, ("read_pcrep", read_pcrep, (ASKED,))),
        (37, 16, read(RP, bytes.fromhex("03100004"))),
        (38, 4, read(ENDS, RP)),
        (39, 0, read()),
        (41, 0, read(RP)),
        (21, 1, read(RP, cases.NO_PATH, metric(2, 2, INFINITE))),
        *((number, 8, read(RP, an_object(7, bytes.fromhex("0108C000 02012000" + wrong))))
          for number, wrong in WRONG_EROS.items()),
        (21, 1, ("write_pcrep", write_pcrep, (Pcrep(0, None, (Metric(2, 2, INFINITE),)),))),
        (37, 0, ("write_pcrep", write_pcrep, (Pcrep(0, (S,) * 8190),))),
    ):
        yield name, number, place, call, given


def every_case():
    yield from of_requests()
    yield from of_pcreqs()
    yield from of_lists_and_profiles()
    yield from of_written_pcreqs()
    yield from of_pcreps()


def cannot_come_up(call: str, number: int) -> bool:
    return (
        number in (0, 1, 2)  # no refusals: a value, or None
        or number == 34  # as much is lent as there can be
        or number == 100  # a series is laid out by the wrapper
        or number in range(10, 20) and call != "check_profile"  # a Profile was accepted
    )


def first_backwards(_: int) -> None:
    PROFILE.first(request(include=BACK))


class Refusals(unittest.TestCase):
    refused = cases.refused

    def test_every_row(self):
        meanings, seen = cases.table(), set()
        for name, number, place, call, given in every_case():
            with self.subTest(call=name, number=number, place=place):
                refusal = self.refused(number, place, call, *given)
                self.assertEqual(refusal.call, name)
                row = (name, number, "*")
                row = row if row in meanings else (name, number, str(place))
                said = f"refused: number {number}, place {place}: {meanings[row]}"
                self.assertEqual(str(refusal), said)
                seen.add(row)
        left = {row for row in set(meanings) - seen if not cannot_come_up(*row[:2])}
        self.assertEqual(left, set())

    def test_by_call(self):
        for call, number, place, text in (
            ("first", 30, 8, "a domain of the sequence that was left comes back "
                             "(place: offset in the include list)"),
            ("first", 21, 1, "bound out of range: negative, -0.0, infinite or not a number"),
            ("pcreq_first", 21, 1, "value of a METRIC out of range: "
                                   "negative, -0.0, infinite or not a number"),
            ("next", 33, 0, "given list has more or fewer addresses than a path"),
            ("series", 33, 0, "a next before any path was handed out"),
            ("write_pcreq", 37, 0, "not a message that can be written: over 65,535 bytes, "
                                   "or a list whose length is no multiple of 4"),
            ("tree", 42, 8, "an EXRS with no new domain after it "
                            "(place: offset in the include list)"),
            ("tree", 41, 0, "not a number of this call"),
            ("read_pcreq", 42, 0, "not a number of this call"),
        ):
            refusal = Refused(number, place, call)
            self.assertEqual(str(refusal), f"refused: number {number}, place {place}: {text}")

    def test_copies(self):
        refusal = self.refused(30, 8, first_backwards, 0)
        for other in (
            pickle.loads(pickle.dumps(refusal)), copy.copy(refusal), copy.deepcopy(refusal)
        ):
            self.assertIsInstance(other, Refused)
            self.assertEqual((other.number, other.place, other.call), (30, 8, "first"))
            self.assertEqual(str(other), str(refusal))

    def test_pool(self):
        with multiprocessing.Pool(2) as pool:
            sent = pool.map_async(first_backwards, range(3))
            self.assertEqual(self.refused(30, 8, sent.get, 30).call, "first")
            found = pool.apply_async(PROFILE.first, (request(),))
            self.assertEqual(found.get(30), PROFILE.first(request()))


if __name__ == "__main__":
    unittest.main()
