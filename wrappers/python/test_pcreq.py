"""PCReqs that are written, made from requests, and put to a profile in any shape."""

import itertools
import random
import re
import unittest

import cases
from cases import (
    ASKED, ENDS, EVERY, HUNDRED, IRO, MODEL, ONWARD, RP, S, WITHOUT_Q, XRO, Z, metric, pcreq,
    request,
)
from yachayniq import (
    Metric, Pcrep, Pcreq, Profile, Refused, Request, read_pcreq, write_pcrep, write_pcreq,
)
from yachayniq.pcreq import destination_of

W = Profile(cases.W)
HUNDRED_BITS = 0x42C80000
OTHER_ENDS = bytes.fromhex("0412000C C0000201 C0000216")  # to U, which no path ends with
NOT_IPV4 = bytes.fromhex("04200024") + bytes(32)  # END-POINTS of type 2, with P clear


def vector(name: str) -> bytes:
    text = (cases.ROOT / "tests" / "vectors" / f"{name}.hex").read_text()
    return bytes.fromhex(re.sub("#.*", "", text))


def objects(message: bytes) -> list[tuple[int, int, bytes]]:
    """Class, second byte and body of each object."""
    found, at = [], 4
    while at < len(message):
        length = int.from_bytes(message[at + 2 : at + 4], "big")
        found.append((message[at], message[at + 1], message[at + 4 : at + length]))
        at += length
    return found


def any_include(chance: random.Random) -> bytes:
    """An include list of right form, which may have EXRS."""
    made = any_list(chance, False)
    while chance.random() < 0.4:
        inside, after = any_list(chance, True), any_list(chance, False)
        if 0 < len(inside) <= 248 and len(made + inside + after) <= 1020:
            made += bytes([33, 4 + len(inside)]) + chance.randbytes(2) + inside + after
    return made


def any_as(chance: random.Random, size: int) -> bytes:
    """An AS above those that are nobody's."""
    return chance.randrange(23457, 1 << 8 * size).to_bytes(size, "big")


def any_list(chance: random.Random, excluding: bool) -> bytes:
    """Subobjects of right form, of each type but EXRS."""
    made = []
    for _ in range(chance.choice((0, 0, 1, 2, 5, 40))):
        address = chance.randbytes(4)
        prefix = chance.randrange(33) if excluding else 32
        made.append(chance.choice((
            b"\x01\x08" + address + bytes([prefix, 1]),
            b"\x05\x08" + chance.randbytes(2) + any_as(chance, 4),
            b"\x06\x08" + chance.randbytes(6),
            b"\x07\x08\x03" + chance.randbytes(4) + b"\0",
            b"\x20\x04" + any_as(chance, 2),
        )))
        if excluding and chance.random() < 0.3:
            made[-1] = bytes([made[-1][0] | 0x80]) + made[-1][1:]
    return b"".join(made)


def any_fields(chance: random.Random) -> Pcreq:
    def address() -> str:
        return ".".join(str(chance.randrange(256)) for _ in range(4))

    metrics = tuple(
        Metric(chance.randrange(256), chance.randrange(256), chance.randrange(0x7F800000))
        for _ in range(chance.choice((0, 1, 2, 30)))
    )
    return Pcreq(
        chance.randrange(1 << 32), chance.randrange(0x40), address(), address(),
        chance.choice((0, chance.randrange(0x7F800000))), metrics,
        any_include(chance), any_list(chance, True),
    )


class Written(unittest.TestCase):
    refused = cases.refused

    def test_vectors(self):
        asked = Pcreq(1, 0, S, Z, HUNDRED_BITS, (), ONWARD)
        self.assertEqual(write_pcreq(asked), vector("w-request"))
        bound = Pcreq(2, 5, S, Z, HUNDRED_BITS, (Metric(2, 1, 0x41500000),), ONWARD)
        self.assertEqual(write_pcreq(bound), vector("w-request-bound"))
        # Its objects stand in another order, some with P clear.
        exclude = Pcreq(1, 0, S, Z, HUNDRED_BITS, (), ONWARD, WITHOUT_Q)
        self.assertEqual(read_pcreq(vector("w-request-exclude")), exclude)
        given = objects(vector("w-request-exclude"))
        ordered = sorted((kind, 0x12, body) for kind, _, body in given)
        self.assertEqual(objects(write_pcreq(exclude)), ordered)
        for path, number in zip(W.paths(asked.request()), (1, 2, 3), strict=True):
            reply = Pcrep.of(read_pcreq(vector("w-request")), path)
            self.assertEqual(write_pcrep(reply), vector(f"w-reply-{number}"))

    def test_generated(self):
        chance = random.Random(2)
        for _ in range(600):
            fields = any_fields(chance)
            message = write_pcreq(fields)
            self.assertEqual(read_pcreq(message), fields)
            self.assertEqual(message[:2], b"\x20\x03")
            laid = objects(message)
            self.assertTrue(all(second == 0x12 for _, second, _ in laid))
            order = [2, 4, *[5] * (fields.bandwidth_bits != 0), *[6] * len(fields.metrics),
                     *[10] * (fields.include != b""), *[17] * (fields.exclude != b"")]
            self.assertEqual([kind for kind, _, _ in laid], order)

    def test_limits(self):
        most = Pcreq(0, 0, S, Z, 0, (Metric(2, 2, 0),) * 5458)
        self.assertEqual(len(write_pcreq(most)), 65524)
        self.assertEqual(read_pcreq(write_pcreq(most)), most)
        self.refused(37, 0, write_pcreq, Pcreq(0, 0, S, Z, 0, (Metric(2, 2, 0),) * 5459))
        self.refused(37, 0, write_pcreq, Pcreq(0, 0, S, Z, include=bytes(70_000)))
        for length in 1, 2, 3, 1025:
            self.refused(37, 0, write_pcreq, Pcreq(0, 0, S, Z, include=bytes(length)))
            self.refused(37, 0, write_pcreq, Pcreq(0, 0, S, Z, exclude=bytes(length)))
        full = ONWARD * 128
        longest = Pcreq(0, 0, S, Z, 0, (), full, full)
        self.assertEqual(read_pcreq(write_pcreq(longest)), longest)
        every_flag = objects(write_pcreq(Pcreq(7, 0xFFFFFFFF, S, Z)))
        self.assertEqual(every_flag[0], (2, 0x12, bytes.fromhex("0000003F 00000007")))

    def test_of_request(self):
        asked = request(bound=14, exclude=bytearray(WITHOUT_Q), ingress=2)
        fields = Pcreq.of(9, asked)
        bound = Metric(2, 1, 0x41600000)
        self.assertEqual(fields, Pcreq(9, 0, S, Z, HUNDRED_BITS, (bound,), ONWARD, WITHOUT_Q))
        self.assertEqual(fields.request(2), request(bound=14.0, exclude=WITHOUT_Q, ingress=2))
        as_numbers = Request(0xC0000201, 0xC0000263, ONWARD, bandwidth=100)
        self.assertEqual(write_pcreq(Pcreq.of(7, as_numbers)), ASKED)
        self.assertEqual(read_pcreq(ASKED).request(), request())
        self.refused(21, 1, write_pcreq, Pcreq.of(7, request(bound=-1)))

    def test_bound(self):
        one, other = Metric(1, 0xFE, 0x40000000), Metric(3, 0x81, 0x41600000)
        third = Metric(2, 1, 0)
        for metrics, bound in (((), None), ((one,), None), ((one, other, third), 14.0),
                               ((third, other), 0.0)):
            fields = Pcreq(7, 0, S, Z, HUNDRED_BITS, metrics, ONWARD)
            self.assertEqual(fields.bound, bound)
            self.assertEqual(fields.request().bound, bound)
            self.assertEqual(W.pcreq_first(write_pcreq(fields)), W.first(fields.request()))


def outcome(call, *arguments):
    try:
        return call(*arguments)
    except Refused as refusal:
        return refusal.number, refusal.place


class Carried(unittest.TestCase):
    def test_any_order(self):
        for extra in XRO, metric(2, 1, 0x41600000), bytes.fromhex("63000008 04120004"), NOT_IPV4:
            expected = EVERY[:1] if extra == XRO else EVERY
            for order in itertools.permutations((*MODEL, extra)):
                paths = [path.addresses for path in W.pcreq_paths(pcreq(*order))]
                self.assertEqual(paths, expected)

    def test_two_end_points(self):
        paths = W.pcreq_paths(pcreq(RP, ENDS, OTHER_ENDS, HUNDRED, IRO))
        self.assertEqual([path.addresses for path in paths], EVERY)
        self.assertIsNone(W.pcreq_first(pcreq(RP, OTHER_ENDS, ENDS, HUNDRED, IRO)))
        # 64496 alone, where it is P that S leads to.
        inside = cases.W[:72] + bytes(4) + cases.W[76:]
        to_p = bytes.fromhex("0412000C C0000201 C000020B")
        path = Profile(inside).pcreq_first(pcreq(RP, to_p, ENDS))
        self.assertEqual(path.addresses, (S, cases.P))

    def test_damaged(self):
        """As the request that is read from the message, or refused like it."""
        damaged = [ASKED[:at] + bytes([byte]) + ASKED[at + 1 :]
                   for at in range(len(ASKED)) for byte in range(256)]
        damaged += [ASKED[:at] for at in range(len(ASKED))]
        damaged += [ASKED[:at] + ASKED[at + 4 :] for at in range(0, len(ASKED), 4)]
        found = 0
        for message in damaged:
            answer = outcome(W.pcreq_first, message)
            read = outcome(read_pcreq, message)
            if isinstance(read, Pcreq):
                self.assertEqual(answer, outcome(W.first, read.request()))
                found += answer is not None
            else:
                self.assertEqual(answer, read)
        self.assertGreater(found, 1000)

    def test_any_bytes(self):
        chance = random.Random(3)
        for _ in range(2000):
            length = 4 * chance.randrange(40)
            words = (chance.choice((b"\x04\x10", b"\x02\x12", b"\x99\x10", b"\0\0"))
                     + chance.choice((0, 1, 4, 8, 12, 0xFFFF)).to_bytes(2, "big")
                     for _ in range(length // 4))
            message = b"\x20\x03" + (4 + length).to_bytes(2, "big") + b"".join(words)
            read = outcome(read_pcreq, message)
            expected = outcome(W.first, read.request()) if isinstance(read, Pcreq) else read
            self.assertEqual(outcome(W.pcreq_first, message), expected)
        # No message is so long, so it isn't gone through to its end.
        self.assertEqual(destination_of(bytes(65_536) + ENDS), 0)
        self.assertEqual(outcome(W.pcreq_first, bytes(65_536) + ENDS), (36, 0))


if __name__ == "__main__":
    unittest.main()
