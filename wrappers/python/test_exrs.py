"""EXRS: made of exclusions, written in a list, read back, and what they take away; what
can't be made, and what the library refuses."""

import ctypes
import ipaddress
import random
import unittest

import cases
from cases import EVERY, P, Q, T, U, request
from yachayniq import (
    Pcreq, Profile, Refused, Stop, WithoutAs, WithoutIsisArea, WithoutNodes, WithoutOspfArea,
    read_exrs, write_exrs, write_pcreq,
)
from yachayniq.calls import library

W = Profile(cases.W)
WITHOUT_Q = write_exrs([WithoutNodes(Q)])


def through_w(stop: int, exrs: bytes, **parts) -> list[Stop]:
    """W's three domains, with these bytes for one of them."""
    return [Stop(domain, exrs=exrs, **parts) if domain == stop else Stop(domain)
            for domain in range(3)]


class Made(unittest.TestCase):
    def wrong(self, text, call, given):
        with self.assertRaises(ValueError) as raised:
            call(given)
        self.assertEqual(str(raised.exception), text)

    def test_made(self):
        exclusions = [
            WithoutNodes(Q), WithoutNodes("192.0.2.0", 24, desired=True),
            WithoutAs(65551), WithoutOspfArea(4, desired=True),
            WithoutIsisArea(b"\x49\0\1"),
            WithoutIsisArea(bytes.fromhex("490001020304050607"), desired=True),
        ]
        exrs = bytes.fromhex(
            "213C0000 0108C000 020C2001 8108C000 02001801 05080000 0001000F 86080000 00000004"
            "07080300 49000100 87100900 49000102 03040506 07000000"
        )
        self.assertEqual(write_exrs(exclusions), exrs)
        self.assertEqual(read_exrs(exrs), exclusions)
        self.assertEqual(read_exrs(memoryview(exrs)), exclusions)
        for address in 0xC000020C, ipaddress.IPv4Address(Q):
            self.assertEqual(write_exrs((WithoutNodes(address),)), WITHOUT_Q)
        # An AS of 16 bits is one too, and bytes that are ignored may be set.
        others = bytes.fromhex("21080102 A004FBF1 210C0000 05080909 0000FBF2")
        self.assertEqual(read_exrs(others), [WithoutAs(64497, True), WithoutAs(64498)])
        self.assertEqual(read_exrs(b""), [])

    def test_not_made(self):
        self.wrong("exclusions: an EXRS has one exclusion or more", write_exrs, [])
        longest = [WithoutAs(9)] * 31
        self.assertEqual(len(write_exrs(longest)), 252)
        self.wrong("exclusions: an EXRS has at most 252 bytes, not 260; several add up",
                   write_exrs, [*longest, WithoutAs(9)])
        for prefix in -1, 33:
            self.wrong(f"prefix: {prefix} is not 0 to 32", write_exrs, [WithoutNodes(Q, prefix)])
        for length in 0, 14:
            self.wrong(f"area: an IS-IS area has 1 to 13 bytes, not {length}",
                       write_exrs, [WithoutIsisArea(bytes(length))])
        for number in -1, 1 << 32:
            text = f"number: {number} has no place in 32 bits"
            self.wrong(text, write_exrs, [WithoutAs(number)])
            self.wrong(text, write_exrs, [WithoutOspfArea(number)])
        for number in 0, 23456:
            self.wrong(f"number: AS {number} is nobody's", write_exrs, [WithoutAs(number)])
            self.assertEqual(len(write_exrs([WithoutAs(number + 1)])), 12)
        for nobodys in "21080000 20040000", "210C0000 85080000 00005BA0":
            self.wrong("data: no EXRS of right form at offset 4",
                       read_exrs, bytes.fromhex(nobodys))
        self.wrong("address: '192.0.2' is no IPv4 address", write_exrs, [WithoutNodes("192.0.2")])
        self.wrong("data: no EXRS of right form at offset 12",
                   read_exrs, WITHOUT_Q + bytes.fromhex("21080000 2004FB"))
        self.wrong("data: no EXRS of right form at offset 4",
                   read_exrs, bytes.fromhex("21080000 21040000"))

    def test_generated(self):
        chance = random.Random(5)
        for _ in range(2000):
            kinds = (
                lambda x: WithoutAs(chance.randrange(23457, 1 << 32), x),
                lambda x: WithoutOspfArea(chance.randrange(1 << 32), x),
                lambda x: WithoutIsisArea(chance.randbytes(chance.randint(1, 13)), x),
                lambda x: WithoutNodes(
                    ".".join(str(byte) for byte in chance.randbytes(4)), chance.randint(0, 32), x),
            )
            exclusions = [chance.choice(kinds)(chance.random() < 0.5)
                          for _ in range(chance.randint(1, 12))]
            exrs = write_exrs(exclusions)
            self.assertEqual(read_exrs(exrs), exclusions)
            stops = through_w(chance.randint(1, 2), exrs)
            self.assertEqual(W.read_include(W.write_list(stops)), stops)

    def test_damaged(self):
        """Each byte changed to each other: a right form is found where the library does."""
        exrs = write_exrs([WithoutNodes(Q), WithoutIsisArea(bytes(5)), WithoutAs(9)])
        right = 0
        for at in range(len(exrs)):
            for byte in range(256):
                changed = exrs[:at] + bytes([byte]) + exrs[at + 1 :]
                written = self.done(W.write_list, through_w(1, changed))
                self.assertEqual(self.done(read_exrs, changed), written)
                right += written
        self.assertGreater(right, 5 * 256)

    def done(self, call, given) -> bool:
        try:
            call(given)
        except (Refused, ValueError):
            return False
        return True


class InLists(unittest.TestCase):
    refused = cases.refused

    def test_written_and_read(self):
        both = WITHOUT_Q + write_exrs([WithoutAs(9, desired=True)])
        stops = [Stop(0), Stop(1, None, both), Stop(2, U, write_exrs([WithoutNodes(T)]))]
        written = bytes.fromhex(
            "05080000 0000FBF0 210C0000 0108C000 020C2001 210C0000 85080000 00000009"
            "05080000 0000FBF1 0108C000 02162000 210C0000 0108C000 02152001 05080000 0000FBF2"
        )
        self.assertEqual(W.write_list(stops), written)
        self.assertEqual(W.read_include(written), stops)
        self.assertEqual(W.write_list([Stop(0), Stop(1, None, bytearray(both)), stops[2]]), written)
        # They wait over AS 64496, which adds nothing, and keep every byte.
        noisy = bytes.fromhex("21080102 20040009 2004FBF0 210C0304 06080506 00000007 2004FBF1")
        self.assertEqual(W.read_include(noisy), [Stop(0), Stop(1, None, noisy[:8] + noisy[12:24])])

    def test_paths(self):
        p, q = (WithoutNodes(node, desired=True) for node in (P, Q))
        for stop, exclusions, expected, in_round in (
            (1, [WithoutNodes(Q)], EVERY[:1], 1),
            (1, [q], EVERY[:1], 1),
            (2, [WithoutNodes(Q)], EVERY, 1),
            (1, [WithoutNodes("192.0.2.0", 24)], [], 1),
            (1, [p, q], EVERY, 2),
            (1, [WithoutAs(64497)], [], 1),
            (2, [WithoutAs(64497)], EVERY, 1),
            (2, [WithoutAs(64498, desired=True)], EVERY, 2),
        ):
            asked = request(include=W.write_list(through_w(stop, write_exrs(exclusions))))
            paths = list(W.paths(asked))
            self.assertEqual([path.addresses for path in paths], expected)
            self.assertTrue(all(path.round == in_round for path in paths))
            message = write_pcreq(Pcreq.of(7, asked))
            self.assertEqual(list(W.pcreq_paths(message)), paths)
        asked = request(include=W.write_list(through_w(1, WITHOUT_Q)))
        costs = [(entry.reachable, entry.cost) for entry in W.tree(asked).entries]
        self.assertEqual(costs, [(True, 14), (True, 4), (False, 0), (True, 2), (True, 3)])

    def test_left_over(self):
        exrs, entry = bytes.fromhex("21080000 20040009"), bytes.fromhex("0108C000 02162000")
        onward = bytes.fromhex("2004FBF1")
        self.refused(42, 4, W.read_include, onward + exrs)
        self.refused(42, 4, W.read_include, onward + exrs + entry)
        self.refused(32, 4, W.read_include, onward + entry + exrs)
        self.refused(42, 4, W.read_include, onward + exrs + onward)
        refusal = self.refused(42, 4, W.first, request(include=onward + exrs))
        self.assertEqual(
            str(refusal), "refused: number 42, place 4: an EXRS with no new domain after it "
            "(place: offset in the include list)",
        )

    def test_not_written(self):
        self.refused(35, 0, W.write_list, through_w(0, WITHOUT_Q))
        for wrong in WITHOUT_Q[:8], WITHOUT_Q + b"\0", b"\xA1" + WITHOUT_Q[1:], cases.WITHOUT_Q:
            self.refused(35, 0, W.write_list, through_w(1, wrong))
        # Whole together, but not each domain's for itself.
        parted = [Stop(0), Stop(1, exrs=WITHOUT_Q[:4]), Stop(2, exrs=WITHOUT_Q[4:])]
        self.refused(35, 0, W.write_list, parted)
        # 24 bytes name the three domains: 1,000 are left.
        longest, rest = (write_exrs([WithoutAs(9)] * count) for count in (31, 30))
        self.assertEqual(len(W.write_list(through_w(1, 3 * longest + rest))), 1024)
        self.refused(35, 0, W.write_list, through_w(1, 4 * longest))

    def test_too_little_room(self):
        """34 can't come up through a Profile, which lends enough for every list."""
        include = bytes.fromhex("21080000 20040009 2004FBF1")
        types = ctypes.c_uint16, ctypes.c_bool, ctypes.c_uint32, ctypes.c_uint32, ctypes.c_uint8
        needed = [2, 2, 2, 2, 8]
        for short in range(6):
            counts = [count - (which == short) for which, count in enumerate(needed)]
            room = [(kind * count)() for kind, count in zip(types, needed)]
            lent = [part for pair in zip(room, counts) for part in pair]
            numbers = (ctypes.c_uint32 * 3)()
            number = library().yq_read_include(
                cases.W, len(cases.W), 0, include, len(include), *lent, numbers
            )
            fits = short == 5
            self.assertEqual((number, *numbers), (0, 0, 2, 8) if fits else (34, 0, 0, 0))
            self.assertEqual(bytes(room[4]), include[:8] if fits else bytes(8))
        self.assertEqual(
            Refused(34, 0, "read_include").meaning, "a buffer has fewer elements than the "
            "sequence has domains, or fewer than its EXRS have bytes",
        )


if __name__ == "__main__":
    unittest.main()
