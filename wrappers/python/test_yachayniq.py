"""The wrapper on document 01's worked examples, each call and each kind of answer,
on desired exclusions and on wide costs."""

import math
import unittest

import cases
from cases import BACK, EVERY, P, Q, S, T, U, W, WITHOUT_P, WITHOUT_Q, Z, number, request
from yachayniq import Entry, Path, Profile, Request, Stop, Tree, check_profile

# 64500 with OSPF area 0, 64501 with the areas 0 and 4
AREAS = bytes.fromhex("445350000100000300000000") + b"".join(
    bytes.fromhex(record).ljust(20, b"\0")
    for record in ("0000FBF40104", "0000FBF50104", "0000FBF5010400000004")
)
WRITTEN = bytes.fromhex(
    "05080000 0000FBF4 06080000 00000000 05080000 0000FBF5"
    "06080000 00000000 06080000 00000004"
)


def path(addresses, *rest) -> Path:
    return Path(tuple(map(number, addresses)), *rest)


class ProfileW(unittest.TestCase):
    def setUp(self):
        self.w = Profile(W)

    refused = cases.refused

    def listed(self, in_round=1, **changes):
        paths = list(self.w.paths(request(**changes)))
        for path in paths:
            self.assertEqual((path.total, path.total_float, path.round), (14, 14.0, in_round))
        return [path.addresses for path in paths]

    def costed(self, in_round, costs, **changes):
        """What S, P, Q, T and U cost; 0 where Z can't be reached."""
        nodes = (0, S), (1, P), (1, Q), (2, T), (2, U)
        tree = self.w.tree(request(**changes))
        self.assertEqual((tree.tally, tree.round), (8 * in_round, in_round))
        for entry, (level, address), cost in zip(tree.entries, nodes, costs, strict=True):
            self.assertEqual(entry, Entry(level, number(address), cost != 0, cost))
            self.assertEqual(entry.address, address)

    def test_tree(self):
        self.costed(1, (14, 4, 11, 2, 3))
        tree = self.w.tree(request(include=b""))
        self.assertEqual(tree, Tree((Entry(0, number(S), False, 0),), 0, 1))

    def test_paths(self):
        self.assertEqual(self.listed(), EVERY)
        self.assertEqual(self.listed(bound=14.0), EVERY)
        self.assertEqual(self.listed(bound=13.0), [])
        self.assertEqual(self.listed(bound=math.nextafter(14, 0)), EVERY)  # 14 as a 32-bit float
        self.assertEqual(self.listed(bandwidth=100.00001), EVERY[:2])
        self.assertEqual(self.listed(exclude=WITHOUT_Q), EVERY[:1])
        pinned = bytes.fromhex("2004FBF1 0108C000 02162000 2004FBF2")
        self.assertEqual(self.listed(include=pinned), [EVERY[0], EVERY[2]])

    def test_rounds(self):
        p, q = (b"\x81" + exclusion[1:] for exclusion in (WITHOUT_P, WITHOUT_Q))  # X set
        for exclude, in_round, paths, costs in (
            (q, 1, EVERY[:1], (14, 4, 0, 2, 3)),
            (p + q, 2, EVERY, (14, 4, 11, 2, 3)),
            (WITHOUT_P + q, 2, EVERY[1:], (14, 0, 11, 2, 3)),
            (WITHOUT_P + WITHOUT_Q, 1, [], (0, 0, 0, 2, 3)),
        ):
            self.assertEqual(self.listed(in_round, exclude=exclude), paths)
            self.costed(in_round, costs, exclude=exclude)
        # AS 64511, which W lacks: the bound alone leaves no path in either round,
        # and the tree, which it isn't applied to, is of the second.
        missed = {"exclude": bytes.fromhex("A004FBFF"), "bound": 13.0}
        self.assertIsNone(self.w.first(request(**missed)))
        self.costed(2, (14, 4, 11, 2, 3), **missed)

    def test_wide_costs(self):
        # 16,777,203 more on each last hop: the total is no float, and the bound is held
        # against the whole number.
        t, u = (bytes.fromhex(cost) for cost in ("00FFFFF5", "00FFFFF6"))
        wide = Profile(W[:204] + t + W[208:224] + u + W[228:])
        found = wide.first(request())
        self.assertEqual(found, path((S, P, U, Z), 16777217, 16777216.0, 1))
        self.assertIsNone(wide.first(request(bound=found.total_float)))
        self.assertIsNone(wide.first(request(bound=16777217.0)))  # the same as a 32-bit float
        self.assertEqual(wide.first(request(bound=16777218.0)), found)
        self.refused(17, 10, Profile, W[:224] + b"\x01" + W[225:])

    def test_first_and_next(self):
        first = self.w.first(request())
        self.assertEqual(first, path((S, P, U, Z), 14, 14.0, 1))
        self.assertEqual(first.addresses, (S, P, U, Z))
        self.assertEqual(
            repr(first),
            "Path(addresses=('192.0.2.1', '192.0.2.11', '192.0.2.22', '192.0.2.99'), "
            "total=14, total_float=14.0, round=1)",
        )
        self.assertIsNone(self.w.first(request(include=b"")))
        self.assertEqual(self.w.next(request(), (S, P, T, Z)), first)
        self.assertEqual(self.w.next(request(), first).addresses, (S, Q, T, Z))
        self.assertIsNone(self.w.next(request(), (S, Q, U, Z)))
        self.refused(33, 0, self.w.next, request(), (S, P, Z))

    def test_destination_on_the_way(self):
        # 64496 to 64497, which is entered through the destination and left from it.
        profile = Profile(
            bytes.fromhex("445350000100000200020000")
            + bytes.fromhex("0000FBF0") + bytes(16) + bytes.fromhex("0000FBF1") + bytes(16)
            + bytes.fromhex("00000001 C0000201 C0000263 00000001 447A0000")
            + bytes.fromhex("00010001 C0000263 C0000263 00000001 447A0000")
        )
        by_64497 = request(include=bytes.fromhex("2004FBF1"))
        self.assertEqual(profile.first(by_64497), path((S, Z, Z), 2, 2.0, 1))
        self.assertEqual(profile.series(by_64497, ["first"]), [path((S, Z, Z), 2, 2.0, 1)])
        message = cases.pcreq(cases.RP, cases.ENDS, bytes.fromhex("0A120008 2004FBF1"))
        self.assertEqual(profile.pcreq_first(message), path((S, Z, Z), 2, 2.0, 1))
        # The only hop of a profile of class 1, from 0.0.0.0 to 0.0.0.0.
        profile = Profile(
            bytes.fromhex("445350000101000100010000 00000001") + bytes(16)
            + bytes(12) + bytes.fromhex("00000001 447A0000")
        )
        self.assertEqual(profile.first(Request(0, 0)), path(("0.0.0.0",) * 2, 1, 1.0, 1))

    def test_largest(self):
        profile, asked = cases.largest()
        tree = profile.tree(asked)
        self.assertEqual((len(tree.entries), tree.tally, tree.round), (241, 3000, 1))
        nodes = [0xC6336400 + 16 * level + j for level in range(1, 16) for j in range(16)]
        self.assertEqual([entry.number for entry in tree.entries], [number(S), *nodes])
        levels = [0, *(level for level in range(1, 16) for _ in range(16))]
        self.assertEqual([entry.level for entry in tree.entries], levels)
        self.assertTrue(all(entry.reachable is True for entry in tree.entries))
        first = profile.first(asked)
        self.assertEqual((len(first.numbers), first.total), (17, tree.entries[0].cost))
        self.assertEqual((first.addresses[0], first.addresses[16]), (S, "192.0.2.254"))
        # Domains of different ASs, each with an area of 13 bytes.
        stops = [Stop(1), *(Stop(domain, U) for domain in range(3, 32, 2))]
        written = profile.write_list(stops)
        self.assertEqual((len(stops), len(written)), (16, 568))
        self.assertEqual(profile.read_include(written, ingress=1), stops)

    def test_refusals(self):
        for call in self.w.tree, self.w.first:
            self.refused(30, 8, call, request(include=BACK))
            self.refused(20, 0, call, request(ingress=3))
            self.refused(20, 0, call, request(ingress=65536))
            self.refused(20, 0, call, request(ingress=-1))
            self.refused(20, 0, call, request(ingress=-65536))
            for wrong in -1.0, -0.0, 1e39, math.inf, math.nan:
                self.refused(21, 0, call, request(bandwidth=wrong))
                self.refused(21, 1, call, request(bound=wrong))
            self.refused(22, 0, call, request(include=bytes(1025)))
            self.refused(22, 1, call, request(exclude=bytes(1025)))
        self.refused(30, 8, self.w.paths, request(include=BACK))

    def test_profiles(self):
        check_profile(W)
        self.refused(10, 0, Profile, b"")
        self.refused(11, 0, check_profile, b"X" + W[1:])
        self.refused(16, 3, Profile, W[:78] + b"\x03" + W[79:])

    def test_lists(self):
        areas = Profile(AREAS)
        sequence = [Stop(0), Stop(1), Stop(2)]
        self.assertEqual(areas.read_include(WRITTEN), sequence)
        self.assertEqual(areas.read_include(WRITTEN[16:]), sequence)
        self.assertEqual(areas.write_list(sequence), WRITTEN)
        pinned = [Stop(0), Stop(2, U), Stop(1)]
        self.assertEqual(areas.read_include(areas.write_list(pinned)), pinned)
        self.refused(29, 0, areas.read_include, WRITTEN[16:24])
        self.refused(20, 0, areas.read_include, b"", ingress=3)
        for wrong in [], [Stop(0)] * 2, [Stop(3)], [Stop(65536)], [Stop(-65536)], [Stop(0, U)]:
            self.refused(35, 0, areas.write_list, wrong)


if __name__ == "__main__":
    unittest.main()
