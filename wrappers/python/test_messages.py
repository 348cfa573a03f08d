"""The wrapper on messages: document 01's request as a PCReq, its paths as PCReps,
and each refusal of a message."""

import unittest

import cases
from cases import (
    ASKED, ENDS, EVERY, MODEL, NO_PATH, ONWARD, P, Q, RP, S, T, U, WITHOUT_Q, XRO, Z,
    metric, pcrep, pcreq,
)
from yachayniq import (
    Metric, Pcrep, Pcreq, Profile, Request, read_pcrep, read_pcreq, write_pcrep,
)

W = Profile(cases.W)
TOTAL = Metric(2, 2, 0x41600000)


def replied(inner: str) -> bytes:
    """The reply with the path through two nodes, in the last bytes of these."""
    one, other = bytes.fromhex(inner)
    return bytes.fromhex(
        "20040040 0212000C 00000000 00000007 07100024 0108C000 02012000"
        f"0108C000 02{one:02X}2000 0108C000 02{other:02X}2000 0108C000 02632000"
        "0610000C 00000202 41600000"
    )


class Messages(unittest.TestCase):
    refused = cases.refused

    def listed(self, *objects):
        paths = list(W.pcreq_paths(pcreq(*objects)))
        self.assertTrue(all((path.total, path.total_float) == (14, 14.0) for path in paths))
        return [path.addresses for path in paths]

    def test_pcreq(self):
        self.assertEqual(pcreq(*MODEL), ASKED)
        asked = read_pcreq(ASKED)
        self.assertEqual(asked, Pcreq(7, 0, S, Z, 0x42C80000, (), ONWARD, b""))
        self.assertEqual(asked.bandwidth, 100.0)
        # All flags, a TLV after the RP, and what isn't known, with P clear.
        rp = bytes.fromhex("02120014 FFFFFFFF 80000001 00630004 01020304")
        odd = pcreq(bytes.fromhex("09100004"), XRO, metric(255, 255, 1), ENDS, rp, RP,
                    metric(2, 1, 0x7F7FFFFF))
        metrics = Metric(255, 255, 1), Metric(2, 1, 0x7F7FFFFF)
        expected = Pcreq(0x80000001, 0x3F, S, Z, 0, metrics, b"", WITHOUT_Q)
        self.assertEqual(read_pcreq(odd), expected)
        self.assertEqual([m.value for m in metrics], [2.0**-149, 2.0**128 - 2.0**104])

    def test_tree_and_paths(self):
        request = Request(S, Z, include=ONWARD, bandwidth=100.0)
        self.assertEqual(W.pcreq_tree(ASKED), W.tree(request))
        self.assertEqual(list(W.pcreq_paths(ASKED)), list(W.paths(request)))
        self.assertEqual(self.listed(*MODEL), EVERY)
        self.assertEqual(self.listed(*MODEL, metric(2, 1, 0x41600000)), EVERY)
        self.assertEqual(self.listed(*MODEL, metric(2, 1, 0x41500000)), [])
        self.assertEqual(self.listed(*MODEL, metric(2, 2, 0x41500000)), EVERY)
        self.assertEqual(self.listed(*MODEL, XRO), EVERY[:1])
        self.assertIsNone(W.pcreq_first(pcreq(RP, ENDS)))
        self.assertEqual(W.pcreq_next(ASKED, (S, P, T, Z)).addresses, EVERY[0])
        self.assertIsNone(W.pcreq_next(ASKED, EVERY[2]))
        self.refused(33, 0, W.pcreq_next, ASKED, (S, Z))
        # From Q in domain 1 by AS 64498.
        inside = pcreq(RP, bytes.fromhex("0412000C C000020C C0000263 0A120008 2004FBF2"))
        paths = [(path.addresses, path.total) for path in W.pcreq_paths(inside, 1)]
        self.assertEqual(paths, [((Q, T, Z), 11), ((Q, U, Z), 11)])

    def test_replies(self):
        for path, inner in zip(W.pcreq_paths(ASKED), ("0B16", "0C15", "0C16"), strict=True):
            self.assertEqual(Metric.of(2, 2, path.total_float), TOTAL)
            reply = Pcrep(7, path.addresses, (TOTAL,))
            self.assertEqual(Pcrep.of(read_pcreq(ASKED), path), reply)
            written = write_pcrep(reply)
            self.assertEqual(written, replied(inner))
            self.assertEqual(read_pcrep(written), reply)
        for reply in (
            Pcrep(1, None, (), 0x3F, 255, True),
            Pcrep(0xFFFFFFFF, None, (Metric(255, 255, 1), Metric(0, 0, 0x7F7FFFFF))),
            Pcrep(0, ()),
            Pcrep(0, ("255.255.255.255",) * 8189),
            Pcrep(0, None, (TOTAL,) * 5459),
        ):
            self.assertEqual(read_pcrep(write_pcrep(reply)), reply)
        self.assertEqual(Pcrep.none(read_pcreq(ASKED)), Pcrep(7, None))
        no_path = Pcrep(7, None, nature=1, c=True)
        self.assertEqual(write_pcrep(no_path), pcrep(RP, NO_PATH))
        every_flag = write_pcrep(Pcrep(7, None, rp_flags=0xFFFFFFFF))
        self.assertEqual(read_pcrep(every_flag).rp_flags, 0x3F)

    def test_requests_refused(self):
        def refused(number, place, wrong):
            self.refused(number, place, read_pcreq, wrong)
            self.refused(number, place, W.pcreq_tree, wrong)
            self.refused(number, place, W.pcreq_first, wrong)
            self.refused(number, place, W.pcreq_next, wrong, EVERY[0])
            self.refused(number, place, W.pcreq_paths, wrong)

        refused(36, 0, b"")
        refused(36, 0, ASKED + bytes(4))
        refused(36, 0, pcrep(*MODEL))
        refused(37, 16, pcreq(RP, bytes.fromhex("04120008 C0000201")))
        refused(38, 16, pcreq(RP, bytes.fromhex("04220004")))
        refused(39, 0, pcreq(ENDS))
        refused(40, 0, pcreq(RP, bytes.fromhex("04200004")))
        refused(21, 0, pcreq(RP, ENDS, bytes.fromhex("05120008 7F800000")))
        refused(21, 1, pcreq(RP, ENDS, metric(1, 0, 0x80000000)))
        refused(22, 0, pcreq(RP, ENDS, bytes.fromhex("0A120408") + bytes(1028)))
        refused(22, 1, pcreq(RP, ENDS, bytes.fromhex("1112040C") + bytes(1032)))
        refused(24, 4, pcreq(RP, ENDS, bytes.fromhex("0A12000C 2004FBF1 2204FBF2")))
        refused(26, 0, pcreq(RP, ENDS, bytes.fromhex("11120010 00000000 0108C000 020C2002")))
        back = pcreq(RP, ENDS, bytes.fromhex("0A12000C 2004FBF1 2004FBF0"))
        self.assertEqual(read_pcreq(back).request_id, 7)
        self.refused(30, 4, W.pcreq_first, back)
        for none in 3, 65536, -1:
            self.refused(20, 0, W.pcreq_tree, ASKED, none)
            self.refused(20, 0, W.pcreq_first, ASKED, none)
            self.refused(20, 0, W.pcreq_next, ASKED, EVERY[0], none)

    def test_replies_refused(self):
        refused = self.refused
        refused(36, 0, read_pcrep, ASKED)
        refused(37, 16, read_pcrep, pcrep(RP, bytes.fromhex("03100004")))
        refused(38, 4, read_pcrep, pcrep(ENDS, RP, NO_PATH))
        refused(39, 0, read_pcrep, pcrep(NO_PATH))
        refused(41, 0, read_pcrep, pcrep(RP, metric(2, 2, 0)))
        refused(21, 1, read_pcrep, pcrep(RP, NO_PATH, metric(2, 2, 0xFFFFFFFF)))
        refused(24, 0, read_pcrep, pcrep(RP, bytes.fromhex("07100008 2004FBF1")))
        refused(27, 8, read_pcrep,
                pcrep(RP, bytes.fromhex("07100014 0108C000 02012000 8108C000 02632000")))
        refused(37, 0, write_pcrep, Pcrep(0, (S,) * 8190))
        refused(37, 0, write_pcrep, Pcrep(0, None, (TOTAL,) * 5460))
        refused(21, 1, write_pcrep, Pcrep(0, None, (TOTAL, Metric(2, 2, 0x7F800000))))
        for wrong in (
            Pcrep(-1, None), Pcrep(1 << 32, None), Pcrep(0, None, nature=256),
            Pcrep(0, None, (Metric(256, 0, 0),)), Pcrep(0, None, (Metric(0, 0, 1 << 32),)),
        ):
            self.assertRaises(ValueError, write_pcrep, wrong)


if __name__ == "__main__":
    unittest.main()
