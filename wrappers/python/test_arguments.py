"""What may be given and what may not, and lists that change under a listing."""

import fractions
import ipaddress
import math
import unittest

import cases
from cases import ASKED, EVERY, ONWARD, S, Z, number, request
from yachayniq import (
    Metric, Pcrep, Pcreq, Profile, Stop, WithoutAs, WithoutIsisArea, WithoutNodes,
    check_profile, read_exrs, read_pcrep, read_pcreq, write_exrs, write_pcrep, write_pcreq,
)

W = Profile(cases.W)


class Arguments(unittest.TestCase):
    refused = cases.refused

    def wrong(self, error, text, call, *arguments, **named):
        with self.assertRaises(error) as raised:
            call(*arguments, **named)
        self.assertIs(type(raised.exception), error)
        self.assertEqual(str(raised.exception), text)

    def test_types(self):
        for name, wanted, values in (
            ("ingress", "a whole number", (1.0, "1", None, True, b"\1")),
            ("bandwidth", "a number", ("x", "1", None, True, b"1", [1.0], 1j)),
            ("bound", "a number", ("x", False, bytearray(1), ())),
            ("include", "bytes, a bytearray or a memoryview", ("2004", 4, [32, 4], None)),
            ("exclude", "bytes, a bytearray or a memoryview", ("2004", 4, [32, 4], None)),
            ("source", "an IPv4 address (text, a whole number or an ipaddress.IPv4Address)",
             (1.0, None, True, b"\xC0\0\2\1", ipaddress.IPv6Address(1))),
            ("destination", "an IPv4 address (text, a whole number or an ipaddress.IPv4Address)",
             (1.0, None, True, b"\xC0\0\2\1", ipaddress.IPv6Address(1))),
        ):
            for value in values:
                text = f"{name} must be {wanted}, not {type(value).__name__}"
                asked = request(**{name: value})
                self.wrong(TypeError, text, W.tree, asked)
                self.wrong(TypeError, text, W.first, asked)
                self.wrong(TypeError, text, W.next, asked, EVERY[0])
                self.wrong(TypeError, text, W.paths, asked)
                self.wrong(TypeError, text, W.series, asked, ["first"])

    def test_types_of_others(self):
        octets = "must be bytes, a bytearray or a memoryview, not"
        for call in Profile, check_profile:
            self.wrong(TypeError, f"data {octets} str", call, "w.dsp")
        for call in read_pcreq, read_pcrep, W.pcreq_first, W.pcreq_tree, W.pcreq_paths:
            self.wrong(TypeError, f"message {octets} str", call, "2003")
        self.wrong(TypeError, "ingress must be a whole number, not str", W.pcreq_first, ASKED, "0")
        self.wrong(TypeError, "ingress must be a whole number, not bool",
                   W.read_include, b"", ingress=False)
        self.wrong(TypeError, f"include {octets} int", W.read_include, 4)
        self.wrong(TypeError, "domain must be a whole number, not str", W.write_list, [Stop("0")])
        self.wrong(TypeError, "request must be a Request, not bytes", W.first, ASKED)
        self.wrong(TypeError, "value must be a number, not str", Metric.of, 2, 1, "14")
        self.wrong(TypeError, "request_id must be a whole number, not str",
                   write_pcreq, Pcreq("7", 0, S, Z))
        self.wrong(TypeError, "request_id must be a whole number, not NoneType",
                   write_pcrep, Pcrep(None, None))
        for text, call, *given in (
            ("asked must be a Pcreq, not Request", write_pcreq, request()),
            ("request must be a Request, not bytes", Pcreq.of, 7, ASKED),
            ("reply must be a Pcrep, not tuple", write_pcrep, EVERY[0]),
            ("asked must be a Pcreq, not bytes", Pcrep.of, ASKED, W.first(request())),
            ("path must be a Path, not NoneType", Pcrep.of, read_pcreq(ASKED), None),
            ("asked must be a Pcreq, not int", Pcrep.none, 7),
            ("stop must be a Stop, not int", W.write_list, [0, 1, 2]),
            ("stops must be a list of Stops, not Stop", W.write_list, Stop(0)),
            (f"exrs {octets} NoneType", W.write_list, [Stop(0), Stop(1, None, None)]),
            (f"data {octets} list", read_exrs, [33, 8]),
            ("exclusions must be a list of exclusions, not WithoutAs", write_exrs, WithoutAs(9)),
            ("exclusion must be a WithoutAs, WithoutOspfArea, WithoutIsisArea or WithoutNodes, "
             "not int", write_exrs, [64497]),
            ("number must be a whole number, not str", write_exrs, [WithoutAs("64497")]),
            (f"area {octets} str", write_exrs, [WithoutIsisArea("49")]),
            ("prefix must be a whole number, not bool", write_exrs, [WithoutNodes(S, True)]),
            ("desired must be a bool, not int", write_exrs, [WithoutAs(9, 1)]),
            ("after must be a Path or a list of addresses, not NoneType", W.next, request(), None),
            ('calls must be a list of "first" and "next", not int', W.series, request(), 3),
            ("metric must be a Metric, not int", write_pcrep, Pcrep(7, None, [1])),
            ("metrics must be a list of Metrics, not Metric",
             write_pcrep, Pcrep(7, None, Metric(2, 2, 0))),
            ("addresses must be a list of addresses, or None, not int", write_pcrep, Pcrep(7, 1)),
        ):
            self.wrong(TypeError, text, call, *given)

    def test_values(self):
        for text in "", "192.0.2", "192.0.2.256", "192.0.02.1", "::1", "192.0.2.1\0", "Z\xFC":
            self.wrong(ValueError, f"source: {text!r} is no IPv4 address",
                       W.first, request(source=text))
            self.wrong(ValueError, f"after: {text!r} is no IPv4 address",
                       W.next, request(), [S, text])
            self.wrong(ValueError, f"pin: {text!r} is no IPv4 address",
                       W.write_list, [Stop(0), Stop(1, text)])
            self.wrong(ValueError, f"addresses: {text!r} is no IPv4 address",
                       write_pcrep, Pcrep(7, [text]))
        for wrong in -1, 1 << 32:
            text = f"{wrong} has no place in 32 bits"
            self.wrong(ValueError, f"destination: {text}", W.first, request(destination=wrong))
            self.wrong(ValueError, f"request_id: {text}", write_pcreq, Pcreq(wrong, 0, S, Z))
            self.wrong(ValueError, f"rp_flags: {text}", write_pcreq, Pcreq(7, wrong, S, Z))
            self.wrong(ValueError, f"bandwidth_bits: {text}", write_pcreq, Pcreq(7, 0, S, Z, wrong))
            self.wrong(ValueError, f"bits: {text}",
                       write_pcreq, Pcreq(7, 0, S, Z, 0, (Metric(2, 1, wrong),)))
        self.wrong(ValueError, "kind: 256 has no place in 8 bits",
                   write_pcreq, Pcreq(7, 0, S, Z, 0, (Metric(256, 1, 0),)))

    def test_out_of_range(self):
        for wrong in 10**400, -(10**400), math.inf, math.nan, 1e39, -1, fractions.Fraction(10**400):
            self.refused(21, 0, W.first, request(bandwidth=wrong))
            self.refused(21, 1, W.first, request(bound=wrong))
        self.assertEqual(Metric.of(2, 1, 10**400).bits, 0x7F800000)
        self.assertEqual(Metric.of(2, 1, -(10**400)).bits, 0xFF800000)
        for wrong in 3, 0xFFFF, 0x10000, -1, 10**400:
            self.refused(20, 0, W.first, request(ingress=wrong))
            self.refused(20, 0, W.read_include, b"", wrong)

    def test_all_that_will_do(self):
        every = [path.addresses for path in W.paths(request())]
        self.assertEqual(every, EVERY)
        for changes in (
            {"source": number(S), "destination": ipaddress.IPv4Address(Z)},
            {"include": bytearray(ONWARD), "exclude": bytearray()},
            {"include": memoryview(ONWARD), "exclude": memoryview(b"")},
            {"include": memoryview(ONWARD[::-1])[::-1]},
            {"bandwidth": 100, "bound": 14},
            {"bandwidth": fractions.Fraction(100), "bound": fractions.Fraction(14)},
        ):
            self.assertEqual([path.addresses for path in W.paths(request(**changes))], EVERY)

    def test_lists_that_change(self):
        include, exclude = bytearray(ONWARD), bytearray()
        paths = W.paths(request(include=include, exclude=exclude))
        self.assertEqual(next(paths).addresses, EVERY[0])
        del include[4:]
        exclude += cases.WITHOUT_Q
        self.assertEqual([path.addresses for path in paths], EVERY[1:])
        message = bytearray(ASKED)
        paths = W.pcreq_paths(message)
        message[:] = b""
        self.assertEqual([path.addresses for path in paths], EVERY)
        data = bytearray(cases.W)
        profile = Profile(data)
        data[:] = b""
        self.assertEqual(profile.first(request()), W.first(request()))

    def test_refused_when_called(self):
        self.refused(30, 8, W.paths, request(include=cases.BACK))
        self.refused(36, 0, W.pcreq_paths, b"")
        self.assertEqual(list(W.paths(request(bound=13))), [])


if __name__ == "__main__":
    unittest.main()
