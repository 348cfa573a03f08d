"""Profiles and messages that several tests ask about."""

import pathlib
import random

from yachayniq import Profile, Refused, Request, Stop

ROOT = pathlib.Path(__file__).resolve().parents[2]
W = (ROOT / "examples" / "w.dsp").read_bytes()
S, P, Q, T, U, Z = ("192.0.2.%d" % last for last in (1, 11, 12, 21, 22, 99))
EVERY = [(S, P, U, Z), (S, Q, T, Z), (S, Q, U, Z)]
ONWARD = bytes.fromhex("2004FBF1 2004FBF2")
BACK = bytes.fromhex("05080000 0000FBF1 05080000 0000FBF0")
WITHOUT_P, WITHOUT_Q = (bytes.fromhex(f"0108C00002{last}2001") for last in ("0B", "0C"))

RP = bytes.fromhex("0212000C 00000000 00000007")
ENDS = bytes.fromhex("0412000C C0000201 C0000263")
HUNDRED = bytes.fromhex("05120008 42C80000")
IRO = bytes.fromhex("0A12000C 2004FBF1 2004FBF2")
XRO = bytes.fromhex("11120010 00000000 0108C000 020C2001")
NO_PATH = bytes.fromhex("03100008 01800000")
MODEL = RP, ENDS, HUNDRED, IRO
ASKED = bytes.fromhex(
    "20030030 0212000C 00000000 00000007 0412000C C0000201 C0000263"
    "05120008 42C80000 0A12000C 2004FBF1 2004FBF2"
)


def request(**changes) -> Request:
    """Document 01's request on profile W, but for these changes."""
    asked = {"source": S, "destination": Z, "include": ONWARD, "bandwidth": 100.0}
    return Request(**(asked | changes))


def number(address: str) -> int:
    a, b, c, d = map(int, address.split("."))
    return ((a * 256 + b) * 256 + c) * 256 + d


def pcreq(*objects: bytes) -> bytes:
    return message(3, objects)


def pcrep(*objects: bytes) -> bytes:
    return message(4, objects)


def message(kind: int, objects: tuple) -> bytes:
    body = b"".join(objects)
    return bytes([0x20, kind]) + (4 + len(body)).to_bytes(2, "big") + body


def metric(kind: int, flags: int, bits: int) -> bytes:
    return bytes.fromhex("0610000C 0000") + bytes([flags, kind]) + bits.to_bytes(4, "big")


def refused(test, number, place, call, *arguments, **named) -> Refused:
    with test.assertRaises(Refused) as raised:
        call(*arguments, **named)
    refusal = raised.exception
    test.assertEqual((refusal.number, refusal.place), (number, place))
    return refusal


def table() -> dict[tuple[str, int, str], str]:
    """What wrappers/numbers.txt has for a call, a number and a place (*: any)."""
    names: dict[str, list[str]] = {}
    meanings = {}
    for line in (ROOT / "wrappers" / "numbers.txt").read_text().splitlines():
        if "|" not in line or line.startswith("#"):
            if " = " in line:
                name, members = line.split(" = ")
                names[name.strip()] = members.split()
            continue
        number, place, calls, meaning, counted = (part.strip() for part in line.split("|"))
        text = meaning + (f" (place: {counted})" if counted else "")
        for call in flat(calls.split(), names):
            meanings[call, int(number), place] = text
    return meanings


def flat(calls: list[str], names: dict[str, list[str]]) -> set[str]:
    found = set()
    for call in calls:
        found |= flat(names[call], names) if call in names else {call}
    return found


def largest() -> tuple[Profile, Request]:
    """64 domains and 3,000 hops, and the request that crosses 16 of the domains, each
    entered through 16 nodes."""
    areas = bytes.fromhex("01 04 00000000"), bytes.fromhex("02 0D 49000100000000000000000007")
    numbers = [*range(64_496, 64_512), *range(65_536, 65_552)]
    domains = [(n.to_bytes(4, "big") + area).ljust(20, b"\0") for n in numbers for area in areas]
    hops = [hop for step in range(16) for hop in _step(step)]
    counts = len(domains).to_bytes(2, "big") + len(hops).to_bytes(2, "big")
    header = bytes.fromhex("445350000100") + counts + bytes(2)
    profile = Profile(header + b"".join(domains) + b"".join(hops))
    include = profile.write_list(Stop(domain) for domain in range(16))
    return profile, Request(S, "192.0.2.254", include=include, bandwidth=1000.0)


def _step(step: int) -> list[bytes]:
    """The hop records from one domain to the next, or inside the last one."""
    chance = random.Random(step)
    pairs = [(j, l) for j in range(16) for l in range(16)]
    if step == 0:
        pairs = pairs[:16]
    elif step == 15:
        pairs = pairs[::16]
    else:
        # Every node is left by one hop at least, and reached by one.
        straight = {(j, j) for j in range(16)}
        crossing = [pair for pair in pairs if pair not in straight]
        pairs = sorted(straight | set(chance.sample(crossing, 212 - 16)))
    hops = []
    for j, l in pairs:
        u = number(S) if step == 0 else 0xC6336400 + 16 * step + j
        v = number("192.0.2.254") if step == 15 else 0xC6336400 + 16 * (step + 1) + l
        values = (u, v, chance.randrange(4), 0x447A0000)
        hops.append(
            step.to_bytes(2, "big") + min(step + 1, 15).to_bytes(2, "big")
            + b"".join(value.to_bytes(4, "big") for value in values)
        )
    return hops
