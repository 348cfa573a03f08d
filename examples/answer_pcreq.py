"""Answers PCReqs on profile W: with a PCRep for each shortest path, with one that
says that there is none, and with why a message is refused.

Run from the top of the repository, with wrappers/python in PYTHONPATH.
"""

from yachayniq import Pcrep, Profile, Refused, read_pcreq, write_pcrep

ASKED = bytes.fromhex(
    "20030030"  # PCReq of 48 bytes
    "0212000C 00000000 00000007"  # RP: request 7
    "0412000C C0000201 C0000263"  # END-POINTS: 192.0.2.1 to 192.0.2.99
    "05120008 42C80000"  # BANDWIDTH: 100.0
    "0A12000C 2004FBF1 2004FBF2"  # IRO: AS 64497, AS 64498
)
BOUNDED = (
    bytes.fromhex("2003003C")  # PCReq of 60 bytes: the same
    + ASKED[4:]
    + bytes.fromhex("0610000C 00000102 41500000")  # and METRIC: TE, at most 13.0
)
UNKNOWN = ASKED[:17] + b"\x22" + ASKED[18:]  # END-POINTS of type 2, with P set

profile = Profile(open("examples/w.dsp", "rb").read())


def answer(message: bytes) -> None:
    asked = read_pcreq(message)
    replies = [Pcrep.of(asked, path) for path in profile.pcreq_paths(message)]
    for reply in replies or [Pcrep.none(asked)]:
        print(write_pcrep(reply).hex(" ", 4).upper())


for message in ASKED, BOUNDED, UNKNOWN:
    try:
        answer(message)
    except Refused as refusal:
        print(refusal)
