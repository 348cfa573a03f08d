"""Prints every shortest path of profile W, then why a request is refused.

Run from the top of the repository, with wrappers/python in PYTHONPATH.
"""

from yachayniq import Profile, Refused, Request

ONWARD = bytes.fromhex("2004FBF1 2004FBF2")  # AS 64497, AS 64498
BACK = bytes.fromhex("05080000 0000FBF1 05080000 0000FBF0")  # AS 64497, AS 64496

profile = Profile(open("examples/w.dsp", "rb").read())
for include in ONWARD, BACK:
    request = Request("192.0.2.1", "192.0.2.99", include=include, bandwidth=100.0)
    try:
        for path in profile.paths(request):
            print(*path.addresses, "total", path.total)
    except Refused as refusal:
        print(refusal)
