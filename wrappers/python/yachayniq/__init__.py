"""Yachayniq for Python: profiles, requests, trees, shortest paths and PCEP messages.

    profile = Profile(open("examples/w.dsp", "rb").read())
    request = Request("192.0.2.1", "192.0.2.99", include=include, bandwidth=100.0)
    for path in profile.paths(request):
        print(path.addresses, path.total)

What the library refuses is raised as Refused, with its number, its place and what
they mean. Addresses are given as dotted text, a whole number or an
ipaddress.IPv4Address, and got as text (`addresses`) or as numbers (`numbers`). An
argument of a wrong type is a TypeError (a bool is no number), a text that is no
address a ValueError.

An exclusion with X set is only desired: if there is one, in the exclude list or in
an EXRS of the include list, and no path keeps the bound with all exclusions, only
those with X clear count, and the tree and the paths are of round 2, else of round 1.

An EXRS excludes for one domain of the sequence alone. Here AS 64497, which is domain
1, isn't entered through 192.0.2.12:

    exrs = write_exrs([WithoutNodes("192.0.2.12")])
    include = profile.write_list([Stop(0), Stop(1, exrs=exrs), Stop(2)])

A PCReq is read and written, or put to a profile as it is; a PCRep is written and
read:

    asked = read_pcreq(message)
    for path in profile.pcreq_paths(message):
        print(write_pcrep(Pcrep.of(asked, path)).hex())

The library is loaded, at the first call, from the shared object that YQ_SO names (a
path, or a bare name that the dynamic loader finds), else from
target/libyachayniq.so. docs/LINKING.md says how to make that.
"""

from .arguments import Address
from .exrs import (
    Exclusion, WithoutAs, WithoutIsisArea, WithoutNodes, WithoutOspfArea, read_exrs, write_exrs,
)
from .metrics import Metric
from .pcrep import Pcrep, read_pcrep, write_pcrep
from .pcreq import Pcreq, read_pcreq, write_pcreq
from .profile import Profile, check_profile
from .refusal import Refused
from .values import Entry, Path, Request, Stop, Tree

__all__ = [
    "Address", "Entry", "Exclusion", "Metric", "Path", "Pcrep", "Pcreq", "Profile", "Refused",
    "Request", "Stop", "Tree", "WithoutAs", "WithoutIsisArea", "WithoutNodes", "WithoutOspfArea",
    "check_profile", "read_exrs", "read_pcrep", "read_pcreq", "write_exrs", "write_pcrep",
    "write_pcreq",
]
