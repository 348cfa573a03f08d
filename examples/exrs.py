"""Keeps a node out of one domain alone: profile W with an EXRS by which AS 64497 isn't
entered through 192.0.2.12. Prints the include list that says so, what it excludes for
each domain, and the paths that are left; then why a list is refused in which no domain
follows the EXRS.

Run from the top of the repository, with wrappers/python in PYTHONPATH.
"""

from yachayniq import Profile, Refused, Request, Stop, WithoutNodes, read_exrs, write_exrs

profile = Profile(open("examples/w.dsp", "rb").read())
exrs = write_exrs([WithoutNodes("192.0.2.12")])
# AS 64496, 64497 and 64498 are the domains 0, 1 and 2.
list_with_exrs = profile.write_list([Stop(0), Stop(1, exrs=exrs), Stop(2)])
print(list_with_exrs.hex(" ", 4).upper())
for stop in profile.read_include(list_with_exrs):
    for exclusion in read_exrs(stop.exrs):
        print(f"domain {stop.domain} without {exclusion.address}/{exclusion.prefix}")

for include in list_with_exrs, list_with_exrs[:20]:  # the second: AS 64496 and the EXRS
    request = Request("192.0.2.1", "192.0.2.99", include=include, bandwidth=100.0)
    try:
        for path in profile.paths(request):
            print(*path.addresses, "total", path.total)
    except Refused as refusal:
        print(refusal)
