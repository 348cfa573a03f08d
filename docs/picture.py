"""The picture of profile W: its domains, hops and costs, and its shortest paths.

    python3 docs/picture.py          checks the stored picture, without graphviz
    python3 docs/picture.py --draw   draws it, by graphviz's dot

The picture is drawn from the bytes of examples/w.dsp and from the paths that
the proved program prints (crates/worked_example/stdout). The dot text is stored
beside the SVG. The check makes the dot text again and compares, and then finds
every domain, node and hop of it in the SVG, with its text and its colours, and
no other.
"""

import re
import struct
import subprocess
import sys
import xml.etree.ElementTree
from dataclasses import dataclass
from ipaddress import IPv4Address
from pathlib import Path

ROOT = Path(__file__).resolve().parent.parent
PROFILE = ROOT / "examples" / "w.dsp"
LISTING = ROOT / "crates" / "worked_example" / "stdout"
DOT = ROOT / "docs" / "profile-w.dot"
SVG = ROOT / "docs" / "profile-w.svg"

PLAIN = "#9a9a9a"
COLOURS = ["#c0392b", "#1f6fb2", "#2e8b57"]  # of the first, second and third path


@dataclass(frozen=True)
class Hop:
    domain: int
    tail: str
    head: str
    cost: int
    bandwidth: float


def profile(data: bytes) -> tuple[list[int], list[Hop]]:
    """The AS of each domain, and the hops: version 1, domains without areas."""
    mark, version, _, domains, hops, _ = struct.unpack_from(">3sHBHHH", data)
    assert (mark, version) == (b"DSP", 1) and len(data) == 12 + 20 * (domains + hops)
    systems = [struct.unpack_from(">I", data, 12 + 20 * i)[0] for i in range(domains)]
    found = []
    for i in range(hops):
        record = struct.unpack_from(">HHIIIf", data, 12 + 20 * (domains + i))
        domain, _, tail, head, cost, bandwidth = record
        nodes = str(IPv4Address(tail)), str(IPv4Address(head))
        found.append(Hop(domain, *nodes, cost, bandwidth))
    return systems, found


def shortest_paths(listing: str) -> list[tuple[list[str], int]]:
    """The paths of the program's first request: its first, and each next to the end."""
    paths = []
    for line in listing.splitlines():
        found = re.fullmatch(r"(?:first|next): ([0-9. ]+), total (\d+) .*", line)
        if found:
            paths.append((found[1].split(), int(found[2])))
        elif paths:
            return paths
    raise ValueError("the listing has no end")


def stroke(hop: Hop, paths: list[tuple[list[str], int]]) -> list[str]:
    """The colours of the paths that go by a hop."""
    step = (hop.tail, hop.head)
    colours = [
        colour
        for colour, (nodes, _) in zip(COLOURS, paths, strict=True)
        if step in zip(nodes, nodes[1:])
    ]
    return colours or [PLAIN]


class Picture:
    """What is to be drawn: text and colours by name."""

    def __init__(self):
        systems, hops = profile(PROFILE.read_bytes())
        paths = shortest_paths(LISTING.read_text())
        self.clusters = {f"cluster_{i}": [f"AS {asn}"] for i, asn in enumerate(systems)}
        self.inside = {name: [] for name in self.clusters}
        self.nodes, self.edges = {}, {}
        narrow, wide = sorted({hop.bandwidth for hop in hops})
        for hop in hops:
            for node in hop.tail, hop.head:
                self.nodes[node] = [node]
            inside = self.inside[f"cluster_{hop.domain}"]
            if hop.tail not in inside:
                inside.append(hop.tail)
            label = f"{hop.cost}*" if hop.bandwidth == narrow else str(hop.cost)
            self.edges[f"{hop.tail}->{hop.head}"] = (label, stroke(hop, paths))
        # A node that no hop leaves is an end point, in the domain of the hop to it.
        for hop in hops:
            if not any(hop.head in inside for inside in self.inside.values()):
                self.inside[f"cluster_{hop.domain}"].append(hop.head)
        total = paths[0][1]
        self.caption = [
            f"beside each hop its cost; bandwidth {wide:g}, at * {narrow:g}",
            f"coloured: the {len(paths)} shortest paths, total {total} each",
        ]

    def dot(self) -> str:
        caption = "\\n".join(self.caption)
        lines = [
            "digraph W {",
            "  rankdir=LR; splines=line; nodesep=0.8; ranksep=1.5;",
            f'  label="{caption}"; fontname="Helvetica"; fontsize=13;',
            '  node [shape=box, style="rounded,filled", fillcolor=white, fontname="Helvetica", fontsize=12];',
            '  edge [fontname="Helvetica", fontsize=12, penwidth=1.6, arrowsize=0.7, labeldistance=4.2, labelangle=12];',
        ]
        for name, (label,) in self.clusters.items():
            lines.append(f'  subgraph {name} {{ label="{label}"; style="rounded,filled"; color="#f0f0f0";')
            lines += [f'    "{node}";' for node in self.inside[name]]
            lines.append("  }")
        for edge, (label, colours) in self.edges.items():
            tail, head = edge.split("->")
            lines.append(f'  "{tail}" -> "{head}" [taillabel=" {label} ", color="{":".join(colours)}"];')
        return "\n".join([*lines, "}", ""])


def drawn(svg: str) -> dict[str, dict]:
    """What an SVG of graphviz's shows: by class and name, its texts and colours."""
    space = "{http://www.w3.org/2000/svg}"
    shown = {"graph": {}, "cluster": {}, "node": {}, "edge": {}}
    for group in xml.etree.ElementTree.fromstring(svg).iter(f"{space}g"):
        texts = [text.text.strip() for text in group.findall(f"{space}text")]
        lines = [path.get("stroke") for path in group.findall(f"{space}path")]
        shown[group.get("class")][group.find(f"{space}title").text] = (texts, lines)
    return shown


def check(picture: Picture) -> None:
    if DOT.read_text() != picture.dot():
        sys.exit(f"{DOT} is not what the profile's bytes say: run docs/picture.py --draw")
    shown = drawn(SVG.read_text())
    expected = {
        "graph": {"W": picture.caption},
        "cluster": picture.clusters,
        "node": picture.nodes,
        "edge": {edge: [label] for edge, (label, _) in picture.edges.items()},
    }
    texts = {
        kind: {name: texts for name, (texts, _) in group.items()}
        for kind, group in shown.items()
    }
    colours = {edge: lines for edge, (_, lines) in shown["edge"].items()}
    if texts != expected or colours != {edge: c for edge, (_, c) in picture.edges.items()}:
        sys.exit(f"{SVG} is not what {DOT.name} says: run docs/picture.py --draw")
    print("the picture of profile W shows its domains, hops, costs and shortest paths")


def draw(picture: Picture) -> None:
    subprocess.run([ROOT / ".ci" / "need", "dot"], check=True)
    DOT.write_text(picture.dot())
    subprocess.run(["dot", "-Tsvg", "-o", SVG, DOT], check=True)


if __name__ == "__main__":
    if sys.argv[1:] == ["--draw"]:
        draw(Picture())
    check(Picture())
