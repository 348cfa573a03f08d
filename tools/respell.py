#!/usr/bin/env python3
"""Brings the names of definitions and lemmas to the library's spelling, once, after port.py: words in snake case, functions into
`Type` in upper camel case; a dash joins two names of definitions, and any other dash is `_`. Functions of src/, the names that
Rattle makes and the library's stay. Prints names that would fall together, and changes nothing where some would.

    tools/respell.py [--write]      crates/ below the current folder, must-fail edits too
    tools/respell.py --docs         README.md, docs/*.md by the map that --write left in tools/respelled.txt
"""

import collections
import re
import sys
from pathlib import Path

KIT = Path("/opt/rattle/rattle")
TOKEN = re.compile(r"[A-Za-z_\u25cc\u0370-\u03ff\u2080-\u2089][\w'\u2080-\u2089\u25cc\u1d30-\u1dbf-]*")
MARKS = r"(?:(?:pub|abbrev|unfoldable|pattern) )*"
DECLARED = re.compile(rf"(?:^|[\[(;] *|\blet )\s*{MARKS}([^\s:;(){{}}\[\].,]+(?: [^\s:;(){{}}\[\].,]+)*)(?: \{{[^}}]*\}})? : ", re.M)
TYPES = {"hopBelow": "HopBelow", "routeBelow": "RouteBelow"}
# Words of the library that names of lemmas speak of.
WORDS = {"length", "append", "take", "drop", "map", "set", "get_or", "replicate", "reverse", "zip", "concat", "sum"}
# Words of English that are names of definitions too.
ENGLISH = {"no", "none", "at", "to", "from", "first", "by", "the", "are", "in", "left", "most", "some", "here", "not", "bits", "says", "path", "paths", "next", "all", "new", "old", "each", "pass", "stands", "legs"}
# Lemmas that port.py gave the name that a definition gets here: the file that states each.
LEMMAS = {
    "all_there": "crates/tree_rounds/proofs/AllExrs.antt",
    "found_as": "crates/list_include/proofs/Hits.antt",
    "next_place": "crates/path_step/proofs/Places.antt",
}


def files(kinds=(".antt", ".rt", ".edit")):
    for path in sorted(Path("crates").rglob("*")):
        if path.suffix in kinds and "out" not in path.parts:
            yield path


def snake(word: str) -> str:
    return re.sub(r"(?<=[a-z0-9])([A-Z])", lambda m: "_" + m[1].lower(), word)


def made(path: Path) -> bool:
    """A proof of a function: its names are those of the goals that Rattle makes."""
    return path.name in ("Proof.antt", "Answers.antt", "Invariants.antt")


def mapping():
    library = set()
    for path in KIT.rglob("*.antt"):
        library.update(TOKEN.findall(path.read_text(errors="replace")))
    tokens, declared, definitions, renamed = collections.Counter(), set(), set(), dict(TYPES)
    renamed["getD"] = "get_or"
    for path in files((".antt", ".rt")):
        text = path.read_text()
        tokens.update(TOKEN.findall(text))
        if path.suffix == ".antt":
            here = {name for names in DECLARED.findall(text) for name in names.split()}
            if path.parts[2] == "specs":
                definitions |= here
            if not made(path):
                declared |= here
    words = {snake(name).strip("\u25cc") for name in definitions if "-" not in name} - ENGLISH | WORDS
    for name in tokens:
        if not re.match(r"[a-z\u25cc]", name) or name in renamed or re.search(r"_[A-Z]", name):
            continue
        if "-" not in name:
            if re.search(r"[A-Z]", name) and name not in library:
                renamed[name] = snake(name)
            continue
        parts = [renamed.get(p) if p in TYPES or p == "getD" else (p if p[:1].isupper() else snake(p)) for p in name.split("-")]
        if name not in declared or name in library:
            if parts != name.split("-") and name not in library:
                renamed[name] = "-".join(parts)
            continue
        new = parts[0]
        for before, part in zip(parts, parts[1:]):
            symbols = not (part[:1].isalnum() and before[-1:].isalnum())
            both = before in words and part in words or symbols
            new += ("-" if both else "_") + part
        if new != name:
            renamed[name] = new
    taken = {new for old, new in renamed.items() if "-" not in old} | {n for n in declared if n not in renamed}
    for old in sorted(renamed):
        if "-" in old and renamed[old] in taken:
            renamed[old] += "_lem"
    return renamed, tokens, library


def together(renamed, tokens):
    """Names that fall together: in one file of definitions or lemmas, the new spelling stood already."""
    found = []
    back = collections.defaultdict(set)
    for old, new in renamed.items():
        back[new].add(old)
    for new, olds in back.items():
        if len(olds) > 1:
            found.append((new, sorted(olds), "two names become one"))
    for path in files((".antt",)):
        text = re.sub(r"(?m)^\s*--.*$", "", path.read_text())
        here = set(TOKEN.findall(re.sub(r"Rattle\.[\w.]*proofs\.[\w.]+", "", text)))
        for name in here & set(renamed):
            if renamed[name] in here:
                found.append((renamed[name], [name], str(path)))
    return found


def respelled(text: str, renamed) -> str:
    return TOKEN.sub(lambda m: renamed.get(m[0], m[0]), text)


COMMENT = {".antt": re.compile(r"(?:^|(?<=\s))--(?=\s|$).*$", re.M), ".rt": re.compile(r"//.*$", re.M), ".edit": re.compile(r"^(?:#|name:).*$", re.M)}


def of_file(path: Path, text: str, renamed) -> str:
    """The code by the whole map; comments by the names without a dash, and by all between back quotes. Names of edits stay."""
    if path.suffix == ".edit":
        plain = {}
    else:
        plain = {old: new for old, new in renamed.items() if "-" not in old}
    if made(path):
        # what a step of the walk is called is for the goals to say
        text = re.sub(r"\.([\w']+(?:-[\w']+)+)", lambda m: "." + m[1].replace("-", "\0"), text)
    out, at = [], 0
    for m in COMMENT[path.suffix].finditer(text):
        out.append(respelled(text[at:m.start()], renamed))
        out.append(re.sub(r"`[^`\n]+`|[^`]+", lambda c: respelled(c[0], renamed if c[0].startswith("`") else plain), m[0]))
        at = m.end()
    out.append(respelled(text[at:], renamed))
    return "".join(out).replace("\0", "-")


def lemmas(path: Path, text: str) -> str:
    for name, file in LEMMAS.items():
        crate, module = file.split("/")[1], Path(file).stem
        new = name + "_lem"
        if str(path) == file:
            text = re.sub(rf"(?<![\w.'-]){name}(?![\w'-])", new, text)
        elif m := re.search(rf"^use Rattle\.{crate}\.proofs\.{module}\.\{{[^}}]*(?<![\w'-]){name}(?![\w'-])", text, re.M):
            text = re.sub(rf"(?<![\w.'-]){name}(?![\w'-])", new, text)
    return text


def main() -> None:
    if "--docs" in sys.argv:
        renamed = dict(line.split() for line in Path("tools/respelled.txt").read_text().splitlines())
        for path in [Path("README.md"), *sorted(Path("docs").rglob("*.md"))]:
            text = path.read_text()
            new = re.sub(r"`[^`\n]+`", lambda m: respelled(m[0], renamed), text)
            if new != text:
                path.write_text(new)
        return
    renamed, tokens, library = mapping()
    falls = together(renamed, tokens)
    for fall in sorted(falls, key=str):
        print("together:", *fall)
    for old, new in sorted(renamed.items()):
        if new in library:
            print("library:", old, new)
    print(len(renamed), "names")
    if "--write" in sys.argv:
        Path("tools/respelled.txt").write_text("".join(f"{old} {new}\n" for old, new in sorted(renamed.items())))
        for path in files():
            text = path.read_text()
            new = of_file(path, lemmas(path, text), renamed)
            if new != text:
                path.write_text(new)
    else:
        for old, new in sorted(renamed.items()):
            print(old, new)


main()
