#!/usr/bin/env python3
"""Counts, in the .rt files of crates/*/src below a folder, the places that today's forms of Rattle make plainer: an old form and the lines that have it, point by point.

    python3 tools/places.py [--lines] [FOLDER]
"""
import re
import sys
from collections import defaultdict
from pathlib import Path

FLAGS = "found bounded reachable mark pinned excluded wrong".split()


def code_of(text: str) -> list[str]:
    """The lines without comments, ghost imports and clauses."""
    out, inside = [], False
    for line in text.split("\n"):
        bare = re.sub(r"//.*", "", line)
        if re.match(r"\s*(ghost |requires|ensures)", bare):
            inside = bare.count("{") > bare.count("}")
            bare = ""
        elif inside:
            inside = bare.count("}") <= bare.count("{")
            bare = ""
        out.append(bare)
    return out


def functions(lines: list[str]):
    """Name, line, parameters and body of each function."""
    text = "\n".join(lines)
    for m in re.finditer(r"\bfn (\w+)(?:<[^(]*>)?\(", text):
        depth, at = 1, m.end()
        while depth and at < len(text):
            depth += {"(": 1, ")": -1}.get(text[at], 0)
            at += 1
        params = [p for p in re.split(r",(?![^<\[(]*[>\])])", text[m.end():at - 1]) if p.strip()]
        start = text.find("{", at)
        semi = text.find(";", at)
        if start < 0 or 0 <= semi < start:
            continue
        depth, end = 1, start + 1
        while depth and end < len(text):
            depth += {"{": 1, "}": -1}.get(text[end], 0)
            end += 1
        yield m[1], text[:m.start()].count("\n") + 1, params, text[start + 1:end - 1]


def shape(body: str) -> str:
    """A body with every name and number replaced."""
    keep = {"let", "mut", "if", "else", "while", "for", "in", "return", "match", "as", "true", "false", "self"}
    return " ".join(w if w in keep or not re.match(r"[\w:]+$", w) else "N" if w[0].isdigit() else "X" for w in re.findall(r"[A-Za-z_][\w:]*|\d\w*|\S", body))


def structs(text: str):
    for m in re.finditer(r"^(?:pub(?:\(crate\))? )?(struct|enum) (\w+)(?:<[^>]*>)? \{\n(.*?)^\}", text, re.M | re.S):
        yield m[1], m[2], text[:m.start()].count("\n") + 1, m[3]


def places(root: Path):
    found = defaultdict(list)
    clauses = defaultdict(list)
    for path in sorted(root.glob("crates/*/src/**/*.rt")):
        raw = path.read_text()
        lines, name = code_of(raw), str(path.relative_to(root / "crates"))
        for n, line in enumerate(lines, 1):
            here = f"{name}:{n}: {line.strip()}"
            if re.search(r"Verdict::(Pass|Refuse)\b|::Refused\b", line):
                found["1 a verdict or an answer made or taken apart by its variants"].append(here)
            if re.search(r"\b(refuse|refuse_at|refused_at|first_left)\(\d|number: \d|^\s*return \d\d;|^\s*\w+, \d\d, \d\d, \d\d|^\s*\d\d,$|\d\d, \d\d, \d\d, 0\)", line):
                found["1 a refusal by a bare number"].append(here)
            if re.match(r"\s*(while|loop)\b", line):
                found["3 a loop that is no for"].append(here)
            if re.search(r"\.0 (==|!=|<=?|>=?) |(==|!=|<=?|>=?) [a-z_.]+(\[\w+\])?\.0\b", line):
                found["4 the number inside a newtype compared"].append(here)
            if "UNREACHABLE" in line and not line.lstrip().startswith("use "):
                found["1 the number that says unreachable"].append(here)
        for kind, title, n, body in structs("\n".join(re.sub(r"//.*", "", line) for line in raw.split("\n"))):
            here = f"{name}:{n}: {title}"
            if kind == "enum":
                variants = re.findall(r"^    (\w+)( \{|\(|,)", body, re.M)
                if re.search(r"\(Refusal\)", body) or len(variants) == 2 and sum(v[1] != "," for v in variants) == 1:
                    found["1 an own enum of the shape of Option or Result"].append(here)
            else:
                fields = re.findall(r"^    (?:pub )?(\w+): ([^\n]*),$", body, re.M)
                if any(f in FLAGS and t in ("bool", "u8", "[u8; 16]") for f, t in fields) and len(fields) > 1:
                    found["1 a struct of a flag beside its value"].append(here)
                if any(t == "Verdict" for _, t in fields):
                    found["1 a struct of a verdict beside its value"].append(here)
                if sum(t.startswith("[") for _, t in fields) > 1:
                    found["6 a struct of parallel arrays"].append(here)
        bodies = list(functions(lines))
        for title, n, params, body in bodies:
            here = f"{name}:{n}: {title}"
            if len(params) > 7:
                found["5 a function of more than seven parameters"].append(f"{here} ({len(params)})")
            if sum(bool(re.search(r": &(mut )?\[\w+; \d+\]", p)) for p in params) > 1:
                found["6 arrays that go as parameters side by side"].append(here)
            if len(body.split()) > 12:
                clauses[(name.split("/")[0], shape(body))].append(here)
    for (_, _), same in clauses.items():
        if len(same) > 1:
            found["2 bodies of one crate that differ in names and numbers alone"] += ["; ".join(same)]
    return found


def main() -> None:
    words = [w for w in sys.argv[1:] if w != "--lines"]
    found = places(Path(words[0]) if words else Path(__file__).resolve().parent.parent)
    for point in sorted(found):
        print(f"{len(found[point]):4} {point}")
        if "--lines" in sys.argv:
            for line in found[point]:
                print(f"         {line}")


if __name__ == "__main__":
    main()
