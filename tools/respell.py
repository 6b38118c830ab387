#!/usr/bin/env python3
"""Spells the repository's own definitions and lemmas as today's Rattle does: words in snake case, types and facts in camel case, a prime as an apostrophe.

usage: tools/respell.py [--dry]    at the top of the repository, once, after the kit's port.py

A name that is declared in specs/ or proofs/ and has a capital after a small letter, or a dash, gets underscores; a lemma that would then have the name of a definition ends in
`_lem`. Names that the kit's library has too stay. Functions of src/, strings, inputs and outputs are not touched: in a .rt file and in the pages only whole words that are such names are respelled.
"""

import collections
import pathlib
import re
import subprocess
import sys

KIT_TOO = {"and-false", "and-true", "or-false", "length-take-le"}
# a lemma that has the name that a definition gets, in the one file that has both; and the form of a range, which is no name
ASIDE = {"crates/json/proofs/Complete.antt": {"is_digit": "is_digit_lem"}}
ASIDE |= {f"crates/stored/{p}": {"low-high": "low-high"} for p in ("specs/Text.antt", "specs/Line.antt", "specs/Writing.antt", "src/lines.rt", "src/write.rt")}
DECLARED = re.compile(r"\s*(?:(?:abbrev|unfoldable|pub|data|record)\s+)*([^\s(){}.;,λ\"]+)(?:\s+[({].*)?\s+:\s")
RULESET = re.compile(r"\s*(?:pub )?ruleset ([^\s]+) =")
WORD = r"[A-Za-z0-9_₀-₉'′-]"
TOKEN = re.compile(WORD + "+")


def files(*patterns):
    said = subprocess.run(["git", "ls-files", "-co", "--exclude-standard", *patterns], capture_output=True, text=True, check=True).stdout
    found = (pathlib.Path(p) for p in sorted(set(said.split())))
    return [p for p in found if p.exists() and "out" not in p.parts]


def declared(paths):
    names = collections.defaultdict(set)
    for p in paths:
        for line in p.read_text().splitlines():
            if line.lstrip().startswith(("--", "use ", "let ", "∙")):
                continue
            m = DECLARED.match(line) or RULESET.match(line)
            if m and re.fullmatch(TOKEN, m.group(1)):
                names[m.group(1)].add(p)
    return names


def respelled(name):
    name = name.replace("′", "'")
    if name[0].isupper():
        return name
    name = name.replace("-", "_")
    return re.sub(r"(?<=[a-z0-9])([A-Z])", lambda m: "_" + m.group(1).lower(), name)


def is_old(name):
    return name not in KIT_TOO and respelled(name) != name


def mapping(names):
    taken = {n for n in names if not is_old(n)}
    to = {}
    for n in sorted((n for n in names if is_old(n)), key=lambda n: ("-" in n, n)):
        to[n] = respelled(n)
        if "-" in n and (to[n] in taken or list(to.values()).count(to[n]) > 1):
            to[n] += "_lem"
    return to


def outside_strings(turn, text):
    return "".join(part if i % 2 else turn(part) for i, part in enumerate(re.split(r'("(?:[^"\\\n]|\\.)*")', text)))


def main(argv):
    antt = files("crates/*.antt")
    names = declared(p for p in antt if p.name != "Proof.antt")
    to = mapping(names)
    pages = files("README.md", "docs/*.md", "rust/*.md", "crates/*.edit")
    for p in antt + files("crates/*.rt") + pages:
        text = p.read_text()
        words = set(TOKEN.findall(text))
        met = collections.defaultdict(set)
        for w in words:
            met[(to | ASIDE.get(str(p), {})).get(w, w)].add(w)
        for new, olds in met.items():
            if len(olds) > 1 and "--dry" in argv:
                print(f"{p}: {sorted(olds)} -> {new}")
        here = to | ASIDE.get(str(p), {})
        if p.suffix in (".md", ".edit"):
            # a name that port.py has respelled in the sources alone
            now = {to.get(n, n) for n in names}
            here |= {w: respelled(w) for w in words if w not in here and "-" not in w and is_old(w) and respelled(w) in now}
        turn = lambda part: TOKEN.sub(lambda t: here.get(t.group(0), t.group(0)), part)
        if p.suffix == ".md":
            turned = re.sub(r"`[^`\n]+`", lambda m: turn(m.group(0)), text)
        else:
            turned = outside_strings(turn, text)
        if turned != text and "--dry" not in argv:
            p.write_text(turned)
    if "--dry" in argv:
        print(len(to), "names")
        for n, v in to.items():
            if v.endswith("_lem"):
                print("  ", n, v)


if __name__ == "__main__":
    main(sys.argv[1:])
