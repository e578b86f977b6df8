#!/usr/bin/env python3
"""Brings this repository's own definitions and lemmas to today's spelling: words in snake case, as `with_bit` for `withBit`.

usage: python3 tools/respell.py        at the top of the repository, once, after the kit's port.py

A word that begins with a small letter and has a capital inside is one of the repository's own; a capital at the head of a part is a type,
a fact or a module, and stays. In a .rt file text between double quotes stays. Four lemmas would get the name of the definition that they
speak of, and get `_lem` first.
"""

import os
import re

# lemmas whose name a definition gets: the files of the lemma, and of those who cite it
LEMMAS = {
    "by_parts": ["numbers/proofs/Relations.antt", "numbers/proofs/relation/holds/Proof.antt", "floating/proofs/Ordering.antt"],
    "reads_at": ["touch/proofs/Touching.antt", "touch/proofs/read/Proof.antt"],
    "at_position": ["queue/proofs/Straight.antt"],
    "out_of_range": ["listing/proofs/Printing.antt", "listing/proofs/list_state/Proof.antt", "execute/proofs/Executing.antt", "execute/proofs/execute/Proof.antt"],
}
# pages that name definitions and lemmas
PAGES = ["README.md", "docs/READING.md", "docs/PROMISES.md", "docs/ADDING.md", "docs/DECISIONS.md", "docs/PERFORMANCE.md"]

WORD = re.compile(r"[\w'′]+")
CAMEL = re.compile(r"(?<=[a-z0-9])([A-Z]+)")


def part(p):
    return CAMEL.sub(lambda m: "_" + m.group(1).lower(), p) if p[:1].islower() else p


def word(m):
    return "_".join(part(p) for p in m.group(0).split("_"))


def outside_quotes(text):
    return '"'.join(t if i % 2 else WORD.sub(word, t) for i, t in enumerate(text.split('"')))


def rewrite(path, turn):
    with open(path, encoding="utf-8") as f:
        old = f.read()
    new = turn(old)
    if new != old:
        with open(path, "w", encoding="utf-8") as f:
            f.write(new)


def main():
    for name, files in LEMMAS.items():
        for f in files:
            rewrite("crates/" + f, lambda t: re.sub(r"(?<![\w'.-])" + name + r"(?![\w'-])", name + "_lem", t))
    own = set()
    for folder, dirs, files in os.walk("crates"):
        dirs[:] = sorted(d for d in dirs if d != "out")
        for f in sorted(files):
            path = os.path.join(folder, f)
            if f.endswith((".antt", ".rt")):
                with open(path, encoding="utf-8") as it:
                    own |= {w for w in WORD.findall(it.read()) if word(re.match(r".*", w)) != w}
                rewrite(path, (lambda t: WORD.sub(word, t)) if f.endswith(".antt") else lambda t: "\n".join(map(outside_quotes, t.split("\n"))))
    known = lambda m: word(m) if m.group(0) in own else m.group(0)
    for folder, dirs, files in os.walk("crates"):
        for f in sorted(files):
            if f.endswith(".edit"):
                rewrite(os.path.join(folder, f), lambda t: "\n".join(WORD.sub(known, l) if l.startswith(("old:", "new:")) else l for l in t.split("\n")))
    for page in PAGES:
        rewrite(page, lambda t: "".join(WORD.sub(known, s) if i % 2 else s for i, s in enumerate(re.split(r"(`[^`\n]*`)", t))))
    print("\n".join(sorted(own)))


if __name__ == "__main__":
    main()
