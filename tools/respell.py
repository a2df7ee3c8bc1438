#!/usr/bin/env python3
"""Respells the repository's own names in specs and proofs: words in snake case, and `'` for a prime.

usage: python3 tools/respell.py        at the top of the repository, once, after its move to a newer Rattle

A name is the repository's own where a file of crates/*/specs or crates/*/proofs declares it. Functions, parameters and
fields of src/, names that the checker makes, and the libraries' names keep their spelling. Two names that would fall
together are told and nothing is written."""

import collections
import glob
import os
import re
import sys

NAME = r"[A-Za-z_][\w'′₀-₉]*(?:-[\w'′₀-₉]+)*"
TOKEN = re.compile(r"(?<![\w'′·-])" + NAME)
HUMPS = r"\b[a-z]\w*[A-Z]\w*\b"
# the same where it is no field
UNDOTTED = re.compile(r"(?<![\w'′·.-])" + NAME)
# lemmas that would have the name of the definition that they are about
LEMMAS = {n: n.replace("-", "_") + "_lem" for n in ("added-up", "areas-of", "counts-length", "good-after", "in-range", "largest-key", "list-room")}
# the same where the lemma had its spelling already, in the crates where it meets the definition
MET = {"card": {"taken_out"}, "engine": {"row_room"}, "sizes": {"left_after"}, "supharoek": {"no_room"}}
# names that the checker makes, or asks for
MADE = re.compile(r"^(?:(?:invariant|decreases|Need)-.*|returns(?:-\d+)?|loop-(?:init|preserved|smaller|test))$")


def antt_files():
    return sorted(p for p in glob.glob("crates/**/*.antt", recursive=True) if "/out/" not in p)


def declared(text, own):
    names, aliens = set(), set()
    for line in text.split("\n"):
        m = re.match(rf"\s*(?:abbrev |unfoldable )?(?:pub )?(?:record |data |module |ruleset )?({NAME}) [:=(]", line)
        if m:
            names.add(m.group(1))
        m = re.match(rf"\s*(?:pub )?(?:record|data|module|ruleset) ({NAME})", line)
        if m:
            names.add(m.group(1))
    for m in re.finditer(r"^\s*(?:pub )?use ([^\s{]+?)(?:\.\{([^}]*)\})?(?: as (\S+))?$", text, re.M):
        path, items, alias = m.groups()
        mine = path.split(".")[0] == "Rattle" and path.split(".")[1] in own
        for item in (items or "").split(","):
            parts = item.strip().split(" as ")
            if len(parts) == 2:
                names.add(parts[1].strip())
            if not mine and parts[0]:
                aliens.add(parts[0])
        if alias:
            names.add(alias)
    for m in re.finditer(r"[({]([^:(){}]*?) : ", text):
        names.update(TOKEN.findall(m.group(1)))
    for m in re.finditer(r"λ ([^.]*?)\.\s", text):
        names.update(TOKEN.findall(m.group(1)))
    for m in re.finditer(rf"\blet ({NAME})", text):
        names.add(m.group(1))
    return names, aliens


def respelled(name):
    if name in LEMMAS:
        return LEMMAS[name]
    new = name.replace("′", "'").replace("getD", "get_or").replace("-", "_")
    if re.match(r"[a-z]", new):
        new = re.sub(r"([a-z0-9])([A-Z])", r"\1_\2", new).lower()
    return new


def main():
    own = set(os.listdir("crates"))
    texts = {p: open(p, encoding="utf-8").read() for p in antt_files()}
    for p, t in texts.items():
        for name in MET.get(p.split(os.sep)[1], ()):
            t = re.sub(rf"(?<![\w.'-]){name}(?![\w'-])|(?<=\.){name}(?![\w'-])", name + "_lem", t)
        texts[p] = t
    names, aliens = set(), set()
    for text in texts.values():
        a, b = declared(text, own)
        names |= a
        aliens |= b
    turned = {n: respelled(n) for n in names - aliens if not MADE.match(n) and respelled(n) != n}
    by_new = collections.defaultdict(set)
    for old, new in turned.items():
        by_new[new].add(old)
    bad = False
    for new, olds in sorted(by_new.items()):
        if len(olds) > 1 or new in names or new in aliens:
            # one name in two files that never meet is no harm: it is told only where a file has both
            both = [p for p, t in texts.items() if len({x for x in UNDOTTED.findall(t) if x in olds or x == new}) > 1]
            if both:
                print(f"falls together: {sorted(olds)} and {new}: {both[:3]}")
                bad = True
    sources = sorted(p for p in glob.glob("crates/*/src/**/*.rt", recursive=True))
    codes = {p: open(p, encoding="utf-8").read() for p in sources}
    functions = set()
    for t in codes.values():
        functions |= set(re.findall(r"\bfn (\w+)", t))
    for p, t in codes.items():
        code = re.sub(r"(?m)^ghost use .*$|//.*$", "", t)
        bare = re.sub(r"(?s)\b(?:requires|ensures)\b[^{\n]*\{.*?\}\n", "\n", code)
        inside = {turned[x] for x in TOKEN.findall(t) if x in turned and re.match(r"[a-z]\w*[A-Z]", x)}
        for x in sorted(inside & set(re.findall(r"\b[a-z_]\w*\b", bare)) - functions):
            print(f"a word of the code too: {x} in {p}")
            bad = True
    if bad and "--anyway" not in sys.argv:
        return 1

    def turn(m):
        return turned.get(m.group(0), m.group(0))

    def line(t):
        text, dashes, said = t.partition("-- ")
        return TOKEN.sub(turn, text) + dashes + re.sub(r"`[^`]*`|" + HUMPS, lambda m: TOKEN.sub(turn, m.group(0)), said)

    for p, t in texts.items():
        new = "\n".join(line(l) for l in t.split("\n"))
        if new != open(p, encoding="utf-8").read():
            open(p, "w", encoding="utf-8").write(new)
    humps = re.compile(HUMPS)
    for p, t in codes.items():
        new = humps.sub(turn, t)
        if new != t:
            open(p, "w", encoding="utf-8").write(new)
    for p in sorted(glob.glob("docs/*.md") + ["README.md", "bench/README.md"]):
        t = open(p, encoding="utf-8").read()
        new = re.sub(r"`[^`\n]*`", lambda m: TOKEN.sub(turn, m.group(0)), t)
        if new != t:
            open(p, "w", encoding="utf-8").write(new)
    for p in sorted(glob.glob("crates/*/must-fail/*.edit")):
        t = open(p, encoding="utf-8").read()
        new = re.sub(r"(?m)^(?:old|new): .*$", lambda m: humps.sub(turn, m.group(0)), t)
        if new != t:
            open(p, "w", encoding="utf-8").write(new)
    print(f"{len(turned)} names respelled")
    return 0


if __name__ == "__main__":
    sys.exit(main())
