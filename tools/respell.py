#!/usr/bin/env python3
"""Brings the repository's own ghost names to snake case: definitions, lemmas, fields and constructors of specs/ and proofs/.

usage: python3 tools/respell.py        at the top of the repository, once, after the kit's own script

A name in camel case that begins small becomes snake case; a dash becomes `_`, but in a lemma whose parts are all
names of functions. A lemma that would have its function's name gets `_lem`. Goals, functions of src/, strings and comments of src/ keep their names. It stops, and writes nothing,
where two names would fall together; a field may have the name of another field.
"""

import collections
import glob
import re
import sys

WORD = r"[A-Za-z0-9_'’\u2080-\u209c\u2032\u2115\u2124-]+"
TOKEN = re.compile(WORD)
# a declaration, also one inside a module of parameters or a `where`
DECLARED = re.compile(r"^ *(?:(?:abbrev|unfoldable|pub|axiom)\s+)*(" + WORD + r")\s*:\s")
TYPED = re.compile(r"^(?:pub )?(record|data) (" + WORD + ")")
MEMBER = re.compile(r"^  (?:pub )?(" + WORD + r")\s*:")
LIBRARY = set("length take drop set map replicate append sum cond min max slice_get slice_index slice_set".split())

# definitions whose name would be that of a function of src/ beside them
BESIDE = {"verdictCode": "code_of_verdict", "placeNumber": "number_of_place", "listEnd": "end_of_list", "headLength": "length_of_head"}


def ghost_files():
    return sorted(glob.glob("crates/*/specs/**/*.antt", recursive=True) + glob.glob("crates/*/proofs/**/*.antt", recursive=True))


def declared():
    """Each own name and the kinds in which it is declared."""
    kinds = collections.defaultdict(set)
    for path in ghost_files():
        inside = None
        for line in open(path, encoding="utf-8"):
            head = TYPED.match(line)
            if head:
                kinds[head[2]].add("type")
                inside = "field" if head[1] == "record" else "constructor"
                continue
            if line[:1] not in " \n":
                inside = None
            found = MEMBER.match(line) if inside else DECLARED.match(line)
            if not found or re.search(r":\s+goal\.", line):
                continue
            kinds[found[1]].add(inside or ("definition" if "/specs/" in path else "lemma"))
    return kinds


def snake(part):
    return part if part[:1].isupper() else re.sub(r"([a-z0-9])([A-Z])", r"\1_\2", part).lower()


def respelled(name, kinds, functions):
    if name in BESIDE:
        return BESIDE[name]
    parts = name.replace("\u2032", "'").split("-")
    joins = kinds == {"lemma"} and all(p in functions for p in parts)
    return ("-" if joins else "_").join(snake(p) for p in parts)


def turns():
    kinds = declared()
    functions = LIBRARY | {n for n, k in kinds.items() if k & {"definition", "type"}}
    to = {n: respelled(n, k, functions) for n, k in kinds.items() if not (n[0].isupper() and "-" not in n)}
    shared = {t for t, c in collections.Counter(to.values()).items() if c > 1}
    to = {n: t + "_lem" if t in shared and "-" in n else t for n, t in to.items()}
    return {n: t for n, t in to.items() if n != t}


def pieces(path, text):
    """The text in pieces, and whether a piece may be respelled: comments and strings of src/ may not."""
    if path.endswith(".antt"):
        return [(p, not p.startswith('"')) for p in re.split(r'("(?:[^"\\]|\\.)*")', text)]
    parts = re.split(r'(//[^\n]*|"(?:[^"\\]|\\.)*")', text)
    return [(p, not p.startswith(("//", '"'))) for p in parts]


def main():
    to = turns()
    fields = {n for n, k in declared().items() if k == {"field"}}
    texts = {p: open(p, encoding="utf-8").read() for p in ghost_files() + sorted(glob.glob("crates/*/src/*.rt"))}
    used = collections.defaultdict(set)
    for path, text in texts.items():
        for piece, open_ in pieces(path, text):
            if open_:
                for token in TOKEN.findall(piece):
                    used[token].add(path)
    clash = [(n, t) for n, t in to.items() if n not in fields and n in used and used[n] & used.get(t, set())]
    clash += [(n, t) for t, c in collections.Counter(to.values()).items() if c > 1 for n in to if to[n] == t]
    for n, t in clash:
        print(f"{n} and {t} would fall together in {sorted(used[n] & used[t])[:3]}")
    if clash and "--force" not in sys.argv:
        return 1
    for path, text in texts.items():
        new = "".join(TOKEN.sub(lambda m: to.get(m[0], m[0]), p) if open_ else p for p, open_ in pieces(path, text))
        if new != text:
            open(path, "w", encoding="utf-8").write(new)
    for n in sorted(to):
        print(f"{n} -> {to[n]}")
    return 0


if __name__ == "__main__":
    raise SystemExit(main())
