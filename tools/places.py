#!/usr/bin/env python3
"""Counts the places in crates/*/src that today's forms of the language could change, point by point.

usage: tools/places.py [--list] [FOLDER]     counts (and lists) in FOLDER, or here

Each point is a few patterns over the lines of code, without comments and ghost imports. A line that fits is a place to
look at and not yet a fault; docs/DESIGN-PASS.md says what became of each.
"""
import os
import re
import sys
from collections import defaultdict

# point: name, patterns over a line
LINES = {
    "1 flags, numbers for kinds or refusals": [
        r"^\s*(pub(\(crate\))? )?(known|waits|tagged|found|is_\w+|has_\w+): bool,",
        r"\b(kind|number|code|call|cost|heuristic|list|check|status|tagged): u8\b",
        r"-> u8\b",
        r"Result<[^;{]*, (u8|u16|u32|usize)>",
        r"-> (Option<\(u32, u16\)>|Reached)",
        r"\b255\b|u32::MAX|\b65535\b|(==|!=|<=) DEAD_END|, GOAL_ENTRY\)",
        r"(\[5\]|, 5\)) == 2|\bmatch kind\b",
    ],
    "3 loops that count by hand": [
        r"\bfor \w+ in .*\.\.",
        r"\bwhile (?!let)",
    ],
    "4 equality, order, copies, conversions, printing": [
        r"\bfn (word|code|told|refused|answered|flag|whole|place_number|verdict_code|unit|before|push_number|blank|unknown|number|place)\b",
        r"from_be_bytes\(\[",
        r"< other\.|== other\.",
        r"\.copy_from_slice\(|\bmatch std::str::from_utf8",
        r"^\s*(let \w+ = |Record \{|const \w+: \w+ = )?(Record|StripsAction|FiniteDomainAction) \{$",
    ],
    "6 buffers with a length, parallel arrays": [
        r"^\s*(pub(\(crate\))? )?\w+: \[u\d+; \w+\],",
        r"^\s*(pub(\(crate\))? )?len: usize,",
        r"\blen: usize[,)]",
        r"\bprices: &",
        r"-> Result<usize, Refusal>",
    ],
    "7 switches on which step to run": [
        r"\bmatch \w+\.call\b|\bif setup\.\w+ (==|!=)|\.as_str\(\) ==",
        r"\bSheet(Head|Record)::\w+\(\w+\) =>",
        r"\bfn\(|\bdyn\b",
    ],
}
# point 2: functions and types of a crate whose names differ in one of these words alone, and functions of one name in
# several crates, but for the methods of a trait
TWIN_WORDS = ["finite_domain", "strips", "facts", "variables", "heap", "flat", "u16", "u32", "FiniteDomain", "Strips",
              "Facts", "Variables", "Heap", "Flat"]
TRAIT = re.compile(r"^(pub(\(crate\))? )?trait |^impl.* for ")
ITEM = re.compile(r"^\s*(?:pub(?:\(crate\))? )?(?:extern \"C\" )?(?:const )?(fn|struct|enum) (\w+)")


def files(folder):
    for where, folders, names in os.walk(os.path.join(folder, "crates")):
        folders[:] = sorted(f for f in folders if f not in ("out", "target", "proofs", "specs"))
        for name in sorted(names):
            if name.endswith(".rt"):
                path = os.path.join(where, name)
                yield os.path.relpath(path, folder), open(path, encoding="utf-8").read()


def code_lines(text):
    for n, line in enumerate(text.split("\n"), 1):
        if not line.strip().startswith(("//", "ghost use", "use ")):
            yield n, line.split(" // ")[0]


def by_line(sources, patterns):
    return [f"{p}:{n}: {line.strip()}" for p, text in sources for n, line in code_lines(text)
            if not line.strip().startswith(("ensures", "requires", "ghost"))
            and any(re.search(x, line) for x in patterns)]


def items(text):
    """The functions and types of a file, but for the methods of a trait."""
    of_trait = False
    for n, line in code_lines(text):
        if line and not line.startswith((" ", "}", "{")):
            of_trait = bool(TRAIT.match(line))
        m = ITEM.match(line)
        if m and not (of_trait and m.group(1) == "fn"):
            yield n, m.group(1), m.group(2)


def twins(sources):
    groups = defaultdict(set)
    for path, text in sources:
        crate = path.split("/")[1]
        for n, kind, name in items(text):
            bare = name
            for word in TWIN_WORDS:
                bare = bare.replace(word, "*")
            if "*" in bare:
                groups[(crate, kind, bare)].add((crate, f"{path}:{n}: {name}"))
            if kind == "fn" and name not in ("main", "run", "new", "blank"):
                groups[("over the crates", kind, name)].add((crate, f"{path}:{n}: {name}"))
    out = set()
    for (where, kind, bare), found in groups.items():
        crates = {crate for crate, _ in found}
        if len(found) > 1 and (where != "over the crates" or len(crates) > 1):
            out |= {f"{f}  ({where}, {kind} {bare})" for _, f in found}
    return sorted(out)


def signatures(text):
    """Of each function its name, its parameters and its clauses."""
    head = None
    for _, line in code_lines(text):
        words = line.strip()
        if re.search(r"\bfn \w+", words) and not words.startswith(("requires", "ensures")):
            head = ""
        if head is None:
            continue
        head += words + "\n"
        if words == "{" or words.endswith(";") or words.endswith("{") and not words.startswith(("requires", "ensures")):
            clauses = re.findall(r"^(?:requires|ensures)\*? ?\w* ?\{ (.*) \}", head, re.M)
            plain = re.sub(r"<[^<>]*>", "", re.sub(r"^(?:requires|ensures).*$", "", head, flags=re.M))
            yield re.search(r"\bfn (\w+)", head).group(1), tuple(re.findall(r"\b([a-z]\w*): ", plain)), clauses
            head = None


def groups_of(params):
    """The largest sets of three or more parameters that three or more functions of a crate share."""
    for crate, functions in sorted(params.items()):
        sets = {frozenset(a) & frozenset(b) & frozenset(c) for a in functions for b in functions for c in functions
                if a is not b and b is not c and a is not c}
        sets = {s for s in sets if len(s) >= 3}
        for s in sorted((s for s in sets if not any(s < t for t in sets)), key=sorted):
            order = next(f for f in functions if s <= set(f))
            yield crate, [n for n in order if n in s], sum(s <= set(f) for f in functions)


def together(sources):
    params, facts = defaultdict(list), defaultdict(set)
    for path, text in sources:
        crate = path.split("/")[1]
        for name, names, clauses in signatures(text):
            params[crate].append(names)
            for clause in clauses:
                for part in re.split(r" × ", clause.strip("()")):
                    part = re.sub(r"\.(old|new|now)\b", "", part.strip("() "))
                    if re.search(r" ≤ | < |ValidCount|TaskLaws", part) and "→" not in part:
                        facts[(crate, part)].add(f"{path}: {name}")
    out = [f"{c}: parameters {', '.join(names)} in {n} functions" for c, names, n in groups_of(params)]
    out += [f"{c}: `{f}` in {len(fs)} contracts" for (c, f), fs in sorted(facts.items()) if len(fs) >= 3]
    return out


def proofs(folder):
    out = []
    for crate in sorted(os.listdir(os.path.join(folder, "crates"))):
        answers = lemmas = 0
        for where, _, names in os.walk(os.path.join(folder, "crates", crate, "proofs")):
            for name in names:
                text = open(os.path.join(where, name), encoding="utf-8").read()
                answers += len(re.findall(r"^pub \S+ : goal\.", text, re.M)) if name == "Answers.antt" else 0
                lemmas += len(re.findall(r"^\s*(?:pub )?[a-z]\S* : ", text, re.M)) if name != "Answers.antt" else 0
        if answers + lemmas:
            out.append(f"{crate}: {answers} answers, {lemmas} lemmas")
    return out


def main():
    words = [w for w in sys.argv[1:] if w != "--list"]
    folder = words[0] if words else "."
    sources = list(files(folder))
    found = {point: by_line(sources, patterns) for point, patterns in LINES.items()}
    found["2 twins"] = twins(sources)
    found["5 facts and parameters that travel together"] = together(sources)
    found["8 answers and lemmas"] = proofs(folder)
    for point in sorted(found):
        count = len(found[point])
        if point.startswith("8"):
            numbers = [re.findall(r"\d+", row) for row in found[point]]
            count = f"{sum(int(n[0]) for n in numbers)} answers, {sum(int(n[1]) for n in numbers)} lemmas"
        print(f"{point}: {count}")
        if "--list" in sys.argv:
            for row in found[point]:
                print("   ", row)


if __name__ == "__main__":
    main()
