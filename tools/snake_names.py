#!/usr/bin/env python3
"""Spells the repository's own definitions and lemmas in snake case, as today's Rattle does: once, over crates/, after port.py.

usage: snake_names.py [--list]

A name that begins with a small letter and has a capital or a dash gets underscores. A dash stays where it joins two of the algebra's words, as in
`count-le`. A lemma that would have its definition's name ends in `_lem`. Types and modules keep their names, and so do names that only Rattle's own
library declares, the functions of src/, what Rattle makes of them in proofs/, strings, inputs and outputs.
With --list the new names are printed, and nothing is written.
"""
import collections
import os
import re
import sys

ROOT = os.path.join(os.path.dirname(os.path.realpath(__file__)), "..")
NAME = r"[^\s(){}.;,@\"«»`]+"
DECLARED = re.compile(r"^(\s*)((?:(?:pattern|unfoldable|abbrev|pub|axiom)\s+)*)(" + NAME + r")((?:\s*\{[^{}]*\})*)\s*:\s")
MODULE = re.compile(r"^\s*module _ ")
# Words that a dash may go on joining.
ALGEBRA = set("length get_or take drop append set map tab tabs count sum min max eqb leb ltb le lt add sub mul div mod pow bit xor and or not cons nil zero"
              " one two suc true false any all cond replicate total reverse pos neg eq".split())
# Names that would fall together with another in one file, and what they are called instead.
OTHER = {}
# Names of one spelling that stand in one file and mean no harm there.
APART = set()


def files(kinds):
    for folder, dirs, names in os.walk(os.path.join(ROOT, "crates")):
        dirs[:] = sorted(d for d in dirs if d != "out")
        for n in sorted(names):
            if n.endswith(kinds):
                yield os.path.join(folder, n)


def read(path):
    with open(path, encoding="utf-8") as f:
        return f.read()


def uncommented(line):
    return re.sub(r"(^|\s)--(\s.*)?$", "", line)


def in_words(name):
    name = name.replace("getD", "get_or")
    if "·" in name:  # a field of a table of records
        name = name.replace("·", "_") + "_field"
    return re.sub(r"(?<=[a-z0-9])[A-Z](?=[a-z0-9]|$)", lambda m: "_" + m[0].lower(), name)


def spelled(name):
    """A capital part that is a type's name keeps its capital, as the guides have it: `Holds-next` is no word of ours."""
    parts = [in_words(p) for p in name.split("-")]
    if len(parts) > 1 and all(p.rstrip("0123456789₀₁₂'") in ALGEBRA for p in parts):
        return "-".join(parts)
    return "_".join(p for p in parts if p)


def declared():
    """Each name that specs/ or a file of lemmas declares, whether it is a definition (camel case) or a lemma."""
    found = collections.defaultdict(list)
    for path in files((".antt",)):
        rel = os.path.relpath(path, ROOT)
        parts = rel.split(os.sep)
        function = parts[2] == "proofs" and len(parts) > 4
        for i, line in enumerate(read(path).split("\n")):
            m = DECLARED.match(uncommented(line))
            if not m or not re.match(r"[a-z]", m[3]):
                continue
            rest = line[m.end():]
            # what a proof file gives for a goal has Rattle's name
            if function and (re.match(r"\s*(tie|goal|inv|given)\.", rest) or re.match(r"(invariant|decreases)-loop|returns-\d", m[3])):
                continue
            found[m[3]].append((rel, i + 1))
    return found


def table():
    found = declared()
    wanted = {n: spelled(n) for n in found}
    where = collections.defaultdict(set)
    for path in files((".antt", ".rt")):
        for w in set(re.findall(NAME, read(path))):
            if w in found:
                where[w].add(path)
    takes = collections.defaultdict(set)
    for n, s in wanted.items():
        takes[s].add(n)
    for s, names in takes.items():
        # the spelling itself first, then definitions, then lemmas; names that no file has together may be one
        kept = []
        for n in sorted(names, key=lambda n: (not re.search("[A-Z]", n) or "-" in n, n != s, n)):
            if n not in APART and any(where[n] & where[k] for k in kept):
                wanted[n] = OTHER.get(n) or s + "_lem"
                if n == s:
                    print(f"look: {n} stands as {wanted[n]}, beside {kept}", file=sys.stderr)
            else:
                kept.append(n)
    return {n: s for n, s in wanted.items() if n != s}


def turn(text, names):
    """A lemma that was spelled as a function of src/ is one stays where it may be the function, behind a dot."""
    def one(m):
        if spelled(m[0]) == m[0] and text[m.start() - 1 : m.start()] == ".":
            return m[0]
        return names.get(m[0], m[0])
    return re.sub(NAME, one, text)


def taken_elsewhere(text, ours):
    """The names that a file imports from another's library."""
    found = set()
    for m in re.finditer(r"\buse ([^\s;{]+?)\.\{([^{}]*)\}", text):
        path = m[1].split(".")
        if path[0] != "Rattle" or len(path) < 2 or path[1] not in ours:
            found |= {w.split(" as ")[0].strip() for w in m[2].split(",")}
    return found


def turn_code(text, names, comment):
    """In a comment a dash joins words of prose, unless they stand in backticks."""
    plain = {n: s for n, s in names.items() if "-" not in n}
    out = []
    for line in text.split("\n"):
        # strings stay
        pieces = re.split(r'("(?:[^"\\]|\\.)*")', line)
        done, said = [], False
        for i, p in enumerate(pieces):
            if i % 2:
                done.append(p)
                continue
            m = None if said else re.search(comment, p)
            code, rest = (p[: m.start()], p[m.start():]) if m else ("", p) if said else (p, "")
            said = said or bool(m)
            words = [turn(w, names if k % 2 else plain) for k, w in enumerate(rest.split("`"))]
            done.append(turn(code, names) + "`".join(words))
        out.append("".join(done))
    return "\n".join(out)


def main():
    names = table()
    if sys.argv[1:] == ["--list"]:
        for n in sorted(names):
            print(n, names[n])
        return
    ours = set(os.listdir(os.path.join(ROOT, "crates")))
    for path in files((".antt", ".rt")):
        old = read(path)
        other = taken_elsewhere(old, ours)
        here = {n: s for n, s in names.items() if n not in other and (path.endswith(".antt") or spelled(n) != n)}
        words = set(re.findall(NAME, re.sub(r'"(?:[^"\\]|\\.)*"', "", old)))
        for n in sorted(words & set(here)):
            if here[n] in words or here[n] in other:
                print(f"look: {os.path.relpath(path, ROOT)}: {n} becomes {here[n]}, which stands there")
        new = turn_code(old, here, r"(^|(?<=\s))--(\s|$)" if path.endswith(".antt") else r"//")
        if new != old:
            with open(path, "w", encoding="utf-8") as f:
                f.write(new)
    for path in files((".edit",)):
        old = read(path)
        new = "\n".join(turn_code(l, names, r"//") if re.match(r"(old|new):", l) else l for l in old.split("\n"))
        if new != old:
            with open(path, "w", encoding="utf-8") as f:
                f.write(new)


if __name__ == "__main__":
    main()
