#!/usr/bin/env python3
"""Brings the names of definitions and lemmas to one spelling: words in snake case, and a dash only between two names.

Run at the top of the repository, once, behind the kit's own script. It renames what specs/ and proofs/ define in camel
case or with a dash, in every .antt, .rt, .edit and .md file, outside string literals. It leaves alone the names of
goals, invariants and measures, which the prover makes, and every name of src/. A lemma whose new name a
definition has gets `_lem`; where two definitions would fall together, or a parameter, field or local of src/ has the
new name and would hide it in a clause, it says so.
"""

import glob
import re
import sys

# what else is a name on one side of a dash: words of the library
WORDS = set("append take drop length replicate suc zero map filter reverse cond All".split())

# lemmas that have to give their name to a definition
TAKEN = {"key_above": "key_above_lem"}

MADE = re.compile(r"(invariant|decreases|loop|returns|overflow|bounds|slice_bounds|unreachable|prove|nonzero|unfolding)-"
                  r"|.*-requires$")
TOKEN = re.compile(r"[A-Za-z_][A-Za-z0-9_'-]*[A-Za-z0-9_']|[A-Za-z_]")
STRING = re.compile(r'"(?:[^"\\]|\\.)*"')
SIGNATURE = re.compile(r"^\s*(?:(?:abbrev|unfoldable|pub|ruleset|let)\s+)*((?:[A-Za-z_][A-Za-z0-9_'-]*\s+)*[A-Za-z_][A-Za-z0-9_'-]*)\s+:(?:\s|$)")


def files(*patterns):
    return sorted(f for p in patterns for f in glob.glob(p, recursive=True) if "/out/" not in f)


def defined():
    names, goals, nouns = set(), set(), set()
    for f in files("crates/*/specs/**/*.antt", "crates/*/proofs/**/*.antt"):
        text = open(f).read()
        goals |= set(re.findall(r"\b(?:goal|need)\.([A-Za-z0-9_'-]+)", text))
        for line in text.split("\n"):
            m = SIGNATURE.match(line)
            if m:
                names |= set(m.group(1).split())
                if "/specs/" in f and not line.startswith(" "):
                    nouns |= {snake(n) for n in m.group(1).split() if "-" not in n}
    return {n for n in names - goals if not MADE.match(n)}, nouns | WORDS


def snake(word):
    return re.sub(r"(?<=[a-z0-9])([A-Z])", lambda m: "_" + m.group(1).lower(), word)


def spelled(name, nouns):
    parts = [p if p[:1].isupper() else snake(p) for p in name.split("-")]
    out, last = parts[0], parts[0]
    for p in parts[1:]:
        out += ("-" if last in nouns and p in nouns else "_") + p
        last = p
    return out


# parameters, fields and locals of src/, which would hide a definition of their name in a clause
def in_source():
    names = set()
    for f in files("crates/*/src/*.rt"):
        code = re.sub(r"//.*", "", open(f).read())
        code = re.sub(r"(?:requires|ensures|ghost)[^{;\n]*\{[^\n]*", "", STRING.sub("", code))
        code = re.sub(r"ghost use[^;]*;", "", code)
        names |= set(re.findall(r"\b([a-z_][a-z0-9_]*)\s*:[^:]", code)) | set(re.findall(r"let (?:mut )?([a-z_][a-z0-9_]*)", code))
    return names


def renamed(names, nouns):
    change = {n: m for n, m in TAKEN.items() if n in names}
    for n in sorted(names):
        if re.search(r"[a-z0-9'][A-Z]", n) and n[:1].islower() or "-" in n:
            change.setdefault(n, spelled(n, nouns))
    source = in_source()
    kept = names - set(change)
    for n in sorted(change):
        new = change[n]
        others = [m for m in change if m != n and change[m] == new]
        if (new in kept or others) and "-" in n:
            change[n] = new + "_lem"
            print(f"taken by a definition: {n} is {change[n]}")
        elif new in kept or others:
            print(f"falls together: {n} and {others or new}")
        if new in source:
            print(f"also in src/: {n} would be {new}")
    return {n: m for n, m in change.items() if n != m}


def turned(text, change):
    def words(part):
        return TOKEN.sub(lambda m: change.get(m.group(0), m.group(0)), part)

    out, at = [], 0
    for m in STRING.finditer(text):
        out += [words(text[at:m.start()]), m.group(0)]
        at = m.end()
    return "".join(out) + words(text[at:])


def main():
    change = renamed(*defined())
    if "--list" in sys.argv:
        for n in sorted(change):
            print(n, change[n])
        return
    for f in files("crates/**/*.antt", "crates/**/*.rt", "crates/**/*.edit", "docs/*.md", "README.md"):
        old = open(f).read()
        lines = [turned(line, change) for line in old.split("\n")]
        new = "\n".join(lines)
        if new != old:
            open(f, "w").write(new)


main()
