#!/usr/bin/env python3
"""Counts the places of older forms in src/ that docs/DESIGN-PASS.md speaks of, point by point.

    python3 tools/places.py [-v] [COMMIT]

counts in the files as they are, or as they were in COMMIT; -v prints each place. Points 1, 3, 4, 6 and 7 are patterns of
lines; point 2 compares the functions, each name, number and text in them taken as one; point 5 compares the facts of
`requires` and reads parameter lists; point 8 counts proof files. Comments and `ghost use` lines are left out.
"""
import collections
import re
import subprocess
import sys

PATTERNS = [
    ("1", "a number for a kind", r"\bkind: (u8|[0-9])|\bkind == [0-9]|\bkind: u8|=> \([0-9], "),
    ("1", "a number for a refusal or a layer", r"\b(number|layer): u8|^ {16}(number|layer): [0-9],"),
    ("2", "a reader or writer of one width", r"\bfn (get|put)\w*\("),
    ("2", "a loop of one form over the records", r"^    for record in records \{$"),
    ("3", "a while", r"^\s*(while|loop)\b"),
    ("3", "a for over numbers", r"^\s*for \w+ in .*\.\."),
    ("3", "a for that folds, tests or collects", r"^\s*for \w+ in (records|bytes|lines|&?\w+) \{"),
    ("4", "a comparison by hand", r"^impl.* (PartialEq|Eq|PartialOrd|Ord) for|fn \w*upto\(|fn lesser\(|fn same_bytes\("),
    ("4", "a cast of a number", r" as (u8|u16|u32|u64|usize)\b"),
    ("4", "a name or a text made by a function", r"^(pub(\(crate\))? )?fn \w+_name\(|-> Result<String, AllocError>"),
    ("6", "a buffer with a length beside it", r"^\s*(pub\(crate\) )?(bytes|value): \[u8; 23\]"),
    ("6", "a search by hand", r"let mut (low|high)\b"),
    ("6", "two numbers packed into one", r"\bSECTION_KEYS\b"),
    ("7", "a table of functions or a switch on a step", r"\bfn\(|\bdyn |\bstep\b"),
]
# Forms of several lines.
BLOCKS = [
    ("1", "a let-else for `?`, `map` or `unwrap`", r"let (?:Some|Ok)\(\w+\) =[^;{]*?else \{\s*(?:return None;|return [ab];|return false;|return cell;|return Err\([^;]*\);|unreachable\(\)|return MALFORMED;)\s*\}"),
    ("1", "an early return of None, Some or Err", r"if (?!let)[^{;]*\{\s*return (?:None|Some\([^;]*\)|Err\([^;]*\));\s*\}"),
    ("1", "a nest of tests around a Some", r"if let [^{;]*\{\s*if [^{;]*\{\s*return Some\([^;]*\);\s*\}\s*\}\s*None"),
    ("1", "a match or an if-let that is `map`, `ok` or `map_err`", r"Ok\((\w+)\) => Ok\(\1\)|Some\((\w+)\) => Some\(|if let Ok\(\w+\) = \w+ \{"),
]
PAIRS = [("section", "plot"), ("plot", "field"), ("stamp", "day")]
KEYWORDS = set("if else match for in while let mut return fn pub crate self Self true false as ref impl loop".split())


def files(commit):
    if commit:
        names = subprocess.run(["git", "ls-tree", "-r", "--name-only", commit], capture_output=True, text=True, check=True).stdout.split()
        read = lambda n: subprocess.run(["git", "show", f"{commit}:{n}"], capture_output=True, text=True, check=True).stdout
    else:
        names = subprocess.run(["git", "ls-files"], capture_output=True, text=True, check=True).stdout.split()
        read = lambda n: open(n, encoding="utf-8").read()
    for name in names:
        if re.match(r"crates/\w+/(src/.*\.rt|proofs/.*\.antt)$", name):
            try:
                yield name, read(name)
            except FileNotFoundError:
                pass


def code_lines(text):
    for number, line in enumerate(text.split("\n"), 1):
        if not re.match(r"\s*(//|ghost use|use )", line):
            yield number, line


def functions(text):
    """Each function: its line, name, head and body."""
    for m in re.finditer(r"^( *)(?:pub(?:\(crate\))? )?fn (\w+)", text, re.M):
        end = text.find("\n" + m.group(1) + "}", m.end())
        whole = text[m.start():end if end > 0 else len(text)]
        cut = re.search(r"^" + m.group(1) + r"\{|\{$", whole, re.M)
        head, body = (whole[:cut.start()], whole[cut.end():]) if cut else (whole, "")
        yield text[:m.start()].count("\n") + 1, m.group(2), head, body


def skeleton(body):
    tokens = re.findall(r'b?"[^"]*"|\w+|[^\s\w]', re.sub(r"//.*", "", body))
    shape = []
    for t in tokens:
        shape.append(t if t in KEYWORDS or not re.match(r'[\w"]', t) else "s" if '"' in t else "n" if t[0].isdigit() else "i")
    return " ".join(shape)


def main():
    args = [a for a in sys.argv[1:] if a != "-v"]
    verbose = "-v" in sys.argv
    sources, proofs = {}, {}
    for name, text in files(args[0] if args else None):
        (sources if name.endswith(".rt") else proofs)[name] = text
    found = collections.OrderedDict()
    for point, what, pattern in PATTERNS:
        found[point, what] = [f"{n}:{k}: {l.strip()}" for n, t in sources.items() if not (point == "2" and "/cases/" in n) for k, l in code_lines(t) if re.search(pattern, l)]
    for point, what, pattern in BLOCKS:
        found[point, what] = [f"{n}:{t[:m.start()].count(chr(10)) + 1}: {m.group(0).split(chr(10))[0].strip()}" for n, t in sources.items() for m in re.finditer(pattern, t)]
    shapes, facts, pairs = collections.defaultdict(list), collections.defaultdict(list), []
    for n, t in sources.items():
        if "/cases/" in n:
            continue
        for k, name, head, body in functions(t):
            shape = skeleton(body)
            if len(shape.split()) >= 14:
                shapes[shape].append(f"{n}:{k}: {name}")
            for clause in re.findall(r"requires(?: \w+)? \{(.*)\}", head):
                for fact in re.split(r" × ", clause):
                    fact = re.sub(r"[()]", "", fact).strip()
                    fact = re.sub(r"\b(a|b|bytes|other|self|src)\b\.", "x.", fact)
                    facts[re.sub(r"\b[0-9]+$", "n", fact)].append(f"{n}:{k}: {name}: {fact}")
            params = re.search(r"\((.*?)\)", head, re.S).group(1)
            if any(re.search(rf"\b{a}: u\d+.*\b{b}: u\d+", params, re.S) for a, b in PAIRS):
                pairs.append(f"{n}:{k}: {name}")
    found["2", "functions of one shape"] = [p for group in shapes.values() if len(group) > 1 for p in group]
    found["5", "a fact that three or more contracts ask for"] = [p for group in facts.values() if len(group) > 2 for p in group]
    found["5", "parameters that travel together"] = pairs
    for file in ("Answers", "Invariants"):
        found["8", f"{file}.antt"] = [n for n in proofs if n.endswith(f"/{file}.antt")]
    for (point, what), places in sorted(found.items(), key=lambda x: x[0][0]):
        print(f"{point}. {what}: {len(places)}")
        if verbose:
            print("".join(f"     {p}\n" for p in places), end="")
    print(f"8. lines of proofs: {sum(t.count(chr(10)) for t in proofs.values())}")


main()
