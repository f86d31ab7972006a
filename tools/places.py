#!/usr/bin/env python3
"""Counts, in crates/*/src, the places that docs/DESIGN-PASS.md speaks of.

Usage: python3 tools/places.py [COMMIT] [--list [POINT]]

Without COMMIT it reads the working tree. With --list it prints each place, else the counts by point and by crate.
What it prints are candidates: the page says which of them are places, and what became of each.
"""
import collections
import difflib
import itertools
import re
import subprocess
import sys
from pathlib import Path

ROOT = Path(__file__).resolve().parent.parent

FUNCTION = re.compile(r"^(?P<indent> *)(?:pub(?:\([a-z]+\))? )?(?:final )?fn (?P<name>\w+)", re.M)
CLAUSE = re.compile(r"^ +(?:requires|ensures)(?: \w+)? \{.*\}(?P<end>;?)$", re.M)

SINGLE_LINES = {
    "1 own enum": r"^(?:pub )?enum \w+",
    "1 flag beside values": r"^ +(?:pub )?(?!aggregation)\w+: bool,$",
    "1 number of a mode, kind or refusal": r"\b(?:mode|number|cause): u8\b|\bfn (?:number|cause)\(self\) -> u8",
    "1 value that stands for none": r"//.*(?:(?:length|count) where (?:there is none|each)|until it is known|else 0\b)",
    "1 Option or Result taken apart by hand": r"^ +None => (?:Err\(|None)|^ +Err\((\w+)\) => Err\(\1\)|let Some\(.*else \{\n +return (?:None|Err\(.*\));",
    "3 loop over a range": r"^ *for \w+ in [^{]*\.\.",
    "3 loop over items with their index": r"^ *for .*\.enumerate\(\) \{",
    "3 loop that is a search or a test": r"^ *return (?:true|false|Some\(i\)|i|line|&line\[0\.\.i\]);$",
    "4 printing, conversion or equality by hand":
        r"\bfn (?:text|\w+_text|layer_name|same|number|cause|refusal|from_number|placed|bit|chip_digit|hex_digit|digit_value|read_chip|sign)\(",
    "6 names and values side by side": r"^ +(?:names|counts): Vec<",
    "7 step chosen by name": r"\bif same\(\w+, b\"",
    "7 trait with one function and no law": r"^(?:pub )?trait \w+ \{\n +fn .*;\n\}",
}


def texts(commit, wanted):
    """Each file whose whole name fits, as (path, text), in a commit or in the working tree."""
    if commit:
        names = git("ls-tree", "-r", "--name-only", commit, "crates").split("\n")
    else:
        names = [str(p.relative_to(ROOT)) for p in ROOT.glob("crates/*/*/**/*") if p.is_file()]
    for name in sorted(n for n in names if re.fullmatch(wanted, n)):
        yield name, git("show", f"{commit}:{name}") if commit else (ROOT / name).read_text()


def git(*arguments):
    return subprocess.run(["git", *arguments], cwd=ROOT, check=True, capture_output=True, text=True).stdout


def functions(text):
    """Each function as (line, name, head, body, text with its clauses)."""
    bare = CLAUSE.sub(lambda m: m["end"], text)
    for match in FUNCTION.finditer(bare):
        line = bare.count("\n", 0, match.start())
        head = re.compile(r"\{\}?$|;$", re.M).search(bare, match.end())
        end = re.compile(rf"^{match['indent']}\}}$", re.M).search(bare, head.end()) if head.group() == "{" else head
        whole = text.split("\n")[line : bare.count("\n", 0, end.end()) + 1]
        yield line + 1, match["name"], " ".join(bare[match.start() : head.start()].split()), bare[head.end() : end.start()], "\n".join(whole)


def conjuncts(whole):
    """The facts that a function requires."""
    for clause in re.findall(r"^ +requires(?: \w+)? \{ (.*) \}$", whole, re.M):
        yield from (part.strip("( )") for part in clause.split(" × "))


def shape(body):
    """The tokens of a body, with one mark for each name, number and text."""
    marks = []
    for token in re.findall(r"\w+|b?\"[^\"]*\"|[^\s\w]", body):
        if token in ("if", "else", "for", "in", "match", "return", "let", "mut", "as"):
            marks.append(token)
        elif re.match(r"\w", token):
            marks.append("n" if token[0].isdigit() else "x")
        else:
            marks.append(token)
    return marks


def twins(found):
    """Pairs of functions of one crate whose bodies have nearly one shape."""
    for a, b in itertools.combinations(found, 2):
        if a[0] != b[0] or min(len(a[4]), len(b[4])) < 14:
            continue
        if abs(len(a[4]) - len(b[4])) > 8:
            continue
        if difflib.SequenceMatcher(None, a[4], b[4], autojunk=False).ratio() >= 0.92:
            yield f"{a[1]}:{a[2]} {a[3]} ~ {b[1]}:{b[2]} {b[3]}"


def same_files(found):
    """Pairs of files of one crate that have nearly one shape."""
    for a, b in itertools.combinations(found, 2):
        if a[0] == b[0] and min(len(a[2]), len(b[2])) >= 40:
            if difflib.SequenceMatcher(None, a[2], b[2], autojunk=False).ratio() >= 0.92:
                yield f"{a[1]} ~ {b[1]}"


def grouped(rows, least=3):
    """What stands in at least three functions of a crate."""
    table = collections.defaultdict(list)
    for crate, key, where in rows:
        table[crate, key].append(where)
    for (crate, key), where in sorted(table.items()):
        if len(where) >= least:
            yield crate, f"{key}   in {len(where)}: {', '.join(where)}"


def proofs(commit):
    """Lines of proofs/, and answers to goals, by crate."""
    lines, answers = collections.Counter(), collections.Counter()
    for name, text in texts(commit, r"crates/\w+/proofs/.*\.antt"):
        crate = name.split("/")[1]
        lines[crate] += text.count("\n")
        answers[crate] += len(re.findall(r"^.* : goal\.\S+$", text, re.M))
    return lines, answers


def places(commit):
    """Every candidate, as (point, crate, description)."""
    shaped, files, facts, together = [], [], [], []
    for name, text in texts(commit, r"crates/\w+/src/.*\.rt"):
        crate = name.split("/")[1]
        files.append((crate, name, shape(text)))
        for point, pattern in SINGLE_LINES.items():
            for match in re.finditer(pattern, text, re.M):
                line = text.count("\n", 0, match.start()) + 1
                yield point, crate, f"{name}:{line} {' '.join(match.group(0).split())}"
        for line, function, head, body, whole in functions(text):
            shaped.append((crate, name, line, function, shape(body)))
            if "&mut [" in head and re.search(r"-> (?:usize|Option<usize>)$", head):
                yield "6 answers how much of a buffer is in use", crate, f"{name}:{line} {function}"
            facts.extend((crate, fact, function) for fact in set(conjuncts(whole)))
            parameters = re.findall(r"(\w+: [^,()]+(?:<[^>]*>)?)", head.partition("(")[2].partition(")")[0])
            together.extend((crate, " + ".join(pair), function) for pair in itertools.combinations(sorted(set(parameters)), 2))
    for pair in twins(shaped):
        yield "2 functions of one shape", pair.split("/")[1], pair
    for pair in same_files(files):
        yield "2 files of one shape", pair.split("/")[1], pair
    for crate, fact in grouped(facts):
        yield "5 fact that three functions require", crate, f"crates/{crate}: {fact}"
    for crate, pair in grouped(together):
        yield "5 parameters that three functions share", crate, f"crates/{crate}: {pair}"


def main(arguments):
    listing = "--list" in arguments
    rest = [a for a in arguments if a != "--list"]
    wanted = rest.pop() if listing and rest and len(rest[-1]) == 1 else None
    found = list(places(rest[0] if rest else None))
    if listing:
        for point, _, description in found:
            if wanted is None or point.startswith(wanted):
                print(f"{point}: {description}")
        return
    points = sorted({point for point, _, _ in found} | set(SINGLE_LINES))
    for point in points:
        by_crate = collections.Counter(crate for p, crate, _ in found if p == point)
        spread = ", ".join(f"{crate} {n}" for crate, n in sorted(by_crate.items()))
        print(f"{sum(by_crate.values()):4} {point}: {spread}")
    for count, what in zip(proofs(rest[0] if rest else None), ("lines of proofs", "answers to goals")):
        spread = ", ".join(f"{crate} {n}" for crate, n in sorted(count.items()))
        print(f"{sum(count.values()):4} 8 {what}: {spread}")


if __name__ == "__main__":
    main(sys.argv[1:])
