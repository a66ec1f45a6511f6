#!/usr/bin/env python3
"""Lists the places in src/ that could have a newer form, point by point.

    python3 tools/design_places.py [CHECKOUT]

Each line is a place. What becomes of each is said in docs/DESIGN-PASS.md.
"""
import collections
import pathlib
import re
import sys

TOP = pathlib.Path(sys.argv[1] if len(sys.argv) > 1 else ".")
FILES = {path: path.read_text() for path in sorted(TOP.glob("crates/*/src/*.rt"))}
WORDS = {
    "fn", "let", "mut", "if", "else", "match", "for", "in", "while", "return", "Some", "None", "Ok",
    "Err", "self", "Self", "pub", "crate", "true", "false", "Result", "Option", "usize", "u8", "u64",
    "bool", "u32", "u16",
}


def lines(pattern):
    """The lines of src/ that fit the pattern."""
    for path, text in FILES.items():
        for number, line in enumerate(text.splitlines(), 1):
            if re.search(pattern, line):
                yield f"{path.relative_to(TOP)}:{number}: {line.strip()}"


def functions():
    """Each function with its place, its head and its body, without clauses and comments."""
    for path, text in FILES.items():
        for found in re.finditer(r"^( *)((?:pub(?:\(\w+\))? )?fn (\w+).*?^\1\})", text, re.S | re.M):
            source = re.sub(r"//.*", "", found.group(2))
            clause = r"^\s*(requires|ensures)\b.*$"
            source = re.sub(clause, "", source, flags=re.M)
            head, _, body = source.partition("{")
            place = f"{path.relative_to(TOP)}:{text.count(chr(10), 0, found.start()) + 1} {found.group(3)}"
            yield place, head, body


def shape(body):
    """A body with its own names, texts and numbers taken out."""
    body = re.sub(r'b?"[^"]*"', "0", body)
    body = re.sub(r"\b\d+\w*\b", "0", body)
    return re.sub(r"\b[A-Za-z_]\w*\b", lambda w: w.group() if w.group() in WORDS else "x", " ".join(body.split()))


def twins():
    """Groups of functions whose bodies are alike but for names and constants."""
    groups = collections.defaultdict(list)
    for place, _, body in functions():
        if len(shape(body)) > 24 and "assert_eq" not in body:
            groups[shape(body)].append(place)
    for places in groups.values():
        if len(places) > 1:
            yield "; ".join(places)


def together():
    """Pairs of parameters that stand in the heads of three or more functions, but for those of a trait."""
    pairs = collections.Counter()
    for place, head, _ in functions():
        names = [f"{n}: {t.strip()}" for n, t in re.findall(r"(\w+): ([^,)]+)", head)]
        names = [n for n in names if not re.match(r"(f|heap|rt|p|q|e): ", n)]
        pairs.update((a, b) for k, a in enumerate(names) for b in names[k + 1 :])
    for pair, many in pairs.items():
        if many > 2:
            yield f"{many} heads: {', '.join(pair)}"


def clauses():
    """Clauses that stand in three or more contracts, but for those of one call after another."""
    many = collections.Counter()
    for text in FILES.values():
        many.update(re.findall(r"^\s*requires[a-z_ ]*(\{ .* \})$", text, re.M))
    for clause, count in many.items():
        if count > 2:
            yield f"{count} contracts: {clause}"


def beside():
    """Structs with two or more lists, and functions that take a list with a count of its own."""
    for path, text in FILES.items():
        for name, fields in re.findall(r"struct (\w+)[^{;(]*\{(.*?)^\}", text, re.S | re.M):
            lists = re.findall(r"(\w+): (?:Vec<|&'a (?:mut )?\[)", fields)
            if len(lists) > 1:
                yield f"{path.relative_to(TOP)} {name}: {', '.join(lists)}"
    for place, head, _ in functions():
        if re.search(r"\[\w+\].*\bcounts?: (usize|Counts)|Lists.*\bcounts: Counts", head, re.S):
            yield place


POINTS = [
    ("1 own enums", lambda: lines(r"^ *(pub )?enum ")),
    ("1 a flag beside a value", lambda: lines(r"\((bool, \w+|\w+, bool)\)")),
    ("1 a number where there is none to tell", lambda: lines(r"fn .*\(\) -> u8|-> \(u8, usize\)")),
    ("2 groups of twins", twins),
    ("3 loops on an index", lambda: lines(r"\bwhile\b|for \w+ in [0-9a-z*. ]*\.\.|\.enumerate\(\)")),
    ("3 loops that the library has", lambda: lines(r"^\s*for (?!.*enumerate)(?!\w+ in [0-9a-z*. ]*\.\.)")),
    ("4 errors turned by hand", lambda: lines(r"Err\(_\) => Err")),
    ("4 printing", lambda: lines(r"^impl.* fmt::Display for|^struct \w+\(")),
    ("4 orders and conversions", lambda: lines(r"fn \w*(is_earlier|kind_of|node_of|value_of|is_node)\b")),
    ("4 plain types without the usual derives", lambda: lines(r"^#\[derive\(Clone, Copy(, Drop)?\)\]")),
    ("5 clauses in three contracts", clauses),
    ("5 parameters that travel together", together),
    ("6 lists side by side, lists with a count", beside),
    ("7 steps tried in turn", lambda: lines(r"^ *if let Some\(found\)")),
]

for title, places in POINTS:
    found = list(places())
    print(f"{title}: {len(found)}")
    for place in found:
        print(f"    {place}")
proofs = [p for p in sorted(TOP.glob("crates/*/proofs/**/*.antt"))]
sizes = sum(len(p.read_text().splitlines()) for p in proofs)
answers = sum(len(re.findall(r"^pub \S+ : goal\.", p.read_text(), re.M)) for p in proofs)
print(f"8 proofs: {len(proofs)} files, {sizes} lines, {answers} answers")
