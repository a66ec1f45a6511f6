#!/usr/bin/env python3
"""Respells this repository's own definitions and lemmas: words in snake case, types and facts in upper camel case.

usage: python3 tools/respell_names.py        at the top of the repository, once, right behind the kit's port.py

Own names are those that stand in specs/ and in the lemma files of proofs/ and come from no library. A dash stays in the name of
a lemma that begins with the definition it is about (`run-push`). Functions of src/, strings, inputs and outputs keep their names.
It prints each name that it respells, and warns where two names fall together in a file.
"""

import os
import re

# a token of antt: whatever stands between spaces, brackets and punctuation
TOKEN = re.compile(r"[^\s(){}\[\];,.:\"«»`]+")
USE = re.compile(r"^\s*(?:pub )?(?:ghost )?use ([^\s{]+?)(?:\.\{([^}]*)\})?(?: as \S+)?;?$")
OURS = re.compile(r"^Rattle\.(\w+)\.(?:specs|proofs)\b")
TYPE = re.compile(r"^\s*(?:pub |abbrev )*(?:data|record) ([^\s:({]+)|^\s*(?:abbrev |unfoldable |pub )*([^\s:({]+) :.*Type 0$", re.M)
# the definitions that lemmas of this repository are about, where the lemma's name begins with one
HEADS = ("run", "events", "occurrences", "effort", "state", "search")


def texts(*endings):
    for folder, dirs, files in os.walk("crates"):
        dirs[:] = sorted(d for d in dirs if d != "out")
        for f in sorted(files):
            if f.endswith(endings):
                yield os.path.join(folder, f)


def read(path):
    with open(path, encoding="utf-8") as f:
        return f.read()


def is_base(path):
    """A file of definitions or lemmas, not of the answers of one function."""
    parts = path.split(os.sep)
    return parts[2] == "specs" or (parts[2] == "proofs" and len(parts) == 4)


def code(line):
    """The line without its comment."""
    return line.split("--")[0] if re.match(r"\s*--|.*\s--\s", line) else line


def from_libraries(crates):
    found = set()
    for path in texts(".antt", ".rt"):
        for line in read(path).splitlines():
            m = USE.match(line)
            if m and m[2]:
                own = OURS.match(m[1])
                if not own or own[1] not in crates:
                    found.update(w.split(" as ")[0].strip() for w in m[2].split(","))
    return found


def has_dash(word):
    return "-" in word.strip("-") and re.match(r"[A-Za-z]", word)


def respelled(word, types, defined):
    if word[0].isupper() and word in types:
        return "".join(p[0].upper() + p[1:] for p in word.split("-"))
    if word[0].isupper():
        return word
    head, rest = word.split("-", 1)
    if head in HEADS and word not in defined or not rest[0].isalpha():
        return head + "-" + rest.replace("-", "_")
    return word.replace("-", "_")


def names(crates):
    library = from_libraries(crates)
    words, types, defined = set(), set(), set()
    for path in texts(".antt"):
        text = "\n".join(code(l) for l in read(path).splitlines())
        types.update(a or b for a, b in TYPE.findall(text))
        if is_base(path):
            lines = [l for l in text.splitlines() if not USE.match(l)]
            found = {w for w in TOKEN.findall("\n".join(lines)) if has_dash(w)}
            words.update(found)
            if os.sep + "specs" + os.sep in path:
                defined.update(found)
        else:
            # names that an answer binds for itself
            words.update(w for w in re.findall(r"(?:\blet |^)([a-z][^\s:]*) (?::(?! goal\.)|= )", text, re.M) if has_dash(w) and f"{w} : goal." not in text)
    table = {w: respelled(w, types, defined) for w in words - library}
    return {w: new for w, new in table.items() if new != w}


def turned(text, table):
    return TOKEN.sub(lambda m: table.get(m[0], m[0]), text)


def antt(text, table):
    out = []
    for line in text.split("\n"):
        kept = code(line)
        out.append(turned(kept, table) + re.sub(r"`([^`]*)`", lambda m: "`" + turned(m[1], table) + "`", line[len(kept):]))
    return "\n".join(out)


def clauses(text, table):
    """Of a .rt file or an edit, only what is no string and no comment."""
    return re.sub(r"(\"(?:\\.|[^\"\\])*\"|//[^\n]*)|" + TOKEN.pattern, lambda m: m[0] if m[1] else table.get(m[0], m[0]), text)


def pages():
    yield "README.md"
    for f in sorted(os.listdir("docs")):
        if f.endswith(".md") and not f.startswith("PORT"):
            yield os.path.join("docs", f)


def main():
    crates = set(os.listdir("crates"))
    table = names(crates)
    for path in list(texts(".antt", ".rt", ".edit")):
        before = read(path)
        there = set(TOKEN.findall(before))
        for old in sorted(there & set(table)):
            if table[old] in there:
                print(f"look: {path}: {old} and {table[old]} fall together")
        after = antt(before, table) if path.endswith(".antt") else clauses(before, table)
        if after != before:
            with open(path, "w", encoding="utf-8") as f:
                f.write(after)
    for path in pages():
        before = read(path)
        after = re.sub(r"`([^`\n]*)`", lambda m: "`" + turned(m[1], table) + "`", before)
        if after != before:
            with open(path, "w", encoding="utf-8") as f:
                f.write(after)
    for old in sorted(table):
        print(f"{old} -> {table[old]}")


if __name__ == "__main__":
    main()
