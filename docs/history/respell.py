#!/usr/bin/env python3
"""Respells the names that this repository declares in its specs/ and proofs/: `a-b` becomes `a_b`, `A-b` becomes `AB`.

usage: python3 docs/history/respell.py        once, at the top of the repository

A name is respelled where it is one that an .antt file here declares: in .antt files, in the clauses and imports of .rt
files, in edits, and between backquotes in the pages of docs/ and the README. What the check names itself (goals, steps,
invariants), what a file imports from the library, and functions of src/ stay. It prints names that fall together.
"""

import os
import re
import sys

TOP = re.compile(r"^(?:(?:pub|abbrev|unfoldable|data|record|package) )*([A-Za-z][^\s:(){}\[\],;.]*)(?: [^:=]*)? :(?:\s|$)")
FIELD = re.compile(r"^\s+(?:(?:pub|abbrev|unfoldable|data|record) )*([A-Za-z][^\s:(){}\[\],;.=]*)(?: [^:=]*)? :(?:\s|$)")
TOKEN = re.compile(r"[A-Za-z_][A-Za-z0-9_'\u207f\u2115\u2124-]*")


def files(*ends):
    for folder, dirs, names in os.walk("crates"):
        dirs[:] = sorted(d for d in dirs if d != "out")
        for name in sorted(names):
            if name.endswith(ends):
                yield os.path.join(folder, name)


def respelled(name):
    if name[0].isupper():
        return "".join(part[:1].upper() + part[1:] for part in name.split("-"))
    return name.replace("-", "_")


def declared():
    """The dashed names declared here, and those of them that are fields of records."""
    top, field = set(), set()
    for path in files(".antt"):
        with open(path, encoding="utf-8") as f:
            for line in f:
                if ": goal." in line or line.startswith("use "):
                    continue
                m = TOP.match(line)
                if m:
                    top.add(m[1])
                    continue
                m = FIELD.match(line)
                if m:
                    field.add(m[1])
    dashed = lambda names: {n for n in names if "-" in n and n.strip("-")}
    return dashed(top | field), dashed(field), top | field


def of_library(text):
    """The names that a file imports from the library."""
    found = set()
    for m in re.finditer(r"^\s*(?:ghost )?use Rattle\.std\.[^{;\n]*\.\{([^}]*)\}", text, re.M):
        found |= {part.split(" as ")[-1].strip() for part in m[1].split(",")}
    return found


def goals(text):
    return set(re.findall(r"^(?:abbrev )?(?:pub )?(\S+) : goal\.", text, re.M))


def in_comment(line, mark):
    """Whether what follows `line` is the plain text of a comment, outside backquotes."""
    at = line.find(mark)
    return at >= 0 and line.count("`", at) % 2 == 0


def turn(text, names, fields, mark):
    kept = of_library(text) | goals(text)
    out, at = [], 0
    for m in TOKEN.finditer(text):
        word = m[0]
        if word not in names or word in kept:
            continue
        before = text[max(0, m.start() - 80) : m.start()]
        line = text[text.rfind("\n", 0, m.start()) + 1 : m.start()]
        if re.match(r"\s*(?:ghost )?use Rattle\.std\.", line) or in_comment(line, mark):
            continue
        owner = re.search(r"([\w'-]+)\.$", before)
        if before.endswith("."):
            if "use Rattle." not in line and word not in fields and not re.search(r"Rattle\.[\w.+-]*\.$", before):
                continue
            if owner and owner[1] in ("c", "w", "l", "goal"):
                continue
        out.append(text[at : m.start()])
        out.append(respelled(word))
        at = m.end()
    out.append(text[at:])
    return "".join(out)


def words_in(text):
    return set(TOKEN.findall(text))


def main():
    names, fields, every = declared()
    for path in files(".antt", ".rt", ".edit"):
        with open(path, encoding="utf-8") as f:
            text = f.read()
        if not path.endswith(".edit"):
            here = words_in(text)
            for n in sorted(names & here):
                if respelled(n) in here:
                    print(f"fall together in {path}: {n} and {respelled(n)}")
        new = turn(text, names, fields, "--" if path.endswith(".antt") else "//")
        if new != text:
            with open(path, "w", encoding="utf-8") as f:
                f.write(new)
    after = {respelled(n) for n in names} | every
    pages = ["README.md"] + [os.path.join("docs", p) for p in sorted(os.listdir("docs")) if p.endswith(".md")]

    def code(m):
        return "`" + TOKEN.sub(lambda t: respelled(t[0]) if "-" in t[0] and respelled(t[0]) in after else t[0], m[1]) + "`"

    for path in pages:
        with open(path, encoding="utf-8") as f:
            text = f.read()
        new = re.sub(r"(?<!`)`([^`\n]+)`(?!`)", code, text)
        if new != text:
            with open(path, "w", encoding="utf-8") as f:
                f.write(new)
    print(f"{len(names)} names respelled")
    return 0


if __name__ == "__main__":
    sys.exit(main())
