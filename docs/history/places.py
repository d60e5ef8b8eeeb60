#!/usr/bin/env python3
"""Lists the places of the code that an older form of the language may have shaped, a section for each kind.

    python3 docs/history/places.py [FOLDER [--without CRATE ..]]     the folder that holds crates/ (by default the repository)

1 own enums, flags, numbers for kinds; 2 functions of one shape; 3 loops that count; 4 comparisons, conversions and printing
by hand; 5 clauses and parameters that stand together in three functions or more; 6 buffers of a fixed size; 7 functions as
values; 8 answers and lemmas in proofs. A place listed is one to look at, and not yet one to change.
"""
import collections
import pathlib
import re
import sys

top = pathlib.Path(sys.argv[1]) if len(sys.argv) > 1 else pathlib.Path(__file__).resolve().parent.parent.parent
left_out = set(sys.argv[3:]) if sys.argv[2:3] == ["--without"] else set()
sources = sorted(p for p in top.glob("crates/*/src/**/*.rt") if p.relative_to(top).parts[1] not in left_out)
texts = {p: p.read_text() for p in sources}


def where(path, at):
    return f"{path.relative_to(top / 'crates')}:{texts[path].count(chr(10), 0, at) + 1}"


def lines_with(pattern):
    for path in sources:
        for m in re.finditer(pattern, texts[path], re.M):
            start = texts[path].rfind("\n", 0, m.start()) + 1
            line = texts[path][start:texts[path].find("\n", m.start())].strip()
            if not line.startswith("//"):
                yield where(path, m.start()), line


def functions():
    """Each function with its place, name, parameters, result, clauses and body."""
    for path in sources:
        text = texts[path]
        for m in re.finditer(r"^[ ]*(?:pub(?:\(crate\))? )?(?:const )?fn (\w+)(<[^(]*>)?\(", text, re.M):
            depth, i = 1, m.end()
            while depth:
                depth += {"(": 1, ")": -1}.get(text[i], 0)
                i += 1
            params = text[m.end():i - 1]
            indent = len(text[m.start():]) - len(text[m.start():].lstrip(" "))
            end = re.compile(rf"^ {{{indent}}}\}}|;$|\{{\}}$", re.M).search(text, i)
            whole = text[i:end.end() if end else len(text)]
            at = re.search(r"^ *\{$|\{$|;$|\{\}$", whole, re.M)
            head, body = (whole[:at.start()], whole[at.start():]) if at else (whole, "")
            result = re.match(r"\s*(?:->\s*([^\n{]*))?", head).group(1) or ""
            clauses = re.findall(r"^\s*((?:requires|ensures).*)$", head, re.M)
            yield where(path, m.start()), m.group(1), params, result.strip(), clauses, body


def shape(name, params, result, body):
    code = re.sub(r"//.*", "", f"{params} -> {result} {body}")
    tokens = re.findall(r"b?'(?:\\.|[^'])'|b?\"[^\"]*\"|\w+|[^\w\s]", code)
    out = []
    for t in tokens:
        if t == name:
            out.append("_")
        elif re.match(r"\d|b?['\"]", t):
            out.append("#")
        elif re.match(r"[A-Z]", t) or re.fullmatch(r"[ui](8|16|32|64|size)", t):
            out.append("T")
        else:
            out.append(t)
    return " ".join(out)


def section(title, rows):
    rows = list(rows)
    print(f"\n== {title}: {len(rows)}")
    for row in rows:
        print("  " + row)


all_functions = list(functions())
tests = [f for f in all_functions if re.match(r"\w*_tests/", f[0])]

section("1a own enums", (f"{w}  {l}" for w, l in lines_with(r"^(?:pub(?:\(crate\))? )?enum \w+")))
section("1b flags in structs", (f"{w}  {l}" for w, l in lines_with(r"^\s+(?:pub(?:\(crate\))? )?\w+: bool,")))
section("1c numbers for kinds or refusals", (f"{w}  {l}" for w, l in lines_with(r"\bfn \w*number\w*\(.*|\bnumber: u8|\bcode: u\d+")))

groups = collections.defaultdict(list)
for f in all_functions:
    if f[5].strip() not in ("", ";") and f not in tests:
        groups[shape(f[1], f[2], f[3], f[5])].append(f)
twins = [g for g in groups.values() if len(g) > 1]
section("2 functions of one shape", ("  ".join(f"{f[0]} {f[1]}" for f in g) for g in twins))

section("3 loops over a range, while, and counts by hand",
        (f"{w}  {l}" for w, l in lines_with(r"^\s*(?:'\w+: )?(?:for .*\.\..*|while .*|loop .*)\{$|^\s*[\w.]+ [+-]= .*;$")))

section("4a comparisons and conversions written out",
        (f"{w}  {l}" for w, l in lines_with(r"^impl.*\b(?:PartialEq|Eq|PartialOrd|Ord|Clone|Copy|Default|From<.*>|TryFrom<.*>) for\b.*|\* 256\b.*|/ 256\b.*|% 256\b.*|\bfn (?:compare|eq|cmp|into_\w+|to_\w+|is_digit|returned)\(.*")))
section("4b ranges compared by hand", (f"{w}  {l}" for w, l in lines_with(r".*\b(\w+) <= (\w+(?:\(\))?) && \2 <= .*|.*\b(\w+) < \d+ \|\| \3 > .*")))
section("4c texts made by functions", (f"{f[0]} {f[1]}" for f in all_functions if "String" in f[3] or "str" == f[3][-3:]))

clauses = collections.defaultdict(list)
for f in all_functions:
    for c in f[4]:
        fact = re.sub(r"^(requires|ensures)( \w+)? ", "", c)
        fact = re.sub(r"\b(self|reader|bench)\.(old|new|now)\b", r"\1", fact)
        clauses[fact].append(f)
section("5a facts in three contracts or more",
        (f"{len({f[0] for f in fs})} functions  {c}" for c, fs in clauses.items() if len({f[0] for f in fs}) > 2))
pairs = collections.defaultdict(set)
for f in all_functions:
    if f in tests:
        continue
    names = [re.sub(r"\s+", " ", p).strip() for p in re.split(r",(?![^<(]*[>)])", f[2])]
    names = [n for n in names if ":" in n and not n.startswith("self")]
    for i, a in enumerate(names):
        for b in names[i + 1:]:
            pairs[(f[0].split("/")[0], a, b)].add(f"{f[0]} {f[1]}")
section("5b parameters together in three functions or more",
        (f"{crate}: {a}, {b}  in {len(fs)}" for (crate, a, b), fs in sorted(pairs.items()) if len(fs) > 2))

section("6 buffers of a fixed size, lengths, indices",
        (f"{w}  {l}" for w, l in lines_with(r"\[\w+; [A-Z]\w*\]|^\s+(?:pub )?len: usize,|binary_search")
         if not re.match(r"\w*_tests/", w)))

section("7 functions as values, boxes", (f"{w}  {l}" for w, l in lines_with(r"\bfn\(|\bdyn\b|\bBox<")))

answers, lemmas, size = 0, 0, 0
for path in top.glob("crates/*/proofs/**/*.antt"):
    if path.relative_to(top).parts[1] in left_out:
        continue
    text = path.read_text()
    heads = len(re.findall(r"^(?:  )?(?:abbrev )?(?:unfoldable )?(?:pub )?[^\s:]+ : ", text, re.M))
    if path.name in ("Answers.antt", "Invariants.antt"):
        answers += heads
    else:
        lemmas += heads
    size += text.count("\n")
print(f"\n== 8 proofs: {answers} answers, {lemmas} lemmas, {size} lines")
