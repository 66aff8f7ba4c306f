#!/usr/bin/env python3
"""Counts the places in crates/*/src that are written in older forms of the language.

    python3 tools/forms.py [ROOT] [--places]

ROOT is a checkout (default: here). A row for each form; --places prints the lines too.
Each form is one regular expression over lines, or over a function's head and body.
"""
import collections
import pathlib
import re
import sys

places = "--places" in sys.argv
words = [a for a in sys.argv[1:] if not a.startswith("--")]
root = pathlib.Path(words[0] if words else ".")
files = {p: p.read_text().splitlines() for p in sorted(root.glob("crates/*/src/*.rt"))}

LINES = {
    # 1
    "1a an error passed on by hand": r"Err\(_\) => (return )?Err\(",
    "1b a match whose other arm is empty": r"(None|_) => \{\}|Ok\(\(\)\) => \{\}",
    "1c a refusal wrapped by hand": r"Refusal::Schema\((?!.*=>)",
    "1d a number for a kind": r"fn number\(|as u8",
    # 3
    "3a a loop with a counter of its own": r"^\s*\w+ \+= 1;",
    "3b a loop that stores by index": r"\.set\(\w+, ",
    "3c a loop that returns at the first hit": None,
    "3d a loop over a range": r"for \w+ in \w+\.\.",
    # 4
    "4a equality by hand": r"^impl.*\b(PartialEq|Eq)\b for ",
    "4b order by hand": r"^impl.*\b(PartialOrd|Ord)\b for ",
    "4c copying by hand": r"^impl.*\b(Clone|Copy)\b for ",
    "4d `Debug` by hand": r"^impl.*\bDebug for ",
    "4e `Display` by hand": r"^impl.*\bDisplay for ",
    # 6
    "6a an array with a length beside it": r"^\s*(pub\(crate\) |pub )?len: usize,",
    "6b a table": r"const \w+: \[",
    # 7
    "7a a trait of one test": r"^(pub )?trait (Predicate|SameAs)",
    "7b a struct that stands for a closure": r"^impl.*\b(Predicate|SameAs<\w+>) for ",
}


def functions(text):
    """Each function as (line, name, head, body)."""
    found, i = [], 0
    while i < len(text):
        m = re.match(r"\s*(?:pub(?:\(crate\))? )?fn (\w+)", text[i])
        if not m:
            i += 1
            continue
        indent = len(text[i]) - len(text[i].lstrip())
        j = i
        while j < len(text) and text[j].rstrip() not in (" " * indent + "{", " " * indent + "}") and not text[j].rstrip().endswith(";"):
            j += 1
        head = text[i:j]
        k = j
        while k < len(text) and text[k].rstrip() != " " * indent + "}":
            k += 1
        found.append((i + 1, m.group(1), head, text[j + 1:k]))
        i = max(k, i + 1)
    return found


rows = collections.OrderedDict((name, []) for name in LINES)
for path, text in files.items():
    for n, line in enumerate(text, 1):
        for name, pattern in LINES.items():
            if pattern and re.search(pattern, line):
                rows[name].append((path, n, line.strip()))

heads = []
for path, text in files.items():
    test = False
    for n, name, head, body in functions(text):
        heads.append((path, n, name, head, body))
        for i, line in enumerate(body):
            if re.match(r"\s*for ", line):
                inner = []
                depth = len(line) - len(line.lstrip())
                for later in body[i + 1:]:
                    if later.strip() and len(later) - len(later.lstrip()) <= depth:
                        break
                    inner.append(later)
                if any(re.match(r"\s*return ", later) and "Err(" not in later for later in inner):
                    rows["3c a loop that returns at the first hit"].append((path, n + len(head) + 1 + i, line.strip()))

# 2: functions that are alike but for types, numbers and constants
def shape(lines):
    s = " ".join(line.strip() for line in lines if not line.strip().startswith("//"))
    s = re.sub(r"\bpub(\(crate\))? ", "", s)
    s = re.sub(r"\b[A-Z]\w*\b", "T", s)
    s = re.sub(r"\b\d+\b", "N", s)
    return s


groups = collections.defaultdict(list)
for path, n, name, head, body in heads:
    if "tests" in path.parts or path.parts[-3] in ("edges", "schema_edges"):
        continue
    text = shape([line for line in head if "ensures" not in line and "requires" not in line] + body)
    text = re.sub(r"fn \w+", "fn f", text)
    # names of what is wrapped do not count
    text = re.sub(r"\bself\.\w+", "self.x", text)
    text = re.sub(r"\b(columns|constraints|dependencies|deps|inner|bytes|text|fields|key|keys|dependence)\b", "v", text)
    groups[text].append((path, n, name))
twins = [g for g in groups.values() if len(g) > 1]
rows["2a functions alike but for a type, a size or a constant"] = [(p, n, name + "  (group %d)" % i) for i, g in enumerate(twins) for p, n, name in g]
clauses = collections.defaultdict(list)
for path, n, name, head, body in heads:
    for line in head:
        m = re.search(r"ensures\b[^{]*\{ (.*) \}", line)
        if m and len(m.group(1)) > 80:
            clauses[m.group(1)].append((path, n, name))
rows["2c functions of one file with one long clause"] = [x for g in clauses.values() if len(g) > 1 and len({p for p, _, _ in g}) == 1 for x in g]
types = collections.defaultdict(list)
for path, text in files.items():
    for n, line in enumerate(text, 1):
        m = re.match(r"(?:pub )?struct (\w+)\b.*\{$", line)
        if m:
            body = []
            for later in text[n:]:
                if later.startswith("}"):
                    break
                body.append(later)
            types[shape(body)].append((path, n, m.group(1)))
rows["2b types alike but for a type, a size or a constant"] = [x for g in types.values() if len(g) > 1 for x in g]

# 5: parameters that travel together, facts repeated
together = collections.defaultdict(set)
facts = collections.defaultdict(set)
for path, n, name, head, body in heads:
    text = " ".join(head)
    m = re.search(r"fn \w+(?:<[^(]*>)?\((.*?)\)\s*(?:->|requires|ensures|where|$)", text)
    params = [p.strip() for p in m.group(1).split(",") if ":" in p] if m else []
    params = sorted(set(params))
    for i, p in enumerate(params):
        for q in params[i + 1:]:
            together[(p, q)].add((path, n, name))
    for line in head:
        m = re.search(r"(requires|ensures)\b[^{]*\{ (.*) \}", line)
        if m and m.group(1) == "requires":
            facts[m.group(2)].add((path, n, name))
rows["5a functions that take a pair of parameters which three take"] = sorted(set().union(*[v for v in together.values() if len(v) > 2] or [set()]), key=str)
rows["5b functions with a `requires` that three have"] = sorted(set().union(*[v for v in facts.values() if len(v) > 2] or [set()]), key=str)

for name in sorted(rows):
    print("%4d  %s" % (len(rows[name]), name))
    if places:
        for path, n, text in rows[name]:
            print("        %s:%d  %s" % (path.relative_to(root), n, text))
