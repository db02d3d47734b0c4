#!/usr/bin/env python3
"""Lists places in crates/*/src that may be written in a plainer form, by eight points (docs/DESIGN-PASS.md).

usage: python3 tools/places.py [FOLDER]      FOLDER is the top of a checkout, this one where none is given

A line is a place to look at, and no verdict. Tests (src/tests.rt) are left out.
"""
import collections
import pathlib
import re
import sys

TOP = pathlib.Path(sys.argv[1] if len(sys.argv) > 1 else pathlib.Path(__file__).resolve().parent.parent)


def sources():
    for path in sorted(TOP.glob("crates/*/src/**/*.rt")):
        if path.name != "tests.rt":
            yield path, path.read_text()


def show(point, what, places):
    print(f"point {point}: {what}: {len(places)}")
    for place in places:
        print(f"    {place}")


def lines_with(pattern, without=None):
    found = []
    for path, text in sources():
        for number, line in enumerate(text.split("\n"), 1):
            code = line.split("//")[0]
            if re.search(pattern, code) and not (without and re.search(without, code)):
                found.append(f"{path.relative_to(TOP)}:{number}: {line.strip()}")
    return found


def small_enums():
    found = []
    for path, text in sources():
        for m in re.finditer(r"enum (\w+)(?:<[^>]*>)? \{\n(.*?)\n\}", text, re.S):
            body = re.sub(r"//.*", "", m.group(2))
            variants = re.findall(r"^    (\w+)( \{|\()?", body, re.M)
            if 2 <= len(variants) <= 4 and any(v[1] for v in variants):
                found.append(f"{path.relative_to(TOP)}: {m.group(1)} {{{', '.join(v[0] for v in variants)}}}")
    return found


def signatures():
    for path, text in sources():
        for m in re.finditer(r"^ *(?:pub(?:\(crate\))? )?fn (\w+)[^{;]*?\)(?: -> ([^\n{]+))?\n", text, re.M):
            yield path, m.group(1), m.group(0), (m.group(2) or "").strip()


def clauses_often():
    often = collections.Counter()
    for path, text in sources():
        crate = path.relative_to(TOP).parts[1]
        for m in re.finditer(r"^\s*(requires|ensures)(?: \w+)? (\{.*\})\s*;?$", text, re.M):
            fact = re.sub(r"\.(old|new|now|entry)\b", "", m.group(2))
            often[(crate, fact)] += 1
    return [f"{crate}: {n} times {fact}" for (crate, fact), n in often.most_common() if n >= 3]


def parameters_often():
    often = collections.Counter()
    for path, text in sources():
        crate = path.relative_to(TOP).parts[1]
        for m in re.finditer(r"fn \w+(?:<[^(]*>)?\(([^)]*)\)", text):
            names = tuple(sorted(re.findall(r"(\w+): ", m.group(1))))
            for i in range(len(names)):
                for j in range(i + 1, len(names)):
                    often[(crate, names[i], names[j])] += 1
    return [f"{crate}: {a}, {b} in {n} functions" for (crate, a, b), n in often.most_common() if n >= 4]


show(1, "enums of two to four variants, one of which carries a value", small_enums())
show(1, "functions that change a value and answer a bool", [f"{p.relative_to(TOP)}: {n}" for p, n, s, r in signatures() if r == "bool" and "&mut" in s])
show(1, "functions that answer a number for a kind or a refusal", [f"{p.relative_to(TOP)}: {n}" for p, n, s, r in signatures() if re.match(r"u8$|\[u16; 4\]$", r)])
show(1, "flags kept in structs", lines_with(r"^\s*(pub(\(crate\))? )?\w+: bool,"))
show(3, "loops over a range, while and loop", lines_with(r"^\s*(for \w+ in .*\.\.|while |loop\b)"))
show(3, "counters that a loop steps", lines_with(r"\+= 1\b|saturating_add\(1\)"))
show(4, "comparisons by hand", lines_with(r"fn (same|same_\w+|is_named|key)\b|\.get\(\) != |\.get\(\) == "))
show(4, "conversions by hand", lines_with(r"fn (\w*_number|from_number|of_number|number|printed|kind_of|verdict|domain_of|letter_of|at_number)\(|<= u8::MAX"))
show(4, "words and texts by hand", lines_with(r"fn (\w*name|\w*_words|\w*_text|name|told|shown)\("))
show(4, "first values by hand", lines_with(r"const EMPTY\b|fn new\(\) -> (Totals|Tally)"))
show(5, "facts that stand three times or more in a crate's clauses", clauses_often())
show(5, "parameters that stand together in four functions or more of a crate", parameters_often())
show(6, "arrays in structs", lines_with(r"^\s*(pub(\(crate\))? )?\w+: \[(?:[A-Z]\w*(?:<\w+>)?|[ui]\d+|bool); \w+\],"))
show(6, "lengths and counts in structs", lines_with(r"^\s*(pub(\(crate\))? )?(len|count|lens): (usize|u8|\[u8; \d+\]),"))
show(7, "switches on what to do", lines_with(r"match (self\.)?(kind|next|letter|call|domain|side)\b"))
texts = [p.read_text() for p in TOP.glob("crates/*/proofs/**/*.antt")]
count = sum(len(text.splitlines()) for text in texts)
answers = sum(len(re.findall(r"^pub [\w-]+ : goal", text, re.M)) for text in texts)
print(f"point 8: {len(texts)} proof files, {count} lines, {answers} answers")
