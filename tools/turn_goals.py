#!/usr/bin/env python3
"""Turns the names of goals, steps and facts in proofs/F/Answers.antt and Invariants.antt to those that the check makes today.

usage: rt check --generated FOLDER --old-names     in the crate's folder
       python3 tools/turn_goals.py CRATE FOLDER/names.json

A name that differs from one of today's only in dashes and underscores becomes that one; every other name stays.
"""
import json
import os
import re
import sys

TOKEN = re.compile(r"(?<![\w'₀-₉-])[A-Za-z][\w'₀-₉]*(?:-[\w'₀-₉]+)+(?![\w'₀-₉-])")


def strings(x, out):
    if isinstance(x, str):
        out.add(x)
    elif isinstance(x, list):
        for y in x:
            strings(y, out)
    elif isinstance(x, dict):
        for k, y in x.items():
            out.add(k)
            strings(y, out)


def main():
    crate, path = sys.argv[1:]
    data = json.load(open(path, encoding="utf-8"))
    root = os.path.join("crates", crate, "proofs")
    head = "Rattle-%s-proofs." % crate
    for key, what in data.items():
        if not key.startswith(head) or not key.endswith(".Lts"):
            continue
        folder = os.path.join(root, *key[len(head) : -len(".Lts")].split("."))
        names = set()
        strings(what, names)
        for n in list(names):
            names.add(n[:1].lower() + n[1:])
            for part in n.split("::"):
                names.add(part)
        for n in list(names):
            for end in ("-is", "-index", "-item", "-end", "-requires", "-test", "-init", "-preserved", "-smaller"):
                names.add(n + end)
        by = {}
        for n in names:
            by.setdefault(n.replace("_", "-"), set()).add(n)
        for x in ("Answers.antt", "Invariants.antt"):
            p = os.path.join(folder, x)
            if not os.path.exists(p):
                continue
            text = open(p, encoding="utf-8").read()

            def word(m):
                n = m.group()
                if n in names:
                    return n
                found = by.get(n.replace("_", "-"), set())
                return found.copy().pop() if len(found) == 1 else n

            lines = []
            for line in text.split("\n"):
                at = line.find("--")
                own = re.match(r"use Rattle\.(?!%s\.proofs\..*\.(Goals|Given))" % crate, line)
                lines.append(line if own else TOKEN.sub(word, line if at < 0 else line[:at]) + ("" if at < 0 else line[at:]))
            new = "\n".join(lines)
            if new != text:
                print(os.path.relpath(p, root))
                open(p, "w", encoding="utf-8").write(new)


if __name__ == "__main__":
    main()
