#!/usr/bin/env python3
"""Respells this repository's own words: definitions, lemmas and ghost names in snake case, types in camel case.

usage: python3 tools/respell.py [--dry]     at the top of the repository

It was run once, after the kit's port.py. It renames what specs/ and proofs/ declare with a dash inside (and the
aliases of ghost use lines), wherever the name is cited: in antt files, in ghost use lines and clauses, and in
must-fail edits. Names of the kit's library and names that the check makes of the code keep their spelling, and so
do functions, strings and comments, but for names that a comment puts between backquotes.
It ends with the names that would fall together with one that a file has already.
"""
import os
import re
import sys

PART = r"[\w'₀-₉]+"
NAME = r"[A-Za-z]" + PART[:-1] + r"*(?:-" + PART + r")+"
TOKEN = re.compile(r"(?<![\w'₀-₉-])" + NAME + r"(?![\w'₀-₉-])")
ANY = r"[\w'₀-₉-]+"
# names that the check makes of the code, or that a pattern above takes for one of ours
MADE = re.compile(
    r"^(returns|loop|if|then|else|in|not|index|invariant|decreases|overflow_\w+|bounds|from|key|bytes|joins)-"
    r"|-(requires|requires-\d|is|item|index|\d+)$"
)
KEEP = set()
# names that would fall together with one of the kit's
OTHER = {"bit-and": "bit_of_and"}
# where a function of the file has the name: what the file calls the word of specs/
ALIAS = {
    ("crates/region_text/src/lines.rt", "letter-of"): "letter_meant",
    ("crates/region_text/src/schedule.rt", "read-schedule"): "schedule_of_text",
    ("crates/region_text/src/source.rt", "read-source"): "source_of_text",
}
# aliases and names that are declared in no way that is looked for below
ALSO = set(
    "or-else in-place in-body in-rows at-schedule at-source is-schedule is-source is-lawful mismatch-of put-schedule run-from "
    "with-mark with-schedule term-row text-lines exits-of joins-of src-joins Source-fits Schedule-fits schedule-fits "
    "not-sub not-live not-at not-negative hand-out-answer op-numbered passed-means make-all match-row min-made "
    "no-join-yet from-end live-in if-live index-of".split()
)


def files(root):
    for folder, dirs, names in os.walk(os.path.join(root, "crates")):
        dirs[:] = sorted(d for d in dirs if d not in ("out", "data"))
        for x in sorted(names):
            if x.endswith((".antt", ".rt", ".edit")):
                yield os.path.join(folder, x)


def bare(text):
    return re.sub(r"--.*", "", text)


def declared(root):
    ours, fields, goals, stds = set(), set(), set(), set()
    for p in files(root):
        text = open(p, encoding="utf-8").read()
        for m in re.finditer(r"(?:ghost )?use (Rattle|mathlib|lib|Prim|native|borrow|denote|prelude)\b([^;{\n]*)\.\{([^}]*)\}", text):
            own = m.group(1) == "Rattle" and not m.group(2).startswith(".std.")
            for item in m.group(3).split(","):
                words = item.split(" as ")
                if not own:
                    stds.add(words[0].strip())
                if len(words) == 2:
                    ours.add(words[1].strip())
        if not p.endswith(".antt"):
            continue
        record = False
        for line in bare(text).split("\n"):
            head = re.match(r"^\s*(?:pub )?(record|data)\s+(" + ANY + ")", line)
            if head:
                ours.add(head.group(2))
                record = True
                continue
            m = re.match(r"^(\s*)((?:abbrev |unfoldable |pub )*)(" + ANY + r"(?: " + ANY + r")*)\s*:\s*(.*)$", line)
            if m:
                goal = m.group(4).startswith("goal.") and not m.group(1)
                for n in m.group(3).split():
                    (goals if goal else ours).add(n)
                    if record and m.group(1) and not goal:
                        fields.add(n)
            if line and not line.startswith(" "):
                record = bool(head)
            for m in re.finditer(r"\blet\s+(" + ANY + r")(?=\s*[:=])", line):
                ours.add(m.group(1))
            for m in re.finditer(r"[({]((?:" + ANY + r" )*" + ANY + r")\s*:", line):
                ours.update(m.group(1).split())
            for m in re.finditer(r"λ ((?:" + ANY + r" )*" + ANY + r")\.", line):
                ours.update(m.group(1).split())
    ours |= ALSO
    ours = {n for n in ours if re.fullmatch(NAME, n)}
    ours = {n for n in ours if n not in stds and n not in goals and n not in KEEP}
    return ours, fields


def turned(name):
    if name in OTHER:
        return OTHER[name]
    if name[0].isupper():
        return "".join(w[:1].upper() + w[1:] for w in name.split("-"))
    return name.replace("-", "_")


def respelled(text, names, fields, answers, is_rt, path):
    def word(m):
        n = m.group()
        if n not in names:
            return n
        if (path, n) in ALIAS:
            use = m.string.lstrip().startswith("ghost use")
            return (turned(n) + " as " if use else "") + ALIAS[path, n]
        behind_dot = m.start() > 0 and m.string[m.start() - 1] == "."
        if answers and behind_dot and (n not in fields or MADE.search(n)):
            # a name of the check's own, but for paths of modules
            head = re.search(r"[\w.'-]*$", m.string[: m.start()]).group()
            if not head.startswith("Rattle."):
                return n
        return turned(n)

    mark = "//" if is_rt else "--"
    out = []
    for line in text.split("\n"):
        at = line.find(mark)
        code, said = (line, "") if at < 0 else (line[:at], line[at:])
        if is_rt:
            pieces = re.split(r'("(?:[^"\\]|\\.)*")', code)
            code = "".join(x if i % 2 else TOKEN.sub(word, x) for i, x in enumerate(pieces))
        else:
            code = TOKEN.sub(word, code)
        said = re.sub(r"`[^`]*`", lambda m: TOKEN.sub(word, m.group()), said)
        out.append(code + said)
    return "\n".join(out)


def main():
    root = os.getcwd()
    dry = "--dry" in sys.argv
    names, fields = declared(root)
    clash = 0
    for p in files(root):
        text = open(p, encoding="utf-8").read()
        base = os.path.basename(p)
        answers = base in ("Answers.antt", "Invariants.antt", "Choices.antt")
        is_rt = p.endswith((".rt", ".edit"))
        new = respelled(text, names, fields, answers, is_rt, os.path.relpath(p, root))
        if new == text:
            continue
        plain = re.sub(r"(?m)//.*$|^file:.*$", "", text) if is_rt else bare(text)
        used = set(re.findall(r"(?<![\w'₀-₉-])[A-Za-z]" + PART[:-1] + r"*(?![\w'₀-₉-])", plain))
        here = os.path.relpath(p, root)
        came = {turned(m.group()) for m in TOKEN.finditer(plain) if m.group() in names and (here, m.group()) not in ALIAS}
        for n in sorted(came & used):
            clash += 1
            print("together:", os.path.relpath(p, root), n)
        if not dry:
            with open(p, "w", encoding="utf-8") as f:
                f.write(new)
    by = {}
    for n in names:
        by.setdefault(turned(n), []).append(n)
    for n, all_ in sorted(by.items()):
        if len(all_) > 1:
            print("two of one:", n, all_)
    print(len(names), "names,", clash, "places where a name falls together with another")
    if dry:
        print(" ".join(sorted(names)))


if __name__ == "__main__":
    main()
