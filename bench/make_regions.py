#!/usr/bin/env python3
"""Writes regions as texts, each a source and a schedule that passes.

    bench/make_regions.py DIR    writes DIR/{largest,hardest,typical}.{src,sch}

largest has 96 rows, 8 exits and 4 joins, and all pieces of 16 rows; exits and joins are spread over the rows.
hardest is as large, with its joins on top, so that all five entries walk all rows.
typical has 20 rows, 2 exits and a join.

The schedule has the source's rows with neighbours exchanged where they do not depend on each other, and
compensation rows in its pieces. Each row makes a term of its own, so that the table of terms fills up.
"""
import sys

LABELS = 9
DEAD = 15  # no label and no row of the main line needs it: the pieces may write it


def action(n):
    """Main row n as (text, registers read, registers written, bank)."""
    d, a, b = n % 6, (n + 3) % 6, 6 + n % 8
    if n % 7 == 3:
        return f"I\t{d}\t{1000 + n}", set(), {d}, None
    if n % 7 == 4:
        return f"L\t{b}\t{n % 4}\t{a}", {a}, {b}, n % 4
    if n % 7 == 5:
        return f"S\t{n % 4}\t{a}\t{b}", {a, b}, set(), n % 4
    return f"O\t{n % 3}\t{d}\t{d}\t{b}", {d, b}, {d}, None


def depend(x, y):
    return bool(x[2] & (y[1] | y[2]) or y[2] & x[1] or (x[3] is not None and x[3] == y[3]))


def piece(size, k):
    """Compensation rows on the dead register; each term holds the one before it."""
    return [f"O\t{i % 3}\t{DEAD}\t{DEAD}\t{(i + k) % 7}" for i in range(size)]


def region(rows, exits, joins, piece_rows, joins_first=False):
    """The lines of a source and of its schedule."""
    count = exits + joins
    stops = ["J" if i % 3 == 1 else "X" for i in range(count)]  # a join for every two exits
    places = [(i + 1) * rows // (count + 1) for i in range(count)]
    if joins_first:
        stops = ["J"] * joins + ["X"] * exits
        places = list(range(joins)) + places[joins:]
    at = dict(zip(places, stops))
    source = [("stop", at[i]) if i in at else ("act", action(i)) for i in range(rows)]
    schedule = list(source)
    i = 0
    while i + 1 < rows:
        x, y = schedule[i], schedule[i + 1]
        if x[0] == y[0] == "act" and not depend(x[1], y[1]):
            schedule[i], schedule[i + 1] = y, x
            i += 1
        i += 1

    def lines(line):
        out, k = [], 0
        for kind, what in line:
            if kind == "act":
                out.append(what[0])
            elif what == "J":
                out.append("J")
            else:
                out.append(f"X\t{k % 7}\texit{k}")
                k += 1
        return out + ["E\tend"]

    labels = [f"M\texit{k}\t{0x7fff >> k & 0x3fff:04x}" for k in range(min(exits, LABELS - 1))] + ["M\tend\t3fff"]
    pieces = []
    for k in range(exits):
        pieces += [f"P\t{k + 1}"] + piece(piece_rows, k)
    for j in range(joins):
        pieces += [f"Q\t{j + 1}"] + piece(piece_rows, j)
    return labels + lines(source), lines(schedule) + pieces


def write(path, lines):
    with open(path, "w") as f:
        f.write("\n".join(lines) + "\n")


if __name__ == "__main__":
    where = sys.argv[1]
    for name, sizes in (("largest", (96, 8, 4, 16)), ("hardest", (96, 8, 4, 16, True)), ("typical", (20, 2, 1, 2))):
        source, schedule = region(*sizes)
        write(f"{where}/{name}.src", source)
        write(f"{where}/{name}.sch", schedule)
