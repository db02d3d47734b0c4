#!/usr/bin/env python3
"""Replays the walks of a pair on plain dictionaries, and counts what the table of terms does in each entry.

    bench/count_rows.py SOURCE SCHEDULE

Prints the rows that were numbered, put in, and compared, and the longest search; the last line is for all entries.
The domain is that of wrapping words, and the texts are taken to be right.
"""
import sys

COMMUTING = {0, 2, 5, 6, 7}  # add, mul, eq, and, or


def hashed(kind, *parts):
    """The hash of a row, as `mixed` of the validator computes it."""
    if kind == "register":
        return parts[0]
    if kind == "bank":
        return 16 + parts[0]
    if kind == "literal":
        return 20 + parts[0]
    if kind == "operate":
        op, _, a, b = parts
        return 31 * op + 67 * a + 29 * b
    k, a, v = parts if kind == "store" else (*parts, 0)
    return (5 if kind == "store" else 7) + 113 * k + 37 * a + 67 * v


class Table:
    def __init__(self):
        self.rows, self.chains = [], [[] for _ in range(256)]
        self.numbered = self.compared = self.longest = 0

    def number(self, *key):
        self.numbered += 1
        chain = self.chains[hashed(*key) % 256]
        for steps, row in enumerate(reversed(chain), 1):
            self.compared += 1
            self.longest = max(self.longest, steps)
            if self.rows[row] == key:
                return row
        self.rows.append(key)
        chain.append(len(self.rows) - 1)
        return chain[-1]


def lines_of(path):
    """The main line of a text, and its pieces by their heads."""
    main, pieces, at = [], {}, None
    for fields in (line.split("\t") for line in open(path).read().splitlines()):
        if fields[0] in "PQ":
            at = pieces.setdefault((fields[0], int(fields[1])), [])
        elif at is not None:
            at.append(fields)
        elif fields[0] not in "ME":
            main.append(fields)
    return main, pieces


def act(table, registers, banks, fields):
    letter, *numbers = fields[0], *map(int, fields[1:])
    if letter == "O":
        op, d, a, b = numbers
        x, y = registers[a], registers[b]
        exchangeable = op in COMMUTING
        registers[d] = table.number("operate", op, exchangeable, *(sorted((x, y)) if exchangeable else (x, y)))
    elif letter == "I":
        registers[numbers[0]] = table.number("literal", numbers[1])
    elif letter == "L":
        registers[numbers[0]] = table.number("load", banks[numbers[1]], registers[numbers[2]])
    elif letter == "S":
        banks[numbers[0]] = table.number("store", banks[numbers[0]], registers[numbers[1]], registers[numbers[2]])


def walk(table, start, line, entry):
    main, pieces = line
    registers, banks = map(list, start)
    exits = joins = 0
    for fields in main:
        if fields[0] == "J":
            joins += 1
            if joins == entry:
                for row in pieces.get(("Q", joins), []):
                    act(table, registers, banks, row)
        elif fields[0] == "X":
            exits += 1
            if joins >= entry:
                copy = list(registers), list(banks)
                for row in pieces.get(("P", exits), []):
                    act(table, *copy, row)
        elif joins >= entry:
            act(table, registers, banks, fields)


if __name__ == "__main__":
    pair = [lines_of(path) for path in sys.argv[1:3]]
    tables = []
    for entry in range(1 + sum(fields[0] == "J" for fields in pair[0][0])):
        table = Table()
        start = [table.number("register", i) for i in range(16)], [table.number("bank", k) for k in range(4)]
        for line in pair:
            walk(table, start, line, entry)
        tables.append(table)
        print(f"entry {entry}: {table.numbered} numbered, {len(table.rows)} put in, {table.compared} compared, longest search {table.longest}")
    print(f"all: {sum(t.numbered for t in tables)} numbered, {sum(t.compared for t in tables)} compared")
