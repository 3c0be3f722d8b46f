#!/usr/bin/env python3
"""values.py STORY ORDER: checks the functions and values that STORY tells against the values of shared words in ORDER.

STORY and ORDER are those of one trace, whole. For each reference, ORDER has the value of its word before and after. The function of a
message takes the first of these values among the processors that it stands for to the last; that of a record takes the first's value to
what the second processor finds. Prints how many values were compared."""
import re
import sys
from collections import defaultdict


def signed(word):
    return word - (1 << 32) if word >> 31 else word


OPERATIONS = {
    "load": lambda x, v: x,
    "store": lambda x, v: v,
    "add": lambda x, v: (x + v) % (1 << 32),
    "and": lambda x, v: x & v,
    "or": lambda x, v: x | v,
    "xor": lambda x, v: x ^ v,
    "min": lambda x, v: min(x, v, key=signed),
    "max": lambda x, v: max(x, v, key=signed),
    "minu": lambda x, v: min(x, v),
    "maxu": lambda x, v: max(x, v),
}


def apply(function, x):
    for name, _, operand in re.findall(r"([a-z]+)( ([0-9a-f]{8}))?", function):
        x = OPERATIONS[name](x, int(operand or "0", 16))
    return x


references = defaultdict(list)
with open(sys.argv[2]) as order:
    for entry in order:
        found = re.fullmatch(r"\d+ (\d+) (?!poke).* word (\d+) ([0-9a-f]{8}) ([0-9a-f]{8})", entry.rstrip("\n"))
        if found:
            references[int(found[1])].append((int(found[2]), int(found[3], 16), int(found[4], 16)))

current, groups, compared = {}, {}, 0


def same(told, wanted):
    global compared
    compared += 1
    if told != wanted:
        sys.exit(f"{line}: {told}, but by the order {wanted}")


with open(sys.argv[1]) as story:
    for line in story.read().splitlines():
        head, _, outcome = line.partition(": ")
        place = [int(it) for it in head.split()[2:] if it.isdigit()]
        if found := re.fullmatch(r"sends (.*) to word (\d+)", outcome):
            p = place[0]
            current[p], groups[p] = references[p].pop(0), [p]
            same((int(found[2]), apply(found[1], current[p][1])), (current[p][0], current[p][2]))
        elif found := re.fullmatch(r"(\d+) joins (\d+) at stage \d+: (.*) goes on, (.*) is kept", outcome):
            second, first = int(found[1]), int(found[2])
            value = current[first][1]
            same(apply(found[4], value), current[second][1])
            groups[first] += groups[second]
            same(apply(found[3], value), current[groups[first][-1]][2])
        elif found := re.fullmatch(r"serves \d+: ([\d ]+): word (\d+) ([0-9a-f]{8}) to ([0-9a-f]{8})", outcome):
            served = [int(it) for it in found[1].split()]
            same(served, groups[served[0]])
            same((int(found[2]), int(found[3], 16)), current[served[0]][:2])
            same(int(found[4], 16), current[served[-1]][2])
        elif found := re.fullmatch(r"answers ([\d ]+) at stage \d+:([0-9a-f ]+)", outcome):
            same([int(it, 16) for it in found[2].split()], [current[int(it)][1] for it in found[1].split()])
        elif re.match(r"sends|\d+ joins|serves|answers", outcome):
            sys.exit(f"{line}: not of this form")
print(compared)
