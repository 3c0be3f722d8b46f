#!/usr/bin/env python3
"""chosen.py STORY ORDER K processor|word N: prints the lines of STORY that concern processor N, or are about word N.

STORY and ORDER are those of one trace, whole, of a machine of 2^K processors. Each reference of a processor is to the word that ORDER
says. Where its message goes follows from the wires of an omega network, and for whom it stands from what was combined."""
import sys
from collections import defaultdict

k, kind, number = int(sys.argv[3]), sys.argv[4], int(sys.argv[5])
with open(sys.argv[1]) as story:
    lines = story.read().splitlines()
words = defaultdict(list)
with open(sys.argv[2]) as order:
    for entry in (line.split() for line in order):
        if entry[2] != "poke" and "word" in entry:
            words[int(entry[1])].append(int(entry[entry.index("word") + 1]))


def left(wire):
    return (wire << 1 | wire >> (k - 1)) & ((1 << k) - 1)


def right(wire):
    return wire >> 1 | (wire & 1) << (k - 1)


def behind(stage, wire, module):
    return left(wire) & ~1 | module >> (k - 1 - stage) & 1


def before(stage, wire, processor):
    return right(wire & ~1 | processor >> (k - 1 - stage) & 1)


# A message is a list: its leader, its word, and the messages that were combined into it, each with the stage.
requests, replies = defaultdict(list), defaultdict(list)
open_word = {}


def members(message):
    return {message[0]}.union(*(members(it) for _, it in message[2]))


def turn(p, words_of_line):
    if "sends" in words_of_line:
        open_word[p] = words[p].pop(0)
        requests[0, p].append([p, open_word[p], []])
        return {p}, open_word[p]
    if replies[0, p]:
        assert replies[0, p].pop(0)[0] == p
        return {p}, open_word.pop(p)
    return {p}, None


def up(stage, wire, words_of_line):
    message = requests[stage, wire].pop(0)
    queue = requests[stage + 1, behind(stage, wire, message[1] % (1 << k))]
    concerned = members(message)
    if "joins" in words_of_line:
        first = next(it for it in queue if it[0] == int(words_of_line[words_of_line.index("joins") + 1]))
        assert first[1] == message[1]
        concerned |= members(first)
        first[2].append((stage, message))
    else:
        queue.append(message)
    return concerned, message[1]


def serve(m):
    message = requests[k, m].pop(0)
    replies[k, m].append(message)
    return members(message), message[1]


def down(stage, wire):
    message = replies[stage + 1, wire].pop(0)
    concerned = members(message)
    split = [it for at, it in message[2] if at == stage]
    message[2] = [(at, it) for at, it in message[2] if at != stage]
    for it in (message, *split):
        replies[stage, before(stage, wire, it[0])].append(it)
    return concerned, message[1]


def poke(words_of_line):
    if words_of_line[2] == "-":
        return set(), (int(words_of_line[3], 16) - (1 << 31)) // 4
    return {int(words_of_line[2])}, None


for line in lines:
    found = line.replace(":", "").split()
    step, at = found[1], found[2:]
    if step == "turn":
        concerned, word = turn(int(at[0]), at)
    elif step == "up":
        concerned, word = up(int(at[0]), int(at[1]), at)
    elif step == "serve":
        concerned, word = serve(int(at[0]))
    elif step == "down":
        concerned, word = down(int(at[0]), int(at[1]))
    else:
        concerned, word = poke(found)
    if number in concerned if kind == "processor" else word == number:
        print(line)
