#!/usr/bin/env python3
"""queues.py STORY STATS TABLE: checks that the longest queues and wait buffers of each stage in STATS are those of the run in STORY, and the
lengths at the ends of rounds those in TABLE and in STATS.

Where a message goes follows from the wires of an omega network. The wires are shuffled before each stage. After it the last bit of a
request's wire is the module's bit of that stage, and the last bit of a reply's wire is the processor's."""
import re
import sys
from collections import defaultdict

with open(sys.argv[1]) as story:
    lines = [line.split() for line in story]
with open(sys.argv[2]) as stats:
    stats = stats.read().splitlines()
with open(sys.argv[3]) as table:
    table = table.read().splitlines()
told = [re.findall(r"(?:requests|records|replies) (\d+)", line) for line in stats if line.startswith("stage ")]
k = len(told)
wires = 1 << k


def left(wire):
    return (wire << 1 | wire >> (k - 1)) & (wires - 1)


def right(wire):
    return wire >> 1 | (wire & 1) << (k - 1)


def behind(stage, wire, module):
    return left(wire) & ~1 | module >> (k - 1 - stage) & 1


def before(stage, wire, processor):
    return right(wire & ~1 | processor >> (k - 1 - stage) & 1)


# The lines from the last to the first: to which module the next reference of each processor goes.
module, goes = {}, [0] * len(lines)
for number in reversed(range(len(lines))):
    step = lines[number]
    if step[1] == "serve":
        last = next(at for at in range(5, len(step)) if step[at].endswith(":"))
        module.update((int(it.strip(":")), int(step[2].strip(":"))) for it in step[5:last + 1])
    elif step[3] == "sends":
        goes[number] = module[int(step[2].strip(":"))]

requests, replies, records = defaultdict(list), defaultdict(list), defaultdict(list)
to = {}
longest = [[0, 0, 0] for _ in range(k)]
rounds, last = 0, None
rows, waited = [], [[0, 0, 0] for _ in range(k)]


def put(places, kind, stage, place, it):
    places[place].append(it)
    if 0 <= stage < k:
        longest[stage][kind] = max(longest[stage][kind], len(places[place]))


def place(words, at):
    """Where a round asks for the step: for turns by processor, for moves of requests from the last stage on, for services, for moves of replies."""
    if words[1] == "up":
        return 1, -at[0], at[1]
    return {"turn": 0, "serve": 2, "down": 3}[words[1]], *at


def end_round():
    """Notes how much waits at each stage where anything does."""
    for stage in range(k):
        sums = [sum(len(places[at, wire]) for wire in range(wires)) for places, at in ((requests, stage + 1), (records, stage), (replies, stage))]
        if any(sums):
            rows.append([rounds, stage, *sums])
            waited[stage] = [one + all for one, all in zip(waited[stage], sums)]


for number, step in enumerate(lines):
    words = [it.strip(":") for it in step]
    if words[1] != "poke":
        here = place(words, [int(it) for it in words[2:4 if words[1] in ("up", "down") else 3]])
        if last is None or here <= last:
            end_round()
            rounds += 1
        last = here
    at = [int(it) for it in words[2:4] if it.isdigit()]
    if words[1] == "turn" and "sends" in words:
        to[at[0]] = goes[number]
        requests[0, at[0]].append(at[0])
    elif words[1] == "turn" and replies[0, at[0]]:
        replies[0, at[0]].pop(0)
    elif words[1] == "up":
        stage, wire = at[:2]
        leader = requests[stage, wire].pop(0)
        out = behind(stage, wire, to[leader])
        if "joins" in words:
            first = int(words[words.index("joins") + 1])
            assert leader == int(words[words.index("joins") - 1]) and first in requests[stage + 1, out], step
            put(records, 1, stage, (stage, out), (first, leader))
        else:
            put(requests, 0, stage, (stage + 1, out), leader)
    elif words[1] == "serve":
        leader = requests[k, at[0]].pop(0)
        assert leader == int(words[5]), step
        replies[k, at[0]].append(leader)
    elif words[1] == "down":
        stage, wire = at[:2]
        leader = replies[stage + 1, wire].pop(0)
        put(replies, 2, stage, (stage, before(stage, wire, leader)), leader)
        if "answers" in words:
            second = int(words[words.index("answers") + 1])
            records[stage, wire].remove((leader, second))
            put(replies, 2, stage, (stage, before(stage, wire, second)), second)
if longest != [[int(it) for it in stage] for stage in told]:
    sys.exit(f"by the story {longest}, by the statistics {told}")
end_round()
if table != ["round,stage,requests,records,replies"] + [",".join(map(str, row)) for row in rows]:
    sys.exit("the table has other lengths than the story")
names = "round", "stage", "requests", "records", "replies"
lines = [" ".join(f"{name} {number}" for name, number in zip(names, row)) for row in rows]
lines += ["waited " + " ".join(f"{name} {number}" for name, number in zip(names[1:], [stage, *sums])) for stage, sums in enumerate(waited)]
if stats[len(stats) - len(lines):] != lines:
    sys.exit("the statistics have other lengths than the story")
