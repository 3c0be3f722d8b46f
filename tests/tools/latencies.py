#!/usr/bin/env python3
"""latencies.py < STORY: prints the latencies that `ultra stats --latency` prints, from the lines of `ultra story`.

A round of the sweep asks for turns by processor, for moves of requests from the last stage on, for services by module, and for moves of
replies from the first stage on. A step that it asks for no later than the step before begins another round."""
import sys
from collections import Counter, defaultdict


def place(step, numbers):
    """Where a round asks for the step."""
    if step == "up":
        return 1, -numbers[0], numbers[1]
    return {"turn": 0, "serve": 2, "down": 3}[step], *numbers


rounds, last = 0, None
sent, took = {}, defaultdict(list)
for line in sys.stdin:
    words = line.replace(":", "").split()
    step = words[1]
    if step == "poke":
        continue
    numbers = [int(word) for word in words[2:4 if step in ("up", "down") else 3]]
    here = place(step, numbers)
    if last is None or here <= last:
        rounds += 1
    last = here
    if step != "turn":
        continue
    processor, outcome = numbers[0], words[3]
    if outcome == "sends":
        sent[processor] = rounds, int(words[-1])
    elif processor in sent:
        since, word = sent.pop(processor)
        for subject in (("all", 0), ("processor", processor), ("word", word)):
            took[subject].append(rounds - since)

for (subject, number), all in sorted(took.items()):
    if subject != "all":
        subject = f"{subject} {number}"
    mean = sum(all) * 100 // len(all)
    powers = Counter(1 << (it.bit_length() - 1) for it in all)
    groups = " ".join(f"{low}x{powers[low]}" for low in sorted(powers))
    print(f"latency {subject} references {len(all)} least {min(all)} mean {mean // 100}.{mean % 100:02} greatest {max(all)} rounds {groups}")
