#!/usr/bin/env python3
"""schedules.py ULTRA ROOM: compares the turns of random runs with schedules that are computed here, from what COMMANDS.md
says. Processors go round a loop of one local instruction, so each turn of a schedule is a step of the trace. Writes files in
the folder ROOM, prints each difference, and ends with status 1 if there are any."""

import itertools
import subprocess
import sys

TURNS = 3000


def generator(number):
    """Yields the states of the generator (xorshift32) after the first, which is the run's number, or 1 for 0."""
    state = number or 1
    while True:
        state ^= state << 13 & 0xFFFFFFFF
        state ^= state >> 17
        state ^= state << 5 & 0xFFFFFFFF
        yield state


def at_random(processors, number, depth):
    favoured = 0
    for state in generator(number):
        if (state >> 16) % 2 ** (number % 6) == 0:
            favoured = state % processors
        yield favoured


def like_the_sweep(processors, number, depth):
    processor = 0
    for state in generator(number):
        passed_over = (state >> 16) % 4 == 0
        processor = (processor + 1 + passed_over) % processors
        yield processor


def by_priorities(processors, number, depth):
    """Each turn of an epoch is an item of a list; what a processor has left after a change of priority goes to its end."""
    states = generator(number)
    each = (16, 64, 256, 1024)[number % 4]
    while True:
        order = []
        for processor in range(processors):
            order.insert(next(states) % (processor + 1), processor)
        # A piece of the list for each processor, and one more for each change.
        pieces = [[processor] * each for processor in order]
        for _ in range(depth - 1):
            place = next(states) % (processors * each)
            at = 0
            while place >= len(pieces[at]):
                place -= len(pieces[at])
                at += 1
            rest = pieces[at][place + 1 :]
            del pieces[at][place + 1 :]
            if rest:
                pieces.append(rest)
        yield from itertools.chain.from_iterable(pieces)


def turns_of(ultra, room, stages, number, options):
    prefix = f"{room}/schedule-"
    command = [ultra, "hunt", "--k", str(stages), "--runs", "1", "--start", str(number), "--budget", str(TURNS)]
    command += ["--trace", prefix, "--overwrite", *options, f"{room}/round.elf"]
    # A run that uses up its budget is unfinished, which is status 5.
    status = subprocess.run(command, stdout=subprocess.DEVNULL).returncode
    text = subprocess.run([ultra, "trace", f"{prefix}{number}.trace"], capture_output=True, text=True, check=True).stdout
    steps = text.splitlines()[1:]
    if status != 5 or not all(step.startswith("turn ") for step in steps):
        return None
    return [int(step.split()[1]) for step in steps]


def main():
    ultra, room = sys.argv[1:]
    with open(f"{room}/round.s", "w") as text:
        text.write("start: jal x0, start\n")
    subprocess.run([ultra, "asm", f"{room}/round.s", f"{room}/round.elf"], check=True)
    strategies = [(at_random, [], 0), (at_random, ["--schedule", "random"], 0), (like_the_sweep, ["--schedule", "sweep-like"], 0)]
    strategies.append((by_priorities, ["--schedule", "pct"], 12))
    strategies += [(by_priorities, ["--schedule", "pct", "--depth", str(depth)], depth) for depth in (1, 2, 16)]
    compared = 0
    wrong = 0
    for (strategy, options, depth), stages in itertools.product(strategies, (0, 2, 6)):
        for number in (0, 1, 2, 3, 4, 5, 4294967295):
            found = turns_of(ultra, room, stages, number, options)
            wanted = list(itertools.islice(strategy(2**stages, number, depth), TURNS))
            compared += 1
            if found != wanted:
                print(f"--k {stages} run {number} {' '.join(options)}: another schedule")
                wrong += 1
    print(f"{compared} schedules compared, {wrong} wrong")
    return 1 if wrong else 0


if __name__ == "__main__":
    sys.exit(main())
