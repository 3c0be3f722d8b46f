"""What the lines of a story say of each step."""
import re


class Step:
    """A step: `line`, `kind` (send, retire, stop, move, join, serve, back, split or poke), the processors that it concerns, the word
    of its reference (or None), `orders`, how many lines of the order come to be in it, and `moving`, how many messages are on their
    way after it."""


def steps_of(story):
    """The steps of the lines of a story, the first one first."""
    groups, words, moving, steps = {}, {}, 0, []
    for number, line in enumerate(story):
        head, _, outcome = line.partition(": ")
        words_of_head = head.split()
        assert int(words_of_head[0]) == number, line
        step = Step()
        step.line, step.processors, step.word, step.orders = line, set(), None, 0
        if words_of_head[1] == "poke":
            step.kind, step.orders = "poke", 1
            if words_of_head[2] == "-":
                step.word = (int(words_of_head[3], 16) - (1 << 31)) // 4
            else:
                step.processors = {int(words_of_head[2])}
        elif words_of_head[1] == "turn":
            p = int(words_of_head[2])
            step.processors = {p}
            if found := re.fullmatch(r"sends .* to word (\d+)", outcome):
                step.kind = "send"
                words[p] = step.word = int(found[1])
                groups[p] = [p]
                moving += 1
            else:
                step.kind = "stop" if outcome.startswith("stops") else "retire"
                step.word = words.pop(p, None)
                if step.word is None:
                    step.orders = 1
                else:
                    moving -= 1
        elif found := re.match(r"(\d+) joins (\d+) ", outcome):
            second, leader = int(found[1]), int(found[2])
            step.kind, step.word = "join", words[leader]
            groups[leader] = groups[leader] + groups[second]
            step.processors = set(groups[leader])
            moving -= 1
        elif found := re.match(r"serves \d+: ([\d ]+): word (\d+) ", outcome):
            served = [int(it) for it in found[1].split()]
            step.kind, step.processors, step.word, step.orders = "serve", set(served), int(found[2]), len(served)
        elif found := re.match(r"answers ([\d ]+) at", outcome):
            step.kind = "split"
            moving += len(found[1].split())
        else:
            step.kind = "move" if words_of_head[1] == "up" else "back"
        step.moving = moving
        steps.append(step)
    return steps


def order_steps(steps):
    """The step of each line of the serial order."""
    return [number for number, step in enumerate(steps) for _ in range(step.orders)]


def next_of(steps, shown, kind, forwards=True, processor=None, word=None):
    """The number of the step of this kind that comes next after (or before) the one whose result is shown, or None."""
    for number in range(shown, len(steps)) if forwards else range(shown - 2, -1, -1):
        step = steps[number]
        if step.kind == kind and (processor is None or processor in step.processors) and (word is None or word == step.word):
            return number
    return None
