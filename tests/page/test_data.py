#!/usr/bin/env python3
"""test_data.py: checks the data of pages that `ultra page` writes, without a browser.

At ten steps of each run of examples.py the changes up to the step, put one after the other on an empty view, give what `ultra picture
--step` draws: the text of each processor, word, request, record and reply, with the groups. The lines of the story and the order are
those of `ultra story` and `ultra order`. Registers and words have the values that the story's lines give them. Around the data stands
what tests/tools/page.py makes of page/. Prints how many bytes a step takes."""
import os
import re
import sys
import tempfile

sys.path[:0] = [os.path.dirname(os.path.abspath(__file__)), os.path.join(os.path.dirname(os.path.abspath(__file__)), "..", "tools")]
import page
from examples import parts, runs
from pictured import Picture
from told import order_steps, steps_of

START = '<script type="text/plain" id="data">\n'


def data_of(text):
    """The data in a page, with what was escaped."""
    before, _, rest = text.partition(START)
    data, _, after = rest.partition("</script>")
    assert "<" not in data, "not escaped"
    return before + START, data.replace("%3c", "<").replace("%25", "%"), "</script>" + after


class View:
    """A view, on which lines of changes are put."""

    def __init__(self, k):
        self.k, self.n = k, 1 << k
        self.processors = [None] * self.n
        self.places = {}
        self.registers = {}
        self.words = {}

    def put(self, line):
        assert line == "" or line.endswith("\t"), repr(line)
        for change in line.split("\t")[:-1]:
            name, _, value = change.partition("=")
            if found := re.fullmatch(r"w(\d+)", name):
                self.words[int(found[1])] = value
            elif found := re.fullmatch(r"(\d+)x(\d+)", name):
                assert int(found[1]) < self.n and 1 <= int(found[2]) <= 31, change
                self.registers[int(found[1]), int(found[2])] = value
            elif found := re.fullmatch(r"(\d+)\.(\d+)", name):
                assert int(found[1]) <= self.k and int(found[2]) < self.n, change
                self.places[int(found[1]), int(found[2])] = value
            else:
                self.processors[int(name)] = value

    # ---- what stands at a place

    def items(self, depth, wire):
        text = self.places.get((depth, wire), "")
        requests = [(f, int(w), int(p)) for f, w, p in re.findall(r"\?([^?&!@:]+)@(\d+):(\d+)", text)]
        records = [(int(q), int(p), f) for q, p, f in re.findall(r"&(\d+),(\d+):([^?&!@:]+)", text)]
        replies = [(v, int(p)) for v, p in re.findall(r"!([0-9a-f]{8}):(\d+)", text)]
        again = "".join(f"?{f}@{w}:{p}" for f, w, p in requests) + "".join(f"&{q},{p}:{f}" for q, p, f in records) + "".join(f"!{v}:{p}" for v, p in replies)
        assert again == text, text
        return requests, records, replies

    def group(self, depth, leader):
        """As crates/machine_views/specs/Groups.antt defines it."""
        leaders = [leader]
        for stage in range(depth - 1, -1, -1):
            split = []
            for p in leaders:
                split.append(p)
                for wire in range(self.n):
                    split += [q for q, first, _ in self.items(stage + 1, wire)[1] if first == p]
            leaders = split
        shown = " ".join(map(str, leaders if len(leaders) <= 8 else leaders[:4]))
        return "{" + shown + (f" .. {len(leaders)}" if len(leaders) > 8 else "") + "}"

    # ---- the texts of a picture

    def right(self, wire):
        return wire >> 1 | (wire & 1) << (self.k - 1) if self.k else wire

    def processor_text(self, p):
        pc, _, status = self.processors[p].partition(" ")
        if status.isdigit():
            return f"{p} run {pc} word {status}"
        return f"{p} {status or 'run'} {pc}"

    def requests(self, depth, wire):
        return [f"{f}{' ' if f == 'load' else ' to '}word {w} {self.group(depth, p)}" for f, w, p in self.items(depth, wire)[0]]

    def replies(self, depth, wire):
        return [f"reply {v} {self.group(depth, p)}" for v, p in self.items(depth, wire)[2]]

    def words_of(self, module):
        opened = []
        for it in self.processors:
            found = re.fullmatch(r"[0-9a-f]{8} (\d+)", it)
            if found and int(found[1]) % self.n == module and int(found[1]) not in opened:
                opened.append(int(found[1]))
        return [f"word {w} = {self.words.get(w, '00000000')}" for w in opened]

    def lines(self):
        lines = []
        for p in range(self.n):
            lines += [("request", f"processor {p}: {it}") for it in self.requests(0, p)]
        for stage in range(self.k):
            for wire in range(self.n):
                place = f"stage {stage} wire {wire}: "
                lines += [("reply", place + it) for it in self.replies(stage, self.right(wire))]
                lines += [("record", f"{place}{q} waits for {p}: {f}") for q, p, f in self.items(stage + 1, wire)[1]]
                lines += [("request", place + it) for it in self.requests(stage + 1, wire)]
        for module in range(self.n):
            lines += [("word", f"module {module}: {it}") for it in self.words_of(module)]
            lines += [("reply", f"module {module}: {it}") for it in self.replies(self.k, module)]
        return lines


def same(found, wanted, what):
    if found != wanted:
        sys.exit(f"{what}: found\n  {found}\ninstead of\n  {wanted}")


def check_values(run, view, told, upto):
    """Registers and words after so many steps, by the lines of the story."""
    for step in told[:upto]:
        head, _, outcome = step.line.partition(": ")
        if found := re.match(r"retires \S+ x(\d+),.* = ([0-9a-f]{8})", outcome):
            run.values[int(head.split()[2]), int(found[1])] = found[2]
        if found := re.fullmatch(r"\d+ poke (\d+) x(\d+) ([0-9a-f]{8}): writes", step.line):
            run.values[int(found[1]), int(found[2])] = found[3]
        if found := re.search(r": word (\d+) ([0-9a-f]{8}) to ([0-9a-f]{8})$", outcome):
            run.values["word", int(found[1])] = found[3]
        if found := re.fullmatch(r"\d+ poke - ([0-9a-f]{8}) ([0-9a-f]{2}): writes", step.line):
            # no image of examples.py has words that are not 0 at first
            at = 8 * (int(found[1], 16) % 4)
            old = int(run.values.get(("word", step.word), "0"), 16)
            run.values["word", step.word] = f"{old & ~(0xff << at) | int(found[2], 16) << at:08x}"
    for (kind, number), value in run.values.items():
        it = view.words.get(number, "00000000") if kind == "word" else view.registers.get((kind, number), "00000000")
        same(it, value, f"{run.name} after {upto} steps: {kind} {number}")


def check(run):
    front, data, back = data_of(run.page())
    same([front, back], list(page.halves()), f"{run.name}: the page around the data")
    assert data.endswith("\n"), run.name
    lines = data[:-1].split("\n")
    same(lines[0], "ultra page 1", run.name)
    same(lines[1], run.machine, run.name)
    n = run.steps
    same(lines[2], f"words 1024 steps {n} from 0 of {n} symbols 0", run.name)
    same(lines[4 + n:4 + 2 * n], run.story, f"{run.name}: the story")
    same(lines[4 + 2 * n:], run.order, f"{run.name}: the order")
    view, told, run.values = View(run.k), steps_of(run.story), {}
    view.put(lines[3])
    taken = 0
    for step in run.chosen_steps(10):
        for line in lines[4 + taken:4 + step]:
            view.put(line)
        taken = step
        wanted = Picture(run.picture(step))
        same(wanted.steps, step, run.name)
        same([view.processor_text(p) for p in range(view.n)], wanted.processors, f"{run.name} after {step} steps: processors")
        same(view.lines(), wanted.lines, f"{run.name} after {step} steps")
        check_values(run, view, told, step)
    print(f"{run.name}: {n} steps, {len(run.order)} lines of the order, {len(data) / max(1, n):.0f} bytes a step")


def unnamed(run):
    """The same run, with pictures that have no names: the data has none."""
    run.named, run.pictures = [], {}
    return run


def check_part(run):
    """The data of a part: its lines of the story and of the order, and views from the first step on."""
    lines = data_of(run.page())[1][:-1].split("\n")
    first, n = run.first, run.count
    symbols = [line.split() for line in run.symbols.splitlines()]
    rows = sorted((int(it[0], 16), int(it[1], 16) if len(it) == 4 else 0, it[-1]) for it in symbols)
    named = 3 + len(rows)
    same(lines[2], f"words 1024 steps {n} from {first} of {run.steps} symbols {len(rows)}", run.name)
    same(lines[3:named], [f"{address:08x} {size:08x} {name}" for address, size, name in rows], f"{run.name}: the symbols")
    same(lines[named + 1 + n:named + 1 + 2 * n], run.story[first:first + n], f"{run.name}: the story")
    told = steps_of(run.story)
    same(lines[named + 1 + 2 * n:], [line for line, step in zip(run.order, order_steps(told)) if first <= step < first + n], f"{run.name}: the order")
    view, run.values = View(run.k), {}
    view.put(lines[named])
    taken = 0
    for step in unnamed(run).chosen_steps(7):
        for line in lines[named + 1 + taken:named + 1 + step - first]:
            view.put(line)
        taken = step - first
        wanted = Picture(run.picture(step))
        same([view.processor_text(p) for p in range(view.n)], wanted.processors, f"{run.name} after {step} steps: processors")
        same(view.lines(), wanted.lines, f"{run.name} after {step} steps")
        check_values(run, view, told, step)
    print(f"{run.name}: {n} steps from {first} on")


with tempfile.TemporaryDirectory() as room:
    made = {}
    for each in runs(room):
        made[each.name] = each
        check(each)
    for each in parts(room, made):
        check_part(each)
