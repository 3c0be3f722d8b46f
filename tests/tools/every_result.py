#!/usr/bin/env python3
"""What `ultra explore` prints for a text, found by an independent search.

    every_result.py TEXT STAGES [--each] [--fair [--shown FILE]] [--states N]   as `ultra explore --k STAGES`
    every_result.py TEXT --every [--each] [--states N]                          as `ultra explore --every`

It knows the instructions of examples/explore and examples/published, reads the text and not the image, and shares nothing with the
simulator. A state is each processor at its next reference to a shared word, with the registers that it may still read, or stopped,
or found to spin, and the shared words. The search does not go on from a state in which a processor spins.

Processors that are in the same state at their first reference are of one class, and can be exchanged, unless a processor asks for its
own number later. States that differ by an exchange are one: it has the processors of a class in the order in which their states
were found. With --each every processor is a class of its own, and also with --fair. If no processor spins, some fair schedule never
ends exactly if in some strongly connected component each processor that runs has a move. There are many lassos of such schedules, so
that of FILE is checked, and printed if it is one.

It prints faults as `ultra` does, and ends with the same status.
"""
import argparse
import pathlib
import sys

TOP, CODE, SHARED = 1 << 32, 0x10000, 0x80000000
NEVER_ENDS = 'some fair schedule never ends'
# How many turns a processor may take without a reference.
ALONE = 1_000_000
ABI = ['zero', 'ra', 'sp', 'gp', 'tp', 't0', 't1', 't2', 's0', 's1'] + [f'a{i}' for i in range(8)] + [f's{i}' for i in range(2, 12)] + [
    't3', 't4', 't5', 't6']


class Asks(Exception):
    """A processor asks for its own number while processors are exchanged."""


class GivenUp(Exception):
    """The search is given up: `states` or `alone`."""


# ---- the text


def register(name):
    return int(name[1:]) if name[0] == 'x' else ABI.index(name)


def number(text, labels):
    return labels[text] if text in labels else int(text, 0)


def placed(text):
    """The offset and the register of `8(t1)` or `(t1)`."""
    offset, _, base = text.partition('(')
    return int(offset or '0', 0), register(base.rstrip(')'))


def signed(value):
    return value - TOP if value >> 31 else value


COMPARED = {'beq': lambda a, b: a == b, 'bne': lambda a, b: a != b, 'bltu': lambda a, b: a < b, 'bgeu': lambda a, b: a >= b,
            'blt': lambda a, b: signed(a) < signed(b), 'bge': lambda a, b: signed(a) >= signed(b)}
COMPUTED = {'add': lambda a, b: a + b, 'sub': lambda a, b: a - b, 'and': lambda a, b: a & b, 'or': lambda a, b: a | b, 'xor': lambda a, b: a ^ b,
            'sll': lambda a, b: a << (b & 31), 'srl': lambda a, b: a >> (b & 31)}
CHANGED = {'amoadd.w': lambda a, b: a + b, 'amoswap.w': lambda a, b: b, 'amoor.w': lambda a, b: a | b, 'amoand.w': lambda a, b: a & b}
REFERENCES = {'lw', 'sw', *CHANGED}


class Text:
    """The instructions, each with its operands, the addresses of labels, and which registers are live before each instruction."""

    def __init__(self, path):
        self.code, self.labels = [], {}
        for line in open(path):
            line = line.split('#')[0].strip()
            if ':' in line:
                label, line = line.split(':')
                self.labels[label.strip()] = CODE + 4 * len(self.code)
            if line.strip():
                name, _, operands = line.strip().partition(' ')
                self.code.append((name, [o.strip() for o in operands.split(',')] if operands else []))
        self.live = self.live_registers()

    def at(self, pc):
        return self.code[(pc - CODE) // 4]

    def uses(self, place):
        """The registers that an instruction reads, the one that it writes, and where it may go on."""
        (name, ops), after = self.code[place], place + 1
        if name == 'sw':
            reads, writes = [register(ops[0]), placed(ops[1])[1]], 0
        elif name in REFERENCES:
            reads, writes = [placed(ops[-1])[1]] + [register(o) for o in ops[1:-1]], register(ops[0])
        elif name in COMPARED:
            reads, writes = [register(o) for o in ops[:2]], 0
        elif name == 'ecall':
            reads, writes = [register('a7'), register('a0')], 0
        else:
            reads, writes = [register(o) for o in ops[1:] if o in ABI or o[0] == 'x'], register(ops[0]) if ops else 0
        targets = [(number(ops[-1], self.labels) - CODE) // 4] if name == 'jal' or name in COMPARED else []
        return set(reads), writes, targets + [after] * (name not in ('jal', 'ebreak') and after < len(self.code))

    def live_registers(self):
        """For each instruction the registers that it reads, or that may be read after it and that it does not write."""
        live = [set() for _ in self.code]
        while True:
            more = [reads | set().union(*(live[t] for t in targets)) - {writes} for reads, writes, targets in map(self.uses, range(len(self.code)))]
            if more == live:
                return live
            live = more


# ---- a processor


class Processor:
    """A processor of a machine with this many. `quiet` says that it may not ask for its own number."""

    def __init__(self, text, processors, state, quiet):
        self.text, self.processors, self.quiet = text, processors, quiet
        self.me, self.pc, self.end, self.console, registers = state
        self.registers = list(registers)

    def state(self):
        live = () if self.end else self.text.live[(self.pc - CODE) // 4]
        kept = () if self.end else tuple(value * (r in live) for r, value in enumerate(self.registers))
        return self.me, self.pc, self.end, self.console, kept

    def put(self, name, value):
        if register(name):
            self.registers[register(name)] = value % TOP

    def get(self, name):
        return self.registers[register(name)]

    def word(self):
        """The shared word to which it refers next. None if it has stopped or spins."""
        name, ops = self.text.at(self.pc)
        if self.end or self.spins():
            return None
        offset, base = placed(ops[-1])
        return ((self.registers[base] + offset) % TOP - SHARED) // 4

    def refer(self, old):
        """Retires a reference to a word that had this value, and returns the value that it then has."""
        name, ops = self.text.at(self.pc)
        new = old if name == 'lw' else self.get(ops[0 if name == 'sw' else 1])
        if name in CHANGED:
            new = CHANGED[name](old, new) % TOP
        if name != 'sw':
            self.put(ops[0], old)
        self.pc += 4
        return new

    def settle(self):
        """Goes on to the next reference or to the stop, or until it returns to an earlier state of its own, and so spins."""
        seen = set()
        for _ in range(ALONE):
            if self.end or self.text.at(self.pc)[0] in REFERENCES:
                return
            here = self.pc, self.console, tuple(self.registers)
            if here in seen:
                return
            seen.add(here)
            self.step()
        raise GivenUp('alone')

    def spins(self):
        return not self.end and self.text.at(self.pc)[0] not in REFERENCES

    def step(self):
        name, ops = self.text.at(self.pc)
        if name == 'ecall':
            self.call()
            return
        if name == 'ebreak':
            self.end = 'fault 8'
            return
        goes_to = self.pc + 4
        if name == 'lui':
            self.put(ops[0], number(ops[1], self.text.labels) << 12)
        elif name == 'jal':
            self.put(ops[0], self.pc + 4)
            goes_to = number(ops[1], self.text.labels)
        elif name in COMPARED:
            goes_to = number(ops[2], self.text.labels) if COMPARED[name](self.get(ops[0]), self.get(ops[1])) else goes_to
        elif name in COMPUTED:
            self.put(ops[0], COMPUTED[name](self.get(ops[1]), self.get(ops[2])))
        else:
            computed = COMPUTED[{'slli': 'sll', 'srli': 'srl'}.get(name, name[:-1])]
            self.put(ops[0], computed(self.get(ops[1]), number(ops[2], self.text.labels) % TOP))
        self.pc = goes_to

    def call(self):
        a7, a0 = self.get('a7'), self.get('a0')
        if a7 == 0:
            self.end = f'halt {a0 % 256:02x}'
            return
        if a7 == 1:
            self.console += f'{a0 % 256:02x}'
        elif a7 == 2 and self.quiet:
            raise Asks
        else:
            self.put('a0', {2: self.me, 3: self.processors}[a7])
        self.pc += 4


# ---- the search


class Search:
    """All states that references lead to, up to exchanges. The processors' states are numbered as they are found; a state of the machine
    is the number of each processor's, and the shared words up to the last that is not zero."""

    def __init__(self, text, processors, exchanged, limit):
        self.text, self.processors, self.exchanged = text, processors, exchanged
        self.numbers, self.known, self.words, self.after, self.spinners = {}, [], [], {}, set()
        first = [self.opened(me) for me in range(processors)]
        # The processors of each class, of which the first names it.
        self.classes = [[p for p in range(processors) if first[p] == one] for one in dict.fromkeys(first)]
        self.like = {p: own for own in self.classes for p in own}
        self.find(tuple(first), limit)

    def numbered(self, processor):
        state = processor.state()
        if state not in self.numbers:
            self.numbers[state] = len(self.known)
            if processor.spins():
                self.spinners.add(len(self.known))
            self.known.append(state)
            self.words.append(processor.word())
        return self.numbers[state]

    def opened(self, me):
        """The state of a processor at its first reference. If processors are exchanged, its own number is no part of it."""
        processor = Processor(self.text, self.processors, (me, CODE, '', '', (0,) * 32), False)
        processor.settle()
        if self.exchanged:
            processor.me = 0
        return self.numbered(processor)

    def moved(self, state, p):
        """The state to which a reference of a processor leads. None if it has stopped."""
        stations, words = state
        word = self.words[stations[p]]
        if word is None:
            return None
        old = words[word] if word < len(words) else 0
        after, new = self.referred(stations[p], old)
        if new != old:
            words = list(words) + [0] * (word + 1 - len(words))
            words[word] = new
            while words and words[-1] == 0:
                words.pop()
        return self.in_order(stations, p, after), tuple(words)

    def referred(self, number, old):
        """A processor's state after its reference to a word that has this value, and the word's new value."""
        if (number, old) not in self.after:
            processor = Processor(self.text, self.processors, self.known[number], self.exchanged)
            new = processor.refer(old)
            processor.settle()
            self.after[number, old] = self.numbered(processor), new
        return self.after[number, old]

    def in_order(self, stations, p, after):
        """The states of processors after the state of one has changed, with the processors of its class in order."""
        stations = list(stations)
        stations[p] = after
        own = self.like[p]
        for place, number in zip(own, sorted(stations[q] for q in own)):
            stations[place] = number
        return tuple(stations)

    def movers(self, stations):
        """The processors, but only the first of those that are in one class and in the same state."""
        for p, number in enumerate(stations):
            own = self.like[p]
            before = own.index(p) - 1 if len(own) > 1 else -1
            if before < 0 or stations[own[before]] != number:
                yield p

    def find(self, first, limit):
        self.states, self.moves, self.moved_by = [(first, ())], [], []
        places = {self.states[0]: 0}
        for state in self.states:
            # The search does not go on from a state in which a processor spins: it leads to itself.
            spins = not self.spinners.isdisjoint(state[0])
            targets, moved_by = {places[state]: True} if spins else {}, {}
            for p in () if spins else self.movers(state[0]):
                then = self.moved(state, p)
                if then is None:
                    continue
                if then not in places:
                    places[then] = len(self.states)
                    self.states.append(then)
                targets[places[then]] = True
                moved_by[p] = places[then]
            self.moves.append(list(targets))
            self.moved_by.append(moved_by)
            if len(self.states) >= limit:
                raise GivenUp('states')

    def results(self):
        """Each result once: how each processor stopped, those of a class in order, and the words."""
        results = {}
        for stations, words in self.states:
            processors = [self.known[number][1:4] for number in stations]
            if all(end for _, end, _ in processors):
                for own in self.classes:
                    for place, processor in zip(own, sorted((processors[q] for q in own), key=order_of)):
                        processors[place] = processor
                results.setdefault((tuple(processors), words))
        return list(results)

    def ways_on(self):
        """The verdict on schedules, and whether there is a state from which no end can be reached."""
        if self.spread(lambda targets, held: all(t in held for t in targets)) == len(self.states):
            return 'every schedule ends', False
        stuck = len(self.states) - self.spread(lambda targets, held: not targets or any(t in held for t in targets))
        if stuck == 0:
            return 'some schedule never ends; an end can always be reached', False
        return 'from ' + counted(stuck, 'state') + ' no end can be reached', True

    def fairness(self):
        """The verdict on fair schedules, of a search without exchanges."""
        of = components(self.moves)
        stays = {}
        for at, moved_by in enumerate(self.moved_by):
            movers = stays.setdefault(of[at], set())
            movers.update(p for p, target in moved_by.items() if of[target] == of[at])
        if not all(self.spinners.isdisjoint(stations) for stations, _ in self.states):
            return 'some fair schedule may never end'
        if any(moved_by and stays[of[at]].issuperset(moved_by) for at, moved_by in enumerate(self.moved_by)):
            return NEVER_ENDS
        return 'every fair schedule ends'

    def lasso(self, stem, cycle):
        """Whether the moves of the stem lead from the first state to one from which those of the cycle lead back to it, and each
        processor that has a move there is in the cycle."""
        at = self.place_after(0, stem)
        return bool(cycle) and at is not None and self.place_after(at, cycle) == at and set(self.moved_by[at]) <= set(cycle)

    def place_after(self, at, movers):
        """The place to which moves of these processors lead, one after another, if they all have one."""
        for p in movers:
            at = None if at is None else self.moved_by[at].get(p)
        return at

    def spread(self, ready):
        """The number of states of which something holds: of each that is `ready`, given those of which it holds already. It is found
        backwards, from the states without successors."""
        before = [[] for _ in self.states]
        for at, targets in enumerate(self.moves):
            for target in targets:
                before[target].append(at)
        held, front = set(), [at for at, targets in enumerate(self.moves) if not targets]
        while front:
            at = front.pop()
            if at not in held and ready(self.moves[at], held):
                held.add(at)
                front += before[at]
        return len(held)


def components(moves):
    """The strongly connected component of each state, by Tarjan's algorithm."""
    number, low, of, path, on_path = {}, {}, {}, [], set()
    for root in range(len(moves)):
        if root in number:
            continue
        work = [(root, iter(moves[root]))]
        number[root] = low[root] = len(number)
        path.append(root)
        on_path.add(root)
        while work:
            at, targets = work[-1]
            for target in targets:
                if target not in number:
                    number[target] = low[target] = len(number)
                    path.append(target)
                    on_path.add(target)
                    work.append((target, iter(moves[target])))
                    break
                if target in on_path:
                    low[at] = min(low[at], number[target])
            else:
                work.pop()
                if work:
                    low[work[-1][0]] = min(low[work[-1][0]], low[at])
                if low[at] == number[at]:
                    while True:
                        state = path.pop()
                        on_path.remove(state)
                        of[state] = at
                        if state == at:
                            break
    return of


def rank_of(end):
    """Halts come in the order of their bytes, and after them faults in the order of their numbers."""
    kind, value = end.split()
    return (0, int(value, 16)) if kind == 'halt' else (1, int(value))


def order_of(processor):
    pc, end, console = processor
    return pc, rank_of(end), console


def searched(text, processors, each, limit):
    """The search, with exchanges unless each result is wanted, or a processor asks for its number after a reference."""
    if not each:
        try:
            return Search(text, processors, True, limit)
        except Asks:
            pass
    return Search(text, processors, False, limit)


# ---- what is printed


def counted(count, noun):
    return f'{count} {noun}' + 's' * (count != 1)


def runs_of(own):
    """`0, 2, 5 to 7`."""
    runs = []
    for p in own:
        if runs and runs[-1][-1] == p - 1:
            runs[-1].append(p)
        else:
            runs.append([p])
    return ', '.join(str(run[0]) if len(run) == 1 else f'{run[0]} to {run[-1]}' for run in runs)


def exit_status(results, is_stuck):
    faulted = any(end.startswith('fault') for processors, _ in results for _, end, _ in processors)
    return int(faulted or is_stuck)


def lines_of_lasso(search, shown):
    """The last two lines of a file, if they are those of a lasso that some fair schedule follows."""
    lines = pathlib.Path(shown).read_text(encoding='utf-8').splitlines()[-2:]
    words = [line.split(' ') for line in lines]
    named = [word[0] for word in words] == ['stem', 'cycle']
    is_lasso = named and search.lasso(*([int(p) for p in word[1:]] for word in words))
    return lines if is_lasso else ['no lasso is shown']


def print_results(search, is_fair, shown):
    """Prints all results of a size, and returns the exit status."""
    results, (schedules, is_stuck) = search.results(), search.ways_on()
    for at, (processors, words) in enumerate(results, 1):
        print('result', at)
        for p, (pc, end, console) in enumerate(processors):
            print(f'processor {p} pc {pc:08x} {end} console {console or "-"}')
        for word, value in enumerate(words):
            if value:
                print(f'word {word} {value:08x}')
    for own in search.classes:
        if len(own) > 1:
            print(f'processors {runs_of(own)} can be exchanged')
    print(counted(len(results), 'result') + ', ' + counted(len(search.states), 'state'))
    print(schedules)
    if is_fair:
        print(search.fairness())
        if search.fairness() == NEVER_ENDS:
            print(*lines_of_lasso(search, shown), sep='\n')
    return exit_status(results, is_stuck)


def print_size(text, k, each, limit):
    """Prints the line of a size, and returns its exit status."""
    start = f'k {k}: {counted(1 << k, "processor")}, '
    try:
        search = searched(text, 1 << k, each, limit)
    except GivenUp as why:
        print(f'{start}not explored: {why}')
        print(f'ultra: {why}', file=sys.stderr)
        return 4
    results, (schedules, is_stuck) = search.results(), search.ways_on()
    ends = [end for processors, _ in results for _, end, _ in processors]
    greatest = max(ends, key=rank_of, default='-')
    print(f'{start}{counted(len(results), "result")}, {counted(len(search.states), "state")}, {schedules}, {greatest}')
    return exit_status(results, is_stuck)


def main():
    words = argparse.ArgumentParser()
    words.add_argument('text')
    words.add_argument('stages', type=int, nargs='?', default=2)
    words.add_argument('--each', action='store_true')
    words.add_argument('--fair', action='store_true')
    words.add_argument('--every', action='store_true')
    words.add_argument('--states', type=int, default=1_000_000)
    words.add_argument('--shown')
    asked = words.parse_args()
    text = Text(asked.text)
    if asked.every:
        return max([print_size(text, k, asked.each, asked.states) for k in range(7)])
    try:
        return print_results(searched(text, 1 << asked.stages, asked.each or asked.fair, asked.states), asked.fair, asked.shown)
    except GivenUp as why:
        print(f'ultra: {why}', file=sys.stderr)
        return 4


if __name__ == '__main__':
    sys.exit(main())
