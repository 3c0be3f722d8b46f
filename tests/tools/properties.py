#!/usr/bin/env python3
"""What `ultra explore` prints first for a property of a text, found by the independent search of every_result.py.

    properties.py TEXT STAGES KIND CONDITION
    properties.py TEXT report KIND CONDITION
    properties.py TEXT filter CONDITION

KIND is never, always or finally. An address in the condition may be a label of the text, or a label and a number of bytes after it, as
`inside+12`: it is replaced by the address before it is printed. Instead of the exit status 4 for a verdict that is not known, it prints
`not known`.

With `report` it prints `broken` if the state in the report on standard input breaks the property, and else `kept`. With `filter` it prints what
`ultra explore --filter CONDITION` does, given what `ultra explore` prints on standard input.
"""
import operator
import re
import sys

import every_result

RELATIONS = {'==': operator.eq, '!=': operator.ne, '<': operator.lt, '<=': operator.le, '>': operator.gt, '>=': operator.ge}


def placed(text, condition):
    """The condition, with addresses in place of labels."""
    def address(match):
        return hex(text.labels[match[1]] + int(match[2] or 0))
    names = '|'.join(sorted(text.labels, key=len, reverse=True)) or '$^'
    return re.sub(rf'\b({names})(?:\+(\d+))?(?=[ -])', address, condition)


def holds(part, processors, words):
    """Whether a part holds, of processors as pairs of their pc and how they stopped, or ''."""
    fields = part.split()
    if fields == ['any', 'fault']:
        return any(end.startswith('fault') for _, end in processors)
    if fields[0] == 'word':
        place = int(fields[1], 0)
        count = words[place] if place < len(words) else 0
    elif fields[0] == 'at':
        first, _, last = fields[1].partition('-')
        count = sum(not end and int(first, 0) <= pc <= int(last or first, 0) for pc, end in processors)
    else:
        begin = {'running': '', 'halted': 'halt', 'faulted': 'fault'}[fields[0]]
        count = sum(end.startswith(begin) if begin else not end for _, end in processors)
    return RELATIONS[fields[-2]](count, int(fields[-1], 0))


def satisfies(condition, processors, words):
    """Whether a state satisfies a condition."""
    return any(all(holds(part, processors, words) for part in one.split('&')) for one in condition.split('|'))


def breaks(kind, condition, processors, words):
    """Whether a state breaks the property."""
    held = satisfies(condition, processors, words)
    is_over = all(end for _, end in processors)
    return held if kind == 'never' else not held and (kind == 'always' or is_over)


def reported(lines):
    """The processors and the words of a report."""
    processors, words = [], {}
    for line in lines:
        fields = line.split()
        if fields[0] == 'processor':
            processors.append((int(fields[3], 16), '' if fields[4] == 'run' else ' '.join(fields[4:6])))
        else:
            words[int(fields[1])] = int(fields[2], 16)
    return processors, [words.get(number, 0) for number in range(max(words, default=-1) + 1)]


def filtered(condition, lines):
    """The lines for results of which those that satisfy the condition are left, and a line that says how many they are."""
    results = [place for place, line in enumerate(lines) if line.startswith('result ')]
    end = next(place for place, line in enumerate(lines) if re.match(r'processors |\d+ results?, ', line))
    blocks = [lines[start:after] for start, after in zip(results, results[1:] + [end])]
    left = [block for block in blocks if satisfies(condition, *reported(block[1:]))]
    count = f"{len(left)} of {len(blocks)} result{'s' * (len(blocks) != 1)} {'is' if len(left) == 1 else 'are'} printed\n"
    return [line for block in left for line in block] + [count] + lines[end:]


def main():
    path, stages, *kind, condition = sys.argv[1:]
    text = every_result.Text(path)
    condition = placed(text, condition)
    if stages == 'filter':
        sys.stdout.writelines(filtered(condition, sys.stdin.readlines()))
        return
    kind = kind[0]
    if stages == 'report':
        print('broken' if breaks(kind, condition, *reported(sys.stdin)) else 'kept')
        return
    search = every_result.searched(text, 1 << int(stages), False, 1_000_000)
    spins = any(not search.spinners.isdisjoint(stations) for stations, _ in search.states)
    verdict = 'not known' if spins and kind != 'finally' else 'holds'
    for stations, words in search.states:
        processors = [search.known[number][1:3] for number in stations]
        if breaks(kind, condition, processors, words):
            verdict = 'broken'
    print(f'{kind} {condition}: {verdict}')


main()
