#!/usr/bin/env python3
"""exchanged.py FOUND EACH: compares what `ultra explore` printed for a program, FOUND, with what it printed with --each, EACH.

The results of EACH have to be those of FOUND with the processors that can be exchanged in every order, and each has to come from one
result of FOUND alone. If not, prints what is wrong and ends with status 1."""
import re
import sys


def read(path):
    """The results, each its processors and its words, and the classes of processors that can be exchanged."""
    results, classes = [], []
    for line in open(path):
        name, _, rest = line.rstrip('\n').partition(' ')
        if name == 'result':
            results.append(([], []))
        elif name == 'processor':
            results[-1][0].append(rest.partition(' ')[2])
        elif name == 'word':
            results[-1][1].append(rest)
        elif name == 'processors':
            runs = re.fullmatch('(.*) can be exchanged', rest)[1].split(', ')
            ends = [[int(end) for end in run.split(' to ')] for run in runs]
            classes.append([p for run in ends for p in range(run[0], run[-1] + 1)])
    return results, classes


def orders(items):
    """Every order of some items, each once."""
    if not items:
        yield ()
    for item in dict.fromkeys(items):
        rest = list(items)
        rest.remove(item)
        for order in orders(rest):
            yield item, *order


def exchanges(processors, classes):
    """The processors after every exchange."""
    if not classes:
        yield tuple(processors)
        return
    own = classes[0]
    for order in orders([processors[p] for p in own]):
        exchanged = list(processors)
        for p, processor in zip(own, order):
            exchanged[p] = processor
        yield from exchanges(exchanged, classes[1:])


def main():
    (found, classes), (each, singles) = map(read, sys.argv[1:])
    if singles or not each:
        return 'with --each there is a class, or no result'
    left = {(tuple(processors), tuple(words)) for processors, words in each}
    if len(left) != len(each):
        return 'a result is listed twice with --each'
    for at, (processors, words) in enumerate(found, 1):
        for exchanged in exchanges(processors, classes):
            if (exchanged, tuple(words)) not in left:
                return f'result {at} stands for one that is not listed with --each, or for one that another result stands for'
            left.remove((exchanged, tuple(words)))
    if left:
        return 'for a result that is listed with --each no result stands'
    return 0


if __name__ == '__main__':
    sys.exit(main())
