#!/usr/bin/env python3
"""Works out what processor 0 of a program of examples/c prints, in another way than the program does.

    tests/tools/c_examples.py PROGRAM COUNT [NAME=VALUE ..]

COUNT is how many processors there are. NAME=VALUE sets a size, as -DNAME=VALUE does for the program."""
import fractions
import itertools
import math
import sys


def tasks(_, QUEENS=6, **__):
    """Tries each choice of distinct columns for the first rows. Two queens attack each other on a diagonal."""

    def is_safe(columns):
        return all(abs(a - b) != j - i for (i, a), (j, b) in itertools.combinations(enumerate(columns), 2))

    boards = [c for rows in range(QUEENS + 1) for c in itertools.permutations(range(QUEENS), rows) if is_safe(c)]
    solutions = sum(len(columns) == QUEENS for columns in boards)
    return f"{solutions} solutions, {len(boards)} boards\n"


def bitonic_sort(_, KEYS=64):
    return lines(sorted((7 * i * i + i + 5) % 97 for i in range(KEYS)))


def heat(_, STEPS=12):
    """A step multiplies by (1 + x)^2 / 4, so STEPS of them give the binomial coefficients of (1 + x)^(2 STEPS)."""
    return lines(math.comb(2 * STEPS, i) for i in range(2 * STEPS + 1))


def allocator(count, ROUNDS=4, HELD=3, **_):
    return f"{count * ROUNDS * HELD} requests, 0 blocks lost\n"


def sieve(_, LIMIT=1000):
    primes = [n for n in range(2, LIMIT) if all(n % divisor for divisor in range(2, n))]
    return f"{len(primes)} primes, the largest {primes[-1]}\n"


def histogram(_, NUMBERS=1000, **__):
    sums = [sum(map(int, str(n))) for n in range(NUMBERS)]
    return lines(map(sums.count, range(28)))


def nbody(_, BODIES=8, STEPS=10):
    """Adds up all forces on a body before it moves, by fractions, each rounded towards zero to 1/256."""
    masses = [1 + i % 3 for i in range(BODIES)]
    places = [(2 * (i * 5 % 7 - 3), 2 * (i * 3 % 8 - 4)) for i in range(BODIES)]
    momenta = [(0, 0)] * BODIES

    def fixed(number):
        return fractions.Fraction(int(256 * number), 256)

    def impulse(i, j, axis):
        squared_distance = sum((places[j][a] - places[i][a]) ** 2 for a in (0, 1))
        force = fractions.Fraction(masses[i] * masses[j], 4) * (places[j][axis] - places[i][axis]) / (squared_distance + 1)
        return fixed(force)

    for _ in range(STEPS):
        momenta = [
            tuple(momenta[i][axis] + sum(impulse(i, j, axis) for j in range(BODIES) if j != i) for axis in (0, 1))
            for i in range(BODIES)
        ]
        places = [tuple(places[i][axis] + fixed(momenta[i][axis] / masses[i]) for axis in (0, 1)) for i in range(BODIES)]
    assert [sum(momentum) for momentum in zip(*momenta)] == [0, 0]
    return "".join(f"{int(256 * x)} {int(256 * y)}\n" for x, y in places)


def lines(numbers):
    return "".join(f"{number}\n" for number in numbers)


def main():
    program, count, *sizes = sys.argv[1:]
    sizes = {name: int(value) for name, value in (size.split("=") for size in sizes)}
    print(globals()[program](int(count), **sizes), end="")


main()
