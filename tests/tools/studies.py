#!/usr/bin/env python3
"""studies.py FOLDER CSV TABLE JSON: compares the rows of `ultra study` in three formats with runs of their own.

For each row K B R of CSV, FOLDER/K-B-R.stats is what `ultra stats --latency` printed of a trace of that run by the sweep, and
FOLDER/K-B-R.status the exit status of `ultra run`. Prints how many rows there were."""
import csv
import json
import pathlib
import re
import sys

COLUMNS = "k b r processors end steps rounds references serve combined requests records replies mean".split()


def numbers(line):
    """The numbers of a line, each by the word before it."""
    return {word: number for word, number in re.findall(r"([a-z]+) ([0-9.]+)(?= |$)", line)}


def row_of(folder, k, b, r):
    """The row of a run, from the statistics of its steps."""
    stats = (folder / f"{k}-{b}-{r}.stats").read_text().splitlines()
    status = (folder / f"{k}-{b}-{r}.status").read_text().strip()
    assert numbers(stats[0])["k"] == k and numbers(stats[0])["b"] == b and numbers(stats[0])["r"] == r, stats[0]
    total = numbers(stats[1])
    stages = [numbers(line) for line in stats if line.startswith("stage ")]
    latency = next((numbers(line) for line in stats if line.startswith("latency all ")), {"references": "0", "mean": "0.00"})
    assert len(stages) == int(k), stages
    most = {name: max([int(it[name]) for it in stages], default=0) for name in ("requests", "records", "replies")}
    end = {"0": "over", "1": "fault", "4": "budget"}[status]
    return [k, b, r, str(2 ** int(k)), end, total["steps"], total["rounds"], latency["references"], total["serve"],
            str(sum(int(it["combined"]) for it in stages)), str(most["requests"]), str(most["records"]), str(most["replies"]), latency["mean"]]


folder = pathlib.Path(sys.argv[1])
with open(sys.argv[2], newline="") as file:
    header, *rows = csv.reader(file)
assert header == COLUMNS, header
for row in rows:
    wanted = row_of(folder, *row[:3])
    assert row == wanted, f"found {row} instead of {wanted}"

# ---- the table has the same cells, and columns that are aligned on the right

table = pathlib.Path(sys.argv[3]).read_text().splitlines()
assert [line.split() for line in table] == [header, *rows], "the table has other cells"
ends = [[cell.end() for cell in re.finditer(r"\S+", line)] for line in table]
assert all(it == ends[0] for it in ends), "columns are not aligned on the right"

# ---- and so have the objects

objects = [json.loads(line, parse_float=str) for line in pathlib.Path(sys.argv[4]).read_text().splitlines()]
assert [list(it) for it in objects] == [["kind", *COLUMNS]] * len(rows) and all(it["kind"] == "study" for it in objects), "other members"
assert [[str(it[name]) for name in COLUMNS] for it in objects] == rows, "the objects have other values"
print(len(rows))
