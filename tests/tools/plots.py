#!/usr/bin/env python3
"""plots.py CSV SVG COLUMN: checks a plot of `ultra study` against the rows in CSV.

The plot is XML, on a white page. Each line has the points of one b and r, at the place of their processors and as high as their numbers on
the axis, and a mark of the run's end on each. No text overlaps another or leaves the page."""
import csv
import sys
import xml.etree.ElementTree as tree

SVG = "{http://www.w3.org/2000/svg}"


def numbers(it, *names):
    return [int(it.get(name)) for name in names]


with open(sys.argv[1], newline="") as file:
    rows = list(csv.DictReader(file))
picture = tree.parse(sys.argv[2]).getroot()
column = sys.argv[3]
texts = [(it, numbers(it, "x", "y"), it.get("class") or "") for it in picture.iter(SVG + "text")]
width, height = numbers(picture, "width", "height")
assert numbers(next(picture.iter(SVG + "rect")), "width", "height") == [width, height], "no page"

# ---- the axes: numbers at equal distances, from 0 on, and the numbers of processors

labels = sorted((y - 8, float(it.text)) for it, (_, y), kind in texts if kind == "right")
(low, nothing), (next_to_low, step) = labels[-1], labels[-2]
assert nothing == 0 and step > 0, labels
assert all(low - y == round(number / step) * (low - next_to_low) for y, number in labels), labels
assert f"{step:e}"[0] in "125" and float(f"{step:e}".split("e")[0]) in (1, 2, 5), step
assert sorted(y for y, _ in labels) == sorted(numbers(it, "y1")[0] for it in picture.iter(SVG + "line") if it.get("class") == "grid")
across = {int(it.text): x for it, (x, y), kind in texts if kind == "middle" and it.text.isdigit()}
assert list(across) == [1, 2, 4, 8, 16, 32, 64] and len({b - a for a, b in zip(list(across.values()), list(across.values())[1:])}) == 1, across


def place(row):
    down = (low - next_to_low) * float(row[column]) / step
    return across[int(row["processors"])], low - down


# ---- a line for each b and r, with its mark for each run

pairs = list(dict.fromkeys((row["b"], row["r"]) for row in rows))
legend = [it.text for it, _, kind in texts if kind == "" and it.text.startswith("b ")]
assert legend == [f"b {b} r {r}" for b, r in pairs], legend
lines = list(picture.iter(SVG + "polyline"))
keys = [it for it in picture.iter(SVG + "line") if (it.get("class") or "").startswith("key ")]
marks = list(picture.iter(SVG + "circle"))
assert len(lines) == len(pairs) == len(keys) and len(marks) == len(rows), (len(lines), len(marks))
assert len({it.get("class") for it in lines}) == len(lines), "two lines look the same"
for line, key, pair in zip(lines, keys, pairs):
    assert key.get("class") == "key " + line.get("class")
    own = [row for row in rows if (row["b"], row["r"]) == pair]
    points = [tuple(map(int, it.split(","))) for it in line.get("points").split()]
    assert len(points) == len(own), (pair, points)
    for (x, y), row, mark in zip(points, own, marks):
        wanted = place(row)
        assert x == wanted[0] and wanted[1] <= y < wanted[1] + 1.01, (row, (x, y), wanted)
        assert numbers(mark, "cx", "cy") == [x, y] and mark.get("class").split()[1] == row["end"], row
    marks = marks[len(own):]
assert max(float(row[column]) for row in rows) <= 4 * step and (step == min(1, step) or max(float(row[column]) for row in rows) > 4 * step / 2.5)

# ---- texts, 24 or 18 pixels high, of letters that are no wider than 0.62 of that


def box(it, place, kind):
    size = 18 if kind == "small" else 24
    wide = 0.62 * size * len(it.text)
    left = place[0] - {"right": wide, "middle": wide / 2}.get(kind, 0)
    return left, place[1] - size * 0.8, left + wide, place[1] + size * 0.25


boxes = [(it.text, box(it, at, kind)) for it, at, kind in texts]
for number, (text, (a, b, c, d)) in enumerate(boxes):
    assert 0 <= a and c <= width and 0 <= b and d <= height, f"'{text}' leaves the page"
    for other, (e, f, g, h) in boxes[:number]:
        assert c <= e or g <= a or d <= f or h <= b, f"'{text}' overlaps '{other}'"
