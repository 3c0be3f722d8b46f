#!/usr/bin/env python3
"""pictures.py STORY FOLDER: checks FOLDER/N.svg, the picture of the machine after N steps, for each N up to the number of lines of STORY.

Each picture is XML, on a white page, and each of its texts is as wide as its box or less. Each processor whose reference is open according to
the story is in one message, and no other processor is in any. Groups are as the story last served or joined them. There are as many records
as requests that were combined into others and are not answered yet."""
import re
import sys
import xml.etree.ElementTree as tree

SVG = "{http://www.w3.org/2000/svg}"


def lines(picture, kind):
    return [it.text for it in picture.iter(SVG + "tspan") if it.get("class") == kind]


def members(line):
    found = re.search(r"\{(\d+(?: \d+)*)\}$", line)
    assert found, line
    return [int(it) for it in found[1].split()]


def boxes(picture):
    return [[int(it.get(name)) for name in ("x", "y", "width", "height")] for it in picture.iter(SVG + "rect")]


def look(picture, groups, opened, records):
    assert boxes(picture)[0] == [0, 0, int(picture.get("width")), int(picture.get("height"))], "no page"
    found = [members(line) for kind in ("request", "reply") for line in lines(picture, kind)]
    assert sorted(p for group in found for p in group) == sorted(opened), (found, sorted(opened))
    for line in lines(picture, "request"):
        assert members(line) == groups[members(line)[0]], (line, groups)
    assert len(lines(picture, "record")) == records, (lines(picture, "record"), records)
    for text in picture.iter(SVG + "text"):
        for span in text.iter(SVG + "tspan") if text.get("class") == "cell" else []:
            x, letters = int(span.get("x")), 7 * len(span.text)
            left = x - {"request": letters, "record": letters / 2}.get(span.get("class"), 0)
            y = int(text.get("y"))
            assert any(a < left and left + letters < a + w and b < y < b + h for a, b, w, h in boxes(picture)[1:]), span.text


opened, groups, records = set(), {}, 0
with open(sys.argv[1]) as story:
    told = story.read().splitlines()
for number in range(len(told) + 1):
    try:
        look(tree.parse(f"{sys.argv[2]}/{number}.svg").getroot(), groups, opened, records)
    except (AssertionError, tree.ParseError) as fault:
        sys.exit(f"after {number} steps: {fault}")
    if number < len(told):
        words = told[number].replace(":", "").split()
        if words[1] == "turn":
            (opened.add if words[3] == "sends" else opened.discard)(int(words[2]))
            groups[int(words[2])] = [int(words[2])]
        joined = re.search(r" (\d+) joins (\d+) ", told[number])
        if joined:
            groups[int(joined[2])] += groups[int(joined[1])]
        records += (" joins " in told[number]) - (" answers " in told[number])
