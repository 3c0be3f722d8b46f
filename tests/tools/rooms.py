#!/usr/bin/env python3
"""Prints the SVG docs/rooms.svg: the rooms of crates.txt, lowest at the bottom. An arrow goes from a room to each room that it builds on,
except for those that it reaches by way of another."""
import html
import os
import sys

WIDTH, GAP, MARGIN, LINE, HEAD, LETTERS = 300, 70, 30, 16, 26, 38
LEFT_OUT = "Tests and benchmarks"


def read(path):
    """Returns the rooms, each with its crates, and what each room builds on."""
    rooms, room_of, uses = {}, {}, {}
    with open(path, encoding="utf-8") as file:
        for line in file.read().splitlines()[1:]:
            if line.startswith("# "):
                room = line[2:]
                rooms[room] = []
            elif line[:1].isalpha():
                head, _, below = line.partition(":")
                crate = head.split()[0]
                rooms[room].append(crate)
                room_of[crate] = room
                uses[crate] = below.split()
    del rooms[LEFT_OUT]
    builds_on = {room: set() for room in rooms}
    for room, crates in rooms.items():
        for crate in crates:
            builds_on[room] |= {room_of[it] for it in uses[crate] if it in room_of and room_of[it] != room}
    return rooms, builds_on


def reached(builds_on, room):
    found, left = set(), list(builds_on[room])
    while left:
        it = left.pop()
        if it not in found:
            found.add(it)
            left += builds_on[it]
    return found


def lines_of(crates):
    """Returns the names of crates, as many on a line as there is room for."""
    lines = [""]
    for crate in crates:
        if lines[-1] and len(lines[-1]) + 1 + len(crate) > LETTERS:
            lines.append("")
        lines[-1] = f"{lines[-1]} {crate}".strip()
    return lines


def drawing(rooms, builds_on):
    direct = {room: {it for it in below if not any(it in reached(builds_on, other) for other in below)} for room, below in builds_on.items()}
    layer = {}
    for room in rooms:  # lowest first
        layer[room] = max((layer[it] + 1 for it in builds_on[room]), default=0)
    # A room that nothing forces down goes just below the lowest room that builds on it.
    for room in reversed(list(rooms)):
        above = [layer[it] for it in rooms if room in builds_on[it]]
        if above:
            layer[room] = min(above) - 1
    # An arrow past a row takes a place in it, so that it goes between the rooms.
    rows = [[room for room in rooms if layer[room] == at] for at in range(max(layer.values()) + 1)]
    paths = []
    for room in rooms:
        for other in sorted(direct[room], key=list(rooms).index):
            between = [(room, other, at) for at in range(layer[room] - 1, layer[other], -1)]
            for it in between:
                rows[it[2]].insert(0, it)
            paths.append([room, *between, other])
    width = 2 * MARGIN + max(len(row) for row in rows) * (WIDTH + GAP) - GAP
    place, y = {}, MARGIN
    for row in reversed(rows):
        height = max(HEAD + LINE * len(lines_of(rooms[it])) + 8 if it in rooms else 0 for it in row)
        x = (width - len(row) * (WIDTH + GAP) + GAP) / 2
        for it in row:
            place[it] = (x, y, height)
            x += WIDTH + GAP
        y += height + 40
    height = y - 40 + MARGIN
    out = [
        f'<svg xmlns="http://www.w3.org/2000/svg" viewBox="0 0 {width:g} {height:g}" width="{width:g}" height="{height:g}" role="img">',
        "<title>The rooms of the repository, each with its crates, and what each builds on</title>",
        '<defs><marker id="end" viewBox="0 0 8 8" refX="7" refY="4" markerWidth="8" markerHeight="8" orient="auto">'
        '<path d="M0 0 8 4 0 8z" fill="#456"/></marker></defs>',
        '<rect width="100%" height="100%" fill="#fff"/>',
    ]
    for path in paths:
        x, y, high = place[path[0]]
        line = f"M{x + WIDTH / 2:g} {y + high:g}"
        y += high
        for it in path[1:]:
            left, top, high = place[it]
            end = top - 2 if it == path[-1] else top
            line += f" C{x + WIDTH / 2:g} {y + 30:g} {left + WIDTH / 2:g} {end - 28:g} {left + WIDTH / 2:g} {end:g}"
            if it != path[-1]:
                line += f" L{left + WIDTH / 2:g} {top + high:g}"
            x, y = left, top + high
        out.append(f'<path d="{line}" fill="none" stroke="#456" stroke-width="1.5" marker-end="url(#end)"/>')
    place = {room: place[room] for room in rooms}
    for room, (x, y, high) in place.items():
        out.append(f'<rect x="{x:g}" y="{y:g}" width="{WIDTH}" height="{high:g}" rx="8" fill="#eef3f8" stroke="#456"/>')
        out.append(
            f'<text x="{x + WIDTH / 2:g}" y="{y + 18:g}" text-anchor="middle" font-family="sans-serif" font-size="14" font-weight="bold">'
            f"{html.escape(room)}</text>"
        )
        for at, line in enumerate(lines_of(rooms[room])):
            out.append(
                f'<text x="{x + WIDTH / 2:g}" y="{y + HEAD + 12 + LINE * at:g}" text-anchor="middle" font-family="monospace" '
                f'font-size="12">{html.escape(line)}</text>'
            )
    return "\n".join([*out, "</svg>", ""])


if __name__ == "__main__":
    sys.stdout.write(drawing(*read(os.path.join(os.path.dirname(os.path.abspath(__file__)), "..", "..", "crates.txt"))))
