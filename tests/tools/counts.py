#!/usr/bin/env python3
"""counts.py < LINES: prints what `ultra stats --csv` prints, from the lines of `ultra stats`."""
import csv
import sys

rows = csv.writer(sys.stdout, lineterminator="\n")
rows.writerow(["subject", "number", "count", "value"])
for line in sys.stdin:
    words = line.split()
    subject, number = words[0], ""
    items = "rounds" if subject == "latency" else "groups"
    if subject == "latency":
        if words[1] != "all":
            subject, number = words[1:3]
        words = [word for word in words[2 if words[1] == "all" else 3:] if word != "rounds"]
    elif subject in ("stage", "module", "processor"):
        number = words[1]
        words = words[2:]
    elif subject == "machine":
        words = words[1:]
    while words:
        if "x" in words[0]:
            size, count = words.pop(0).split("x")
            rows.writerow([subject, number, f"{items} of {size}", count])
        else:
            rows.writerow([subject, number, *words[:2]])
            words = words[2:]
