#!/usr/bin/env python3
"""trace_text.py TRACE: prints a trace as docs/COMMANDS.md says that `ultra trace` does, read by the table of records."""

import struct
import sys

data = open(sys.argv[1], "rb").read()
k, c, b = data[5:8]
long = data[4] == 2
print(f"machine k {k} c {c} b {b} r {data[8] if long else 1}")
for kind, x, y, _, address, value in struct.iter_unpack("<4B2I", data[16 if long else 12 :]):
    register = "pc" if y == 32 else f"x{y}"
    print(
        {
            1: f"turn {x}",
            2: f"up {x} {y}",
            3: f"serve {x}",
            4: f"down {x} {y}",
            5: f"poke {x} {register} {value:08x}",
            6: f"poke {x} {address:08x} {value:02x}",
            7: f"poke - {address:08x} {value:02x}",
        }[kind]
    )
