#!/usr/bin/env python3
"""on_a_terminal.py SECONDS COMMAND WORD ..: runs a command whose standard error is a terminal.

Prints what the command writes there, with control characters as in a Python string, and discards its standard output. The exit status is
that of the command. After the command has worked for a moment, it is stopped for SECONDS, so that it takes longer than that on any host."""

import os
import pty
import signal
import subprocess
import sys
import time

held = float(sys.argv[1])
ours, theirs = pty.openpty()
command = subprocess.Popen(sys.argv[2:], stdin=subprocess.DEVNULL, stdout=subprocess.DEVNULL, stderr=theirs)
os.close(theirs)
while command.poll() is None:
    # Fields 14 and 15 are its processor time, in ticks of 10 ms. Field 2, its name, ends with a bracket.
    with open(f"/proc/{command.pid}/stat") as line:
        fields = line.read().rpartition(")")[2].split()
    if int(fields[11]) + int(fields[12]) >= 3:
        command.send_signal(signal.SIGSTOP)
        time.sleep(held)
        command.send_signal(signal.SIGCONT)
        break
    time.sleep(0.001)
written = b""
while True:
    try:
        some = os.read(ours, 4096)
    except OSError:
        # No other end is open any more.
        break
    if not some:
        break
    written += some
print(repr(written.decode())[1:-1])
sys.exit(command.wait())
