#!/usr/bin/env python3
"""Sends lines to a debugger's session (`ultra debug`) and prints the replies.

    debug_client.py [--symbols FILE] PORT [LINE ..]

Each argument after the port is a line; without arguments, the lines come from standard input. A line is sent after the
reply to the one before it. FILE is what `nm` prints of the image. With it, `@NAME` or `@NAME+HEX` in a line stands for
an address, as in `break @push` or `mem 0 @count+4 4`, and a reply that is a `pc` gets the place of that address, as in
`00010004 <push+0x4>`.

The exit status is 0; or 1 if the session ends before a reply comes, or there is no session at this port; or 2 if the
arguments are wrong, FILE cannot be read, or a name is not in it.
"""

import re
import socket
import sys

# A line of `nm` or `nm -S`: the address, perhaps the size, the kind of the symbol, and its name.
SYMBOL = re.compile(r"([0-9a-f]{8,16}) (?:([0-9a-f]{8,16}) )?([A-Za-z]) (\S+)$")
NAME = re.compile(r"@([^ +]+)(?:\+([0-9a-fA-F]{1,8}))?")
READS_PC = re.compile(r"reg [0-9a-fA-F]{1,8} 0*20$")


class Symbols:
    """The names of addresses. A symbol without a size reaches up to the next one."""

    def __init__(self, lines):
        found = (SYMBOL.match(line.rstrip("\n")) for line in lines)
        rows = [(int(it[1], 16), int(it[2] or "0", 16), it[4]) for it in found if it]
        self.rows = sorted(rows, key=lambda row: row[0])

    def address(self, name, offset):
        """The address, as hex digits, of the last symbol with this name, and as many bytes on as the digits say."""
        addresses = [row[0] for row in self.rows if row[2] == name]
        if not addresses:
            raise KeyError(name)
        return f"{(addresses[-1] + int(offset or '0', 16)) % 2**32:x}"

    def place(self, address):
        """The place of an address as `objdump` writes it; nothing if no symbol stands for it."""
        below = [row for row in self.rows if row[0] <= address]
        if not below or 0 < below[-1][1] <= address - below[-1][0]:
            return ""
        offset = address - below[-1][0]
        return f" <{below[-1][2]}+0x{offset:x}>" if offset else f" <{below[-1][2]}>"

    def line(self, text):
        """A line with addresses for its names."""
        return NAME.sub(lambda found: self.address(found[1], found[2]), text)

    def reply(self, line, text):
        """The reply to a line, with the place of a pc."""
        is_pc = READS_PC.match(line) and re.fullmatch("[0-9a-f]{8}", text)
        return text + self.place(int(text, 16)) if is_pc else text


def lines_of(arguments):
    """The lines to send, without their line feeds."""
    if arguments:
        yield from arguments
    else:
        for line in sys.stdin:
            yield line.rstrip("\n")


def talk(port, lines, symbols):
    """Sends each line and prints its reply; false if the session ends before a reply."""
    with socket.create_connection(("127.0.0.1", port)) as link, link.makefile("rb") as replies:
        for line in lines:
            sent = symbols.line(line)
            link.sendall(sent.encode() + b"\n")
            reply = replies.readline()
            if not reply.endswith(b"\n"):
                return False
            print(symbols.reply(sent, reply.decode("ascii").rstrip("\n")), flush=True)
    return True


def main():
    arguments = sys.argv[1:]
    symbols = Symbols([])
    if arguments[:1] == ["--symbols"] and len(arguments) > 1:
        try:
            with open(arguments[1], encoding="utf-8", errors="replace") as file:
                symbols = Symbols(file)
        except OSError as error:
            print(f"debug_client.py: {error}", file=sys.stderr)
            return 2
        arguments = arguments[2:]
    if not arguments or not arguments[0].isdecimal():
        print(__doc__, file=sys.stderr)
        return 2
    try:
        if talk(int(arguments[0]), lines_of(arguments[1:]), symbols):
            return 0
        print("debug_client.py: the session has ended", file=sys.stderr)
    except KeyError as error:
        print(f"debug_client.py: no symbol {error}", file=sys.stderr)
        return 2
    except (OSError, OverflowError) as error:
        print(f"debug_client.py: {error}", file=sys.stderr)
    return 1


if __name__ == "__main__":
    sys.exit(main())
