#!/usr/bin/env python3
"""symbols.py COMMAND [FILE] [--abi] < LINES: prints what `ultra COMMAND` prints with `--symbols FILE`, or with `--abi`, from
what it prints without them.

FILE is an ELF file, whose symbol table is read here by the rules of the System V ABI, or what nm prints. COMMAND is run,
hunt, explore, order, story or dis: `replay` prints what `run` prints. Without FILE, nothing has a name. If COMMAND is
`picture`, LINES is an SVG, and only its texts are printed."""
import re
import struct
import sys
import xml.etree.ElementTree as tree

SHARED_WORDS = 0x80000000
NAMES = "zero ra sp gp tp t0 t1 t2 s0 s1 a0 a1 a2 a3 a4 a5 a6 a7 s2 s3 s4 s5 s6 s7 s8 s9 s10 s11 t3 t4 t5 t6".split()
BRANCHES = {"beq", "bne", "blt", "bge", "bltu", "bgeu", "jal"}
HEX = "[0-9a-f]{8}"


def is_name(name):
    return name.isascii() and bool(re.fullmatch("[!-~]+", name)) and not name.startswith(("$", ".L"))


def elf_symbols(data):
    """The rows of the first symbol table: address, size, name."""
    offset, = struct.unpack_from("<I", data, 32)
    size, count = struct.unpack_from("<HH", data, 46)
    sections = [struct.unpack_from("<10I", data, offset + size * number) for number in range(count)]
    table = next((it for it in sections if it[1] == 2), None)
    if table is None:
        return
    strings = data[sections[table[6]][4]:][:sections[table[6]][5]]
    for at in range(table[4], table[4] + table[5], 16):
        name, value, length, info, _, section = struct.unpack_from("<IIIBBH", data, at)
        text = strings[name:strings.index(b"\0", name)].decode("latin-1")
        if info % 16 in (0, 1, 2) and 0 < section < 0xff00 and is_name(text):
            yield value, length, text


def nm_symbols(text):
    for line in text.split("\n"):
        found = re.fullmatch(r"([0-9a-fA-F]+) (?:([0-9a-fA-F]+) )?([A-Za-z]) (\S+)", line)
        if found and is_name(found[4]):
            yield int(found[1], 16), int(found[2] or "0", 16), found[4]


def symbols_of(path):
    with open(path, "rb") as file:
        data = file.read()
    rows = elf_symbols(data) if data.startswith(b"\x7fELF") else nm_symbols(data.decode("latin-1"))
    return sorted(rows, key=lambda row: row[0])


def place(rows, address):
    """The last symbol at or below the address, and the offset from it, unless the address lies past it."""
    below = [row for row in rows if row[0] <= address]
    if not below or 0 < below[-1][1] <= address - below[-1][0]:
        return None
    offset = address - below[-1][0]
    return below[-1][2], f"+0x{offset:x}" if offset else ""


def after_address(rows, text):
    name = place(rows, int(text, 16))
    return f"{text} <{name[0]}{name[1]}>" if name else text


def after_word(rows, text):
    name = place(rows, SHARED_WORDS + 4 * int(text))
    return f"{text} ({name[0]}{name[1]})" if name else text


def by_abi(rows, address, text):
    """An instruction with the ABI's names of registers, and with the target of a jump or branch."""
    named = re.sub(r"\bx([0-9]+)\b", lambda found: NAMES[int(found[1])], text)
    if named.split(" ")[0] not in BRANCHES:
        return named
    head, offset = named.rsplit(" ", 1)
    return f"{head} {after_address(rows, format((int(address, 16) + int(offset)) % 2**32, '08x'))}"


def named_order(rows, abi, line):
    """A line of a serial order."""
    line = re.sub(rf"(?<= word )([0-9]+)(?= {HEX} {HEX}$)", lambda it: after_word(rows, it[1]), line)
    poke = re.fullmatch(rf"(\S+ \S+ poke )({HEX})( [0-9a-f]{{2}}\b.*)", line)
    if poke:
        return poke[1] + after_address(rows, poke[2]) + poke[3]
    turn = re.fullmatch(rf"(\S+ [0-9]+ )({HEX}) (.*?)(| = {HEX}.*| console .*| word .*)", line)
    if not turn:
        return line
    text = by_abi(rows, turn[2], turn[3]) if abi else turn[3]
    return f"{turn[1]}{after_address(rows, turn[2])} {text}{turn[4]}"


def named_listing(rows, abi, line):
    """A line of `dis`."""
    address, word, text = line.split(" ", 2)
    text, comment, name = text.partition(" # ")
    if abi:
        text = by_abi(rows, address, text)
    return f"{after_address(rows, address)} {word} {text}{comment}{name}"


def named_result(rows, _, line):
    """A line of a report, of a hunt or of all results."""
    line = re.sub(rf"^(processor [0-9]+ pc )({HEX})", lambda it: it[1] + after_address(rows, it[2]), line)
    return re.sub(rf"^(word )([0-9]+)(?= {HEX}$)", lambda it: it[1] + after_word(rows, it[2]), line)


def named_step(rows, _, line):
    """A line of a story: a write from outside to a byte has an address, and a request and a service have a word."""
    line = re.sub(rf"(?<= to word )([0-9]+)$|(?<=: word )([0-9]+)(?= {HEX} to {HEX}$)", lambda it: after_word(rows, it[1] or it[2]), line)
    return re.sub(rf"( poke \S+ )({HEX})(?= [0-9a-f]{{2}}: writes$)", lambda it: it[1] + after_address(rows, it[2]), line)


def drawn(rows, letters, address, text):
    """A name in a picture, of at most so many letters, or the text if the address has none."""
    name = place(rows, address)
    if not name:
        return text
    label, offset = name
    left = letters - len(offset)
    return (label if len(label) <= left else label[:max(left - 2, 0)] + "..") + offset


def print_picture(rows, picture):
    """Prints the texts of a picture in which a `pc` or a word stands, with names."""
    texts = [it for it in picture.iter() if it.get("class") in ("heading", "title", "mark", "request", "word")]
    letters = 24 if int(texts[0].text.split()[2]) <= 3 else 12
    for text in texts:
        named = re.sub(rf"^([0-9]+ (?:run|halt \S+|fault \S+) )({HEX})", lambda it: it[1] + drawn(rows, letters, int(it[2], 16), it[2]), text.text or "")
        print(re.sub(r"\bword ([0-9]+)", lambda it: drawn(rows, letters, SHARED_WORDS + 4 * int(it[1]), it[0]), named))


def main():
    words = [it for it in sys.argv[1:] if it != "--abi"]
    change = {"order": named_order, "dis": named_listing, "story": named_step}.get(words[0], named_result)
    rows = symbols_of(words[1]) if len(words) > 1 else []
    if words[0] == "picture":
        print_picture(rows, tree.parse(sys.stdin).getroot())
        return
    for line in sys.stdin:
        print(change(rows, "--abi" in sys.argv, line.rstrip("\n")))


if __name__ == "__main__":
    main()
