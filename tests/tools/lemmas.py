#!/usr/bin/env python3
"""Lists each lemma that another file of its crate or of another cites, and that has no comment above it to say what it shows. Ends with
status 1 if there is one."""
import pathlib
import re
import sys

TOP = pathlib.Path(__file__).resolve().parents[2]
LEMMA = re.compile(r"( *)pub ([A-Za-z_][\w'-]*) :(?: |$)")
MODULE = re.compile(r"\b([a-z_]+)\.proofs\.([\w']+(?:\.[\w']+)*)")


def is_field(lines, at, indent):
    """Whether the line is of a record: the line above that is indented less begins one."""
    above = (it for it in reversed(lines[:at]) if it.strip() and len(it) - len(it.lstrip()) < indent)
    return re.match(r" *(pub )?record ", next(above, "")) is not None


def main():
    texts = {file: file.read_text() for file in sorted(TOP.glob("crates/*/proofs/**/*.antt"))}
    words = {file: set(re.findall(r"[A-Za-z_][\w']*", re.sub(r"--[^\n]*", "", text))) for file, text in texts.items()}
    cites = {file: set(MODULE.findall(text)) for file, text in texts.items()}
    code = "".join(file.read_text() for file in TOP.glob("crates/*/src/**/*.rt"))
    cited, missing = 0, 0
    for file, text in texts.items():
        crate, _, *parts = file.relative_to(TOP / "crates").with_suffix("").parts
        module = ".".join(parts)
        citing = [other for other, modules in cites.items() if other != file and (crate, module) in modules]
        lines = text.split("\n")
        for at, line in enumerate(lines):
            found = LEMMA.match(line)
            if not found or is_field(lines, at, len(found[1])):
                continue
            name = found[2]
            is_cited = f"proofs::{module.replace('.', '::')}::{name}" in code or any(
                name in words[other] for other in citing
            )
            cited += is_cited
            if is_cited and not (at and lines[at - 1].lstrip().startswith("--")):
                print(f"{file.relative_to(TOP)}:{at + 1}: {name}")
                missing += 1
    print(f"{cited} lemmas are cited by other files, {missing} without a comment")
    return min(missing, 1)


if __name__ == "__main__":
    sys.exit(main())
