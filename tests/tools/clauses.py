#!/usr/bin/env python3
"""Makes docs/CLAUSES.md: each public call of the libraries with the clauses of its contract and what its doc comment says of it.

    tests/tools/clauses.py            prints the text of the file
    tests/tools/clauses.py --check    ends with status 1 if the file has another text
    tests/tools/clauses.py --write    writes the file"""
import pathlib
import re
import sys

TOP = pathlib.Path(__file__).resolve().parent.parent.parent
PAGE = TOP / "docs/CLAUSES.md"
HEAD = """# Clauses

Every public call of every library, with the names of the clauses of its contract and the first sentence of its doc
comment. `tests/tools/clauses.py --write` makes this page from the sources, and a check compares them. `ensures` is a
clause without a name, and a capitalized name is the definition that a law states. A call that may refuse shows the
type of its refusal after an arrow. A trait's calls are listed under the trait, whichever type implements it.
[PROMISES.md](PROMISES.md) says in words what the most important clauses promise together, and
[REFUSALS.md](REFUSALS.md) what each refusal leaves.
"""
# Where a signature ends, and what clauses a contract has.
CONTRACT = re.compile(r"\n\s*(?:requires|ensures|where|decreases|ghost)\b|\{|;")
CLAUSE = re.compile(r"\bensures\s+([a-z_0-9]+)?\s*\{(?:\s*([A-Z]\w*)\s*\})?")
FUNCTION = re.compile(r"^(?P<indent> *)(?P<pub>pub )?(?:const )?fn (?P<name>\w+)")
OWNER = re.compile(r"^(?:pub )?(?P<kind>impl|trait)\b")
SENTENCE = re.compile(r"^(.*?[.:])(?=\s+[A-Z`\[]|\s*$)", re.S)


def without_parameters(head):
    """What comes after the angle brackets at the start of a head."""
    if not head.startswith("<"):
        return head
    depth = 0
    for at, letter in enumerate(head):
        depth += (letter == "<") - (letter == ">" and head[at - 1] != "-")
        if depth == 0:
            return head[at + 1 :]
    return head


def owner_of(lines, at):
    """The type or trait whose calls are in the block that begins at this line; None for an impl of a trait, whose calls are those of the trait."""
    head = " ".join(lines[at : at + 8]).split("{")[0]
    if re.match(r"(?:pub )?impl\b", head) and re.search(r"\bfor\b(?!\s*<)", head):
        return None
    head = without_parameters(re.sub(r"^(?:pub )?(?:impl|trait)\s*", "", head))
    return re.match(r"\s*(\w+)", head)[1]


def block_after(lines, at):
    """The text of a function from its signature to the line that opens or replaces its body."""
    taken = []
    for line in lines[at:]:
        taken.append(re.sub(r"(?<!:)//.*", "", line))
        if re.match(r"^ *\{\}?$", line) or re.search(r"\)?;\s*$", line) and line.count("{") == line.count("}"):
            break
        if line.rstrip().endswith("{") and not re.search(r"\{ *$", " ".join(taken[:-1])) and not line.lstrip().startswith(("ensures", "requires")):
            break
    return "\n".join(taken)


def sentence_of(comments):
    """The first sentence of a doc comment, on one line."""
    text = " ".join(comments).split("# Errors")[0].strip()
    text = re.sub(r"\s+", " ", text)
    # A link to an item of the crate is its name alone here.
    text = re.sub(r"\[`(?:crate::)?([^`]*)`\](?:\([^)]*\))?", r"`\1`", text)
    found = SENTENCE.match(text)
    return (found[1] if found else text).replace("|", "\\|").rstrip(":")


def refusal_of(signature):
    """The type with which a call refuses, or none."""
    result = re.search(r"->\s*Result<(.*)>\s*$", signature.strip(), re.S)
    if not result:
        return None
    depth, cut = 0, None
    for at, letter in enumerate(result[1]):
        depth += (letter in "<([") - (letter in ">)]" and result[1][at - 1] != "-")
        if letter == "," and depth == 0:
            cut = at
            break
    return re.sub(r"\s+", " ", result[1][cut + 1 :]).strip() if cut else "its error"


def calls_of(file):
    """Each public call of a file: owner, name, refusal, clauses, sentence."""
    lines = file.read_text().split("\n")
    owner, is_trait, comments = "", False, []
    for at, line in enumerate(lines):
        if OWNER.match(line):
            owner, is_trait = owner_of(lines, at), "trait" in line.split("<")[0].split()[:2]
        elif line == "}":
            owner, is_trait = "", False
        found = FUNCTION.match(line)
        if found and (found["pub"] or (is_trait and found["indent"])) and owner is not None:
            text = block_after(lines, at)
            signature = text[: CONTRACT.search(text).start()] if CONTRACT.search(text) else text
            clauses = [f"`{it[1] or it[2]}`" if it[1] or it[2] else "`ensures`" for it in CLAUSE.finditer(text)]
            yield owner if found["indent"] else "", found["name"], refusal_of(signature), clauses, sentence_of(comments)
        stripped = line.strip()
        if stripped.startswith("///"):
            comments.append(stripped[3:].strip())
        elif not stripped or stripped.startswith(("}", "fn ", "pub ")):
            comments = []


def names_used(text):
    """The names that a file exports from other modules."""
    for used in re.findall(r"^pub use ([^;]+);", re.sub(r"//[^\n]*", "", text), re.M):
        if "{" in used:
            yield from re.findall(r"\w+(?=\s*[,}]|$)", used[used.index("{") :])
        else:
            yield used.rsplit("::", 1)[-1].strip()


def names_given_out(crate):
    """The names that a library exports at its root."""
    return names_used((crate / "src/lib.rt").read_text())


def laws_of(crate):
    """The names in the module of a library's laws, if it exports one."""
    if not re.search(r"^pub mod laws;", (crate / "src/lib.rt").read_text(), re.M):
        return
    text = (crate / "src/laws.rt").read_text()
    yield from names_used(text)
    yield from re.findall(r"^pub fn (\w+)", text, re.M)


def rooms():
    """The rooms of crates.txt, each with its crates."""
    room = None
    for line in (TOP / "crates.txt").read_text().split("\n"):
        if line.startswith("# ") and "docs/" not in line:
            room = line[2:].strip()
        elif re.match(r"\w+[^:]*:", line):
            yield room, line.split(":")[0].split()[0]


def purpose_of(crate):
    """The first paragraph of a crate's own comment, on one line."""
    lines = []
    for line in (crate / "src/lib.rt").read_text().split("\n"):
        if not line.startswith("//!") or line == "//!":
            break
        lines.append(line[3:].strip())
    return " ".join(lines)


def page():
    yield HEAD
    last = None
    for room, name in rooms():
        crate = TOP / "crates" / name
        if not (crate / "src/lib.rt").exists() or room.startswith("Tests"):
            continue
        given, laws, rows = set(names_given_out(crate)), set(laws_of(crate)), []
        for file in sorted(crate.glob("src/**/*.rt")):
            for owner, call, refusal, clauses, sentence in calls_of(file):
                if (owner or call) in given | laws or file.name == "lib.rt":
                    shown = f"`{owner}::{call}`" if owner else f"`laws::{call}`" if call in laws else f"`{call}`"
                    shown += f" → `{refusal}`" if refusal else ""
                    rows.append(f"| {shown} | {', '.join(clauses) or '–'} | {sentence} |")
        if not rows:
            continue
        if room != last:
            yield f"\n## {room}\n"
            last = room
        yield f"\n### `{name}`\n\n{purpose_of(crate)}\n\n| Call | Clauses | What it does |\n|---|---|---|\n" + "\n".join(rows) + "\n"


def main():
    text = "".join(page())
    if "--write" in sys.argv:
        PAGE.write_text(text)
    elif "--check" in sys.argv:
        if not PAGE.exists() or PAGE.read_text() != text:
            print("docs/CLAUSES.md is not what tests/tools/clauses.py --write makes")
            return 1
    else:
        print(text, end="")
    return 0


if __name__ == "__main__":
    sys.exit(main())
