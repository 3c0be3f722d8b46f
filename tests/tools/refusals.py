#!/usr/bin/env python3
"""Compares the table of refusals in docs/REFUSALS.md with the code.

The first column of the table has each public call of a library that returns a `Result`, as `name` or `Type::name`, and no name that is not
a public call. If not, prints what is missing and ends with status 1."""
import pathlib
import re
import sys

TOP = pathlib.Path(__file__).resolve().parents[2]
TABLE = "| Call | It refuses with | What is left |"
# A comment, and where a signature ends.
COMMENT = re.compile(r"//[^\n]*")
END = re.compile(r"\{|;|\n\s*(?:requires|ensures|where|decreases|ghost)\b")
FUNCTION = re.compile(r"^(?P<indent> *)(?P<pub>pub )?fn (?P<name>\w+)", re.M)
OWNER = re.compile(r"^(?:pub )?(?:impl|trait)\b[^{;]*?(?=\n\{|\{|\n +(?:ghost|where|requires))", re.M)


def owner_of(head):
    """The trait or type whose calls come after this head; None for an impl of a trait, whose calls are those of the trait."""
    if " for " in head:
        return None
    head = re.sub(r"^(?:pub )?(?:impl|trait)\s*", "", head)
    if head.startswith("<"):
        depth = 0
        for at, letter in enumerate(head):
            depth += (letter == "<") - (letter == ">" and head[at - 1] != "-")
            if depth == 0:
                head = head[at + 1 :]
                break
    return re.match(r"\s*(\w+)", head)[1]


def calls_of(text):
    """Each public function of a file: its name, its owner (an empty text if it has none), and whether it returns a `Result`."""
    text = COMMENT.sub("", text)
    heads = [(it.start(), owner_of(it[0]), "trait" in it[0].split("{")[0].split()[:2]) for it in OWNER.finditer(text)]
    for it in FUNCTION.finditer(text):
        signature = text[it.start() :]
        signature = signature[: END.search(signature).start()]
        owner, is_trait = "", False
        if it["indent"]:
            owner, is_trait = next(((name, of_trait) for at, name, of_trait in reversed(heads) if at < it.start()), ("", False))
        if owner is not None and (it["pub"] or is_trait):
            yield it["name"], owner, bool(re.search(r"->\s*[^>]*?Result<", signature))


def names_given_out(crate):
    """The names that a library exports at its root."""
    root = COMMENT.sub("", (crate / "src/lib.rt").read_text())
    for used in re.findall(r"^pub use ([^;]+);", root, re.M):
        yield from re.findall(r"\w+(?=\s*[,}]|$)", used.rsplit("::", 1)[-1] if "{" not in used else used[used.index("{") :])


def public_calls():
    """Each public call of the libraries, and whether it returns a `Result`."""
    for crate in sorted((TOP / "crates").iterdir()):
        if not (crate / "src/lib.rt").exists() or crate.name.endswith("_tests") or crate.name.startswith("test_"):
            continue
        given = set(names_given_out(crate))
        for file in sorted(crate.glob("src/**/*.rt")):
            if "tests" in file.relative_to(crate).parts or file.name == "tests.rt":
                continue
            for name, owner, answers in calls_of(file.read_text()):
                if (owner or name) in given or file.name == "lib.rt":
                    yield f"{owner}::{name}" if owner else name, crate.name, answers


def listed():
    lines = (TOP / "docs/REFUSALS.md").read_text().split("\n")
    for line in lines[lines.index(TABLE) + 2 :]:
        if not line.startswith("|"):
            break
        yield from re.findall(r"`([\w:]+)`", line.split("|")[1])


def main():
    calls, known, missing = list(public_calls()), list(listed()), 0
    for name, crate, answers in calls:
        if answers and name not in known:
            print(f"{name} of {crate} is not listed")
            missing += 1
    for name in known:
        if name not in [call for call, _, _ in calls]:
            print(f"{name} is listed, but is no public call")
            missing += 1
        if known.count(name) > 1:
            print(f"{name} is listed twice")
            missing += 1
    print(f"{sum(answers for _, _, answers in calls)} public calls return a Result, of {len(calls)}")
    return min(missing, 1)


if __name__ == "__main__":
    sys.exit(main())
