#!/usr/bin/env python3
"""json_lines.py PLAIN JSON ..: compares what a command prints with what it prints with --json, for pairs of files.

Each line of JSON is an object that docs/ultra.schema.json allows, of another kind than `text`, and the plain line can be made of it.
Prints how many lines there were of each kind."""
import collections
import json
import pathlib
import re
import sys

SCHEMA = json.loads((pathlib.Path(__file__).resolve().parents[2] / "docs/ultra.schema.json").read_text())

# ---- the schema: what it uses of JSON Schema

TYPES = {"object": dict, "array": list, "string": str, "integer": int, "number": (int, float), "null": type(None)}
WORDS = {"$schema", "$defs", "title", "description"}


def is_of_type(value, name):
    return isinstance(value, TYPES[name]) and not isinstance(value, bool)


def has_members(value, schema):
    properties = schema.get("properties", {})
    return (all(name in value for name in schema.get("required", ()))
            and all(name in properties for name in value) | (schema.get("additionalProperties") is not False)
            and all(is_valid(member, properties[name]) for name, member in value.items() if name in properties))


def is_valid(value, schema):
    """Whether a schema allows a value. A word of JSON Schema that is not known here is an error."""
    tests = {
        "$ref": lambda ref: is_valid(value, definition(ref)),
        "oneOf": lambda schemas: sum(is_valid(value, it) for it in schemas) == 1,
        "anyOf": lambda schemas: any(is_valid(value, it) for it in schemas),
        "type": lambda name: is_of_type(value, name),
        "const": lambda wanted: value == wanted,
        "enum": lambda values: value in values,
        "minimum": lambda least: value >= least,
        "maximum": lambda most: value <= most,
        "minItems": lambda least: len(value) >= least,
        "maxItems": lambda most: len(value) <= most,
        "pattern": lambda pattern: re.search(pattern, value) is not None,
        "items": lambda item: all(is_valid(it, item) for it in value),
        "properties": lambda _: has_members(value, schema),
        "required": lambda _: True,
        "additionalProperties": lambda _: True,
    }
    if "type" in schema and not is_of_type(value, schema["type"]):
        return False
    return all(tests[word](argument) for word, argument in schema.items() if word not in WORDS)


def definition(ref):
    found = SCHEMA
    for word in ref.removeprefix("#/").split("/"):
        found = found[word]
    return found


# ---- the plain line of an object, by the forms of docs/COMMANDS.md and docs/EXPLORE.md


def count(number, noun):
    return f"{number} {noun}" if number == 1 else f"{number} {noun}s"


def status(it):
    form = {"run": "run", "halt": "halt {byte:02x}", "fault": "fault {fault}", None: "-"}[it["status"]]
    return form.format(**it)


def part(it, form, *names):
    """A part of a line, if the object has its members."""
    return form.format(*(it[name] for name in names)) if names[0] in it else ""


def reference(it):
    return part(it, " word {} {:08x} {:08x}", "word", "before", "after")


def event(it):
    if "status" in it:
        return status(it)
    return it["instruction"] + part(it, " = {:08x}", "value") + part(it, " console {:02x}", "console")


def poked(it):
    if "register" in it:
        return "{register} {value:08x}".format(**it)
    return "{address:08x} {value:02x}".format(**it)


def owner(it):
    return "-" if it["processor"] is None else it["processor"]


def verdict(it):
    if it["end"] == "unreachable":
        return f"from {count(it['from'], 'state')} no end can be reached"
    return {"always": "every schedule ends", "possible": "some schedule never ends; an end can always be reached"}[it["end"]]


def processor(it):
    return (f"processor {it['processor']}" + part(it, " pc {:08x}", "pc") + f" {status(it)}" + part(it, " retired {}", "retired")
            + f" console {it['console'] or '-'}")


def size(it):
    start = f"k {it['k']}: {count(it['processors'], 'processor')}, "
    if "not_explored" in it:
        return start + "not explored: " + it["not_explored"]
    return start + ", ".join([count(it["results"], "result"), count(it["states"], "state"), verdict(it), status(it)])


def comparison(it):
    verb = "is" if it.get("missing", it["results"]) == 1 else "are"
    start, among = (f"{it['missing']} of", "not among") if "missing" in it else ("all", "among")
    return f"{start} {count(it['results'], 'observed result')} {verb} {among} the {it['specification']} of SPEC"


def pairs(it):
    """`NAME NUMBER` for each member."""
    return " ".join(f"{name} {number}" for name, number in it.items() if name != "kind")


def latency(it):
    subject = part(it, "processor {}", "processor") + part(it, "word {}", "word") or "all"
    line = "references {references} least {least} mean {mean:.2f} greatest {greatest} rounds".format(**it)
    return f"latency {subject} {line}" + "".join(f" {low}x{all}" for low, all in it["rounds"])


def step(it):
    place = {"turn": "{processor}", "up": "{stage} {wire}", "down": "{stage} {wire}", "serve": "{module}", "poke": ""}[it["step"]]
    outcome = {
        "sends": lambda: "sends {function} to word {word}".format(**it),
        "retires": lambda: f"retires {event(it)}",
        "stops": lambda: f"stops {status(it)}",
        "moves": lambda: f"moves to depth {it['depth']}",
        "joins": lambda: "{second} joins {leader} at stage {at_stage}: {goes_on} goes on, {kept} is kept".format(**it),
        "serves": lambda: f"serves {it['served']}: {' '.join(map(str, it['processors']))}: word {it['word']} {it['before']:08x} to {it['after']:08x}",
        "answers": lambda: f"answers {' '.join(map(str, it['leaders']))} at stage {it['at_stage']}:" + "".join(f" {v:08x}" for v in it["values"]),
        "writes": lambda: "writes",
    }[it["outcome"]]()
    words = f"{owner(it)} {poked(it)}" if it["step"] == "poke" else place.format(**it)
    return f"{it['number']} {it['step']} {words}: {outcome}"


PLAIN = {
    "processor": processor,
    "word": lambda it: "word {word} {value:08x}".format(**it),
    "runs": lambda it: "runs {runs} first {first} {end}".format(**it),
    "unfinished": lambda it: "unfinished " + " ".join(map(str, it["runs"])),
    "result": pairs,
    "exchange": lambda it: "processors {processors} can be exchanged".format(**it),
    "results": lambda it: f"{count(it['results'], 'result')}, {count(it['states'], 'state')}",
    "schedules": verdict,
    "incomplete": lambda it: "incomplete: there may be more results",
    "fairness": lambda it: {"always": "every fair schedule ends", "never": "some fair schedule never ends",
                            "unknown": "some fair schedule may never end"}[it["end"]],
    "stem": lambda it: " ".join(map(str, ["stem", *it.get("processors", ())])),
    "cycle": lambda it: " ".join(map(str, ["cycle", *it["processors"]])),
    "comparison": comparison,
    "filter": lambda it: f"{it['printed']} of {count(it['results'], 'result')} {'is' if it['printed'] == 1 else 'are'} printed",
    "size": size,
    "machine": lambda it: "machine " + pairs(it),
    "steps": pairs,
    "stage": pairs,
    "module": lambda it: "module {module} serves {serves}".format(**it) + "".join(f" {one}x{all}" for one, all in it.get("groups", ())),
    "turns": pairs,
    "latency": latency,
    "queues": pairs,
    "waited": lambda it: "waited " + pairs(it),
    "study": lambda it: pairs({**it, "mean": f"{it['mean']:.2f}"}),
    "round": pairs,
    "step": step,
    "entry": lambda it: f"{it['number']} {it['processor']} {it['address']:08x} {event(it)}{reference(it)}",
    "poke": lambda it: f"{it['number']} {owner(it)} poke {poked(it)}{reference(it)}",
    "fault": lambda it: "line {line} column {column}: {code}".format(**it) + part(it, " {}", "word") + f": {it['advice']}",
    "faults": lambda it: count(it["faults"], "fault") if it["faults"] else "no faults",
}

# ---- the comparison

found = collections.Counter()
for plain, objects in zip(sys.argv[1::2], sys.argv[2::2]):
    plain_lines, lines = (pathlib.Path(file).read_text(encoding="utf-8").split("\n") for file in (plain, objects))
    if len(plain_lines) != len(lines) or len(lines) < 2 or lines[-1]:
        sys.exit(f"{objects}: {len(lines) - 1} lines in place of {len(plain_lines) - 1}")
    for wanted, line in zip(plain_lines[:-1], lines):
        it = json.loads(line)
        if list(it)[:1] != ["kind"] or not is_valid(it, SCHEMA) or it["kind"] not in PLAIN or PLAIN[it["kind"]](it) != wanted:
            sys.exit(f"{objects}: {line} for {wanted}")
        found[it["kind"]] += 1
for kind in sorted(found):
    print(kind, found[kind])
