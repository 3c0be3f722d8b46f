#!/usr/bin/env python3
"""page.py: joins the parts of page/ into the page of `ultra page`.

    tests/tools/page.py --write         writes crates/ultra/src/page.rt, the text before the data and the one after it
    tests/tools/page.py --check         says whether that file has what page/ has (status 1 if not)
    tests/tools/page.py --html DATA     prints the page with the data of a file, which is not escaped there

The page is page.html. Its place @page.css@ takes page.css, and @scripts@ takes the scripts, in the order of SCRIPTS, in one function
of its own. Indentation and lines that are comments are left out, so that a page is smaller; no line is joined with another."""
import os
import re
import sys

TOP = os.path.dirname(os.path.dirname(os.path.dirname(os.path.abspath(__file__))))
PAGE = os.path.join(TOP, "page")
TARGET = os.path.join(TOP, "crates", "ultra", "src", "page.rt")
SCRIPTS = ["data", "names", "view", "words", "story", "history", "layout", "glyphs", "stage", "motion", "camera", "map", "detail", "order", "program",
           "charts", "timeline", "standing", "control", "main"]


def text_of(name):
    with open(os.path.join(PAGE, name), encoding="ascii") as file:
        return file.read()


def shortened(text, is_comment):
    lines = [line.strip() for line in text.splitlines()]
    return "\n".join(line for line in lines if line and not is_comment(line))


def script():
    parts = [shortened(text_of(name + ".js"), lambda line: line.startswith("//")) for name in SCRIPTS]
    return "(function () {\n'use strict';\n" + "\n".join(parts) + "\n})();"


def halves():
    """The page before the data, and after it."""
    known = set(os.listdir(PAGE)) - {"page.html", "page.css"}
    if known != {name + ".js" for name in SCRIPTS}:
        sys.exit(f"page/ and SCRIPTS differ: {sorted(known ^ {name + '.js' for name in SCRIPTS})}")
    style = shortened(re.sub(r"/\*.*?\*/", "", text_of("page.css"), flags=re.S), lambda line: False)
    page = shortened(text_of("page.html"), lambda line: False) + "\n"
    page = page.replace("@page.css@", style).replace("@scripts@", script())
    front, back = page.split("@data@")
    if not front.endswith('<script type="text/plain" id="data">\n') or not back.startswith("</script>"):
        sys.exit("page/page.html: the data is not where it belongs")
    for half in (front, back):
        half.encode("ascii")
        if '"##' in half:
            sys.exit('page/: "## would end the literal')
    return front, back


def source():
    front, back = halves()
    return f'''//! The page of `ultra page`, before and after its data. `tests/tools/page.py --write` generates this file from page/.

use page_command::{{Page, Window}};
use symbol_table::SymbolTable;

/// The page that plays the steps in a window, with these names.
pub fn page<'a>(window: Window, symbols: Option<&'a SymbolTable<'a>>) -> Page<'a> {{
    Page {{
        front: front(),
        back: back(),
        window,
        symbols,
    }}
}}

/// What stands before the data.
fn front() -> &'static str {{
    r##"{front}"##
}}

/// What stands after it.
fn back() -> &'static str {{
    r##"{back}"##
}}
'''


def escaped(data):
    return data.replace("%", "%25").replace("<", "%3c")


def main(words):
    if words == ["--write"]:
        with open(TARGET, "w", encoding="ascii") as file:
            file.write(source())
    elif words == ["--check"]:
        try:
            with open(TARGET, encoding="ascii") as file:
                written = file.read()
        except OSError as fault:
            sys.exit(f"{fault}: write it by tests/tools/page.py --write")
        if written != source():
            sys.exit("crates/ultra/src/page.rt is not what page/ has: write it by tests/tools/page.py --write")
    elif len(words) == 2 and words[0] == "--html":
        with open(words[1], encoding="utf-8") as file:
            data = file.read()
        front, back = halves()
        sys.stdout.write(front + escaped(data) + back)
    else:
        sys.exit(__doc__)


if __name__ == "__main__":
    main(sys.argv[1:])
