#!/usr/bin/env python3
"""test_page.py [FOLDER]: checks pages of `ultra page` in Chromium.

At ten steps of each run of examples.py the texts of the drawing and of the list beside it are those of `ultra picture --step`, and the
caption is the line of the story. Controls do what they say: buttons, keys, slider, links, jumps to events, order, registers, charts,
light and dark, paper, reduced motion. Nothing goes to the console, and no page asks for anything but itself. A run of 100,000 steps
opens and seeks in time. With FOLDER, pictures of some pages are left there."""
import json
import os
import re
import sys
import tempfile
import time

sys.path[:0] = [os.path.dirname(os.path.abspath(__file__)), os.path.join(os.path.dirname(os.path.abspath(__file__)), "..", "tools")]
from browser import Browser
from examples import parts, runs, ultra
from pictured import Picture
from told import next_of, order_steps, steps_of

OPENING_SECONDS, SEEKING_SECONDS, LONG = 2.0, 0.1, 100_000

checks = 0


def same(found, wanted, what):
    global checks
    checks += 1
    if found != wanted:
        sys.exit(f"{what}: found\n  {found}\ninstead of\n  {wanted}")


# ---- what a page shows

LOOK = """(() => {
  const texts = (selector) => [...document.querySelectorAll(selector)].map((it) => it.getAttribute('data-text'));
  return {
    processors: texts('.processors [data-text]'), request: texts('.items .request').sort(), record: texts('.items .record').sort(),
    reply: texts('.items .reply').sort(), word: texts('.words .word.open').sort(),
    spoken: [...document.querySelectorAll('.items [data-key]')].every((it) => it.getAttribute('aria-label') === it.getAttribute('data-text')),
    list: [...document.querySelectorAll('.standing-line')].map((it) => it.textContent),
    caption: document.getElementById('caption').textContent, next: document.getElementById('next-line').textContent,
    slider: Number(document.getElementById('slider').value), number: Number(document.getElementById('step-number').value),
  };
})()"""


def go(browser, step):
    """By the slider."""
    browser.run(f"(() => {{ const it = document.getElementById('slider'); it.value = {step}; it.dispatchEvent(new Event('input')); }})()")
    same(shown(browser), step, "slider")


def follow(browser, step):
    """By a link. The page writes its step into the address a little later, and the same address once more would be no change."""
    browser.wait("location.hash === '#step=' + document.getElementById('slider').value")
    browser.run(f"location.hash = '#step={step}'")
    browser.wait(f"Number(document.getElementById('slider').value) === {step}")


def shown(browser):
    return browser.run("Number(document.getElementById('slider').value)")


def text_of(browser, name):
    return browser.run(f"document.getElementById({json.dumps(name)}).textContent")


def opened(browser, run, step=0):
    browser.open(f"file://{run.path}#step={step}")
    same(shown(browser), min(step, run.steps), f"{run.name}: the step in the address")


# ---- a picture's texts

def check_texts(browser, run):
    opened(browser, run)
    browser.key("d")
    browser.click("#tab-standing")
    if run.k >= 4:
        check_map(browser, run)
        browser.key("m")
    for step in run.chosen_steps(10):
        follow(browser, step)
        wanted = Picture(run.picture(step))
        look = browser.run(LOOK)
        what = f"{run.name} after {step} steps"
        same(look["processors"], wanted.processors, f"{what}: processors")
        for kind, texts in wanted.texts().items():
            same(look[kind], texts, f"{what}: {kind}")
        same(look["list"], [text for _, text in wanted.lines], f"{what}: list")
        same(look["caption"], run.story[step - 1] if step else "Nothing has happened yet.", f"{what}: caption")
        same(look["next"], run.story[step] if step < run.steps else "The run is over.", f"{what}: next line")
        same([look["slider"], look["number"], look["spoken"]], [step, step, True], f"{what}: slider, number and labels")


def check_map(browser, run):
    """The counts of each switch in the map."""
    for step in run.chosen_steps(10):
        go(browser, step)
        wanted = {}
        for kind, text in Picture(run.picture(step)).lines:
            if found := re.match(r"stage (\d+) wire (\d+): ", text):
                it = wanted.setdefault((int(found[1]), int(found[2]) // 2), {})
                it[kind] = it.get(kind, 0) + 1
        found = {}
        for label in browser.run("[...document.querySelectorAll('.map .cell')].map((it) => it.getAttribute('aria-label'))"):
            it = re.fullmatch(r"stage (\d+), switch of wires (\d+) and \d+: (\d+) requests?, (\d+) records?, (\d+) repl(?:y|ies)", label)
            counts = {kind: int(number) for kind, number in zip(("request", "record", "reply"), it.groups()[2:]) if number != "0"}
            if counts:
                found[int(it[1]), int(it[2]) // 2] = counts
        same(found, wanted, f"{run.name} after {step} steps: map")
    # a click on a switch opens the drawing there
    browser.click(".map .cell[data-key='s1.3']")
    browser.wait("document.getElementById('button-map').getAttribute('aria-pressed') === 'false'")
    box = browser.run("(() => { const b = document.querySelector('.switches [data-key=\"s1.3\"]').getBoundingClientRect(); return [b.left, b.top]; })()")
    same(0 < box[0] < 1100 and 0 < box[1] < 700, True, f"{run.name}: the switch that was clicked is in sight")
    browser.key("Escape")
    browser.key("m")


def check_part(browser, run):
    """A page of a part of a run: steps have the numbers that they have in the run, and words and program counters their names."""
    first, end = run.first, run.first + run.count
    browser.open(f"file://{run.path}#step={first + run.count // 2}")
    browser.key("d")
    browser.click("#tab-standing")
    if run.k >= 4:
        browser.key("m")
    ordered = order_steps(steps_of(run.story))
    story, pages_own = run.named_story(), f"{run.count} step{'' if run.count == 1 else 's'} from {first} on of {run.steps}"
    same(text_of(browser, "machine").split(", ", 2)[2], pages_own, f"{run.name}: its steps")
    same(browser.run("Number(document.getElementById('step-number').value)"), first + run.count // 2, f"{run.name}: the step in the address")
    begin = "Nothing has happened yet." if first == 0 else f"The page begins after {first} step{'' if first == 1 else 's'}."
    for step in run.chosen_steps(6):
        browser.wait("location.hash === '#step=' + document.getElementById('step-number').value")
        browser.run(f"location.hash = '#step={step}'")
        browser.wait(f"Number(document.getElementById('step-number').value) === {step}")
        wanted, look, what = Picture(run.picture(step)), browser.run(LOOK), f"{run.name} after {step} steps"
        if run.k < 4:
            same(look["processors"], wanted.processors, f"{what}: processors")
            for kind, texts in wanted.texts().items():
                same(look[kind], texts, f"{what}: {kind}")
        same(look["list"], [text for _, text in wanted.lines], f"{what}: list")
        same(look["caption"], story[step - 1] if step > first else begin, f"{what}: caption")
        same(look["next"], story[step] if step < end else "The run is over." if step == run.steps else "The page ends here.", f"{what}: next line")
        same([look["slider"], look["spoken"]], [step - first, True], f"{what}: slider and labels")
        same(text_of(browser, "order-count").split()[0], str(sum(first <= it < step for it in ordered)), f"{what}: lines of the order")
    if run.named:
        browser.click("#tab-program")
        labels = [line.split()[-1] + ":" for line in run.symbols.splitlines()]
        found = browser.run("[...document.querySelectorAll('.program-label')].map((it) => it.textContent)")
        same([it for it in found if it not in labels], [], f"{run.name}: labels of the program")
        same(len(found) > 0, True, f"{run.name}: there are labels")
    same(browser.faults, [], f"{run.name}: the console")


# ---- controls

def check_controls(browser, run):
    opened(browser, run, 5)
    told = steps_of(run.story)
    for selector, step in (("forth", 6), ("back", 5), ("last", run.steps), ("first", 0), ("forth", 1)):
        browser.click(f"#button-{selector}")
        same(shown(browser), step, f"{run.name}: button {selector}")
    for key, step in (("End", run.steps), ("ArrowLeft", run.steps - 1), ("Home", 0), ("ArrowRight", 1), ("PageDown", 11), ("PageUp", 1), ("ArrowLeft", 0),
                      ("ArrowLeft", 0)):
        browser.key(key)
        same(shown(browser), step, f"{run.name}: key {key}")
    browser.wait("location.hash === '#step=0'")
    # the slider, and a number that is written
    box = browser.run("(() => { const b = document.getElementById('slider').getBoundingClientRect(); return [b.left, b.top + b.height / 2, b.width]; })()")
    browser.click_at(box[0] + box[2] / 2, box[1])
    same(abs(shown(browser) - run.steps / 2) <= run.steps / 50 + 1, True, f"{run.name}: slider")
    browser.key("g")
    for digit in "7":
        browser.key(digit)
    browser.key("Enter")
    same(shown(browser), 7, f"{run.name}: a step that is written")
    browser.run("document.activeElement.blur()")
    # play, pause, speed
    go(browser, 0)
    for _ in range(8):
        browser.key("ArrowUp")
    same(text_of(browser, "speed-text"), "1000 steps a second", f"{run.name}: speed")
    browser.key(" ")
    browser.wait(f"Number(document.getElementById('slider').value) === {run.steps}")
    same(browser.run("document.getElementById('button-play').getAttribute('aria-pressed')"), "false", f"{run.name}: stops at the end")
    for _ in range(9):
        browser.key("ArrowDown")
    go(browser, 0)
    browser.key(" ")
    browser.wait("Number(document.getElementById('slider').value) === 1")
    same(browser.run("document.getElementById('button-play').getAttribute('aria-label')"), "pause", f"{run.name}: plays")
    browser.key(" ")
    same(browser.run("document.getElementById('button-play').getAttribute('aria-label')"), "play", f"{run.name}: pauses")
    # events, by their keys and by the choice of a processor and a word
    for key, kind in (("c", "join"), ("s", "serve"), ("r", "retire"), ("h", "stop")):
        go(browser, run.steps // 3)
        for shift in (False, False, True):
            before = shown(browser)
            browser.key(key.upper() if shift else key, shift)
            found = next_of(told, before, kind, not shift)
            same(shown(browser), before if found is None else found + 1, f"{run.name}: key {key}, shift {shift}, after {before}")
    check_choices(browser, run, told)
    check_texts_in_decimal(browser, run)


def check_choices(browser, run, told):
    for kind in ("join", "serve", "retire", "stop", "split", "send", "poke"):
        for processor, word in ((None, None), (1 if run.k else 0, None), (None, 1), ((1 << run.k) - 1, 0)):
            browser.run(f"document.getElementById('event-kind').value = '{kind}';"
                        f"document.getElementById('event-processor').value = '{-1 if processor is None else processor}';"
                        f"document.getElementById('event-word').value = '{'' if word is None else word}'")
            if kind == "split" and (processor is not None or word is not None):
                continue
            go(browser, run.steps // 4)
            for forwards in (True, True, False):
                before = shown(browser)
                browser.click("#button-next-event" if forwards else "#button-last-event")
                found = next_of(told, before, kind, forwards, processor, word)
                same(shown(browser), before if found is None else found + 1, f"{run.name}: {kind} of {processor}, word {word}, {forwards}, after {before}")
                same(text_of(browser, "event-none") == "", found is not None, f"{run.name}: none")


def check_texts_in_decimal(browser, run):
    lines = ultra("story", "--decimal", run.trace, run.image).splitlines()
    for step in run.chosen_steps(15)[1:]:
        go(browser, step)
        same(text_of(browser, "caption"), lines[step - 1], f"{run.name} after {step} steps: caption in decimal")


# ---- panels

def check_panels(browser, run):
    opened(browser, run)
    told = steps_of(run.story)
    ordered = order_steps(told)
    same(len(ordered), len(run.order), f"{run.name}: lines of the order")
    for step in run.chosen_steps(6):
        go(browser, step)
        count = sum(it < step for it in ordered)
        same(text_of(browser, "order-count").split()[0], str(count), f"{run.name} after {step} steps: lines of the order")
        if count:
            line = "#order-list [data-order='%d']" % (count - 1)
            same(browser.run(f"document.querySelector({json.dumps(line)}).getAttribute('data-text')"), run.order[count - 1], f"{run.name}: the last line of the order")
            browser.click(line + " .text")
            same(shown(browser), ordered[count - 1] + 1, f"{run.name}: the step of line {count - 1}")
    browser.click("#tab-charts")
    for step in run.chosen_steps(6):
        go(browser, step)
        now = browser.run("[...document.querySelectorAll('.chart strong')].slice(0, 3).map((it) => it.textContent)")
        kinds = [it.kind for it in told[:step]]
        same(now, [f"now {told[step - 1].moving if step else 0}", f"now {kinds.count('join')}", f"now {kinds.count('serve')}"], f"{run.name} after {step} steps: charts")
    stats = ultra("stats", run.trace, run.image)
    longest = [max(int(a), int(b)) for a, b in re.findall(r"^stage \d+ .* requests (\d+) records \d+ replies (\d+)$", stats, re.M)]
    found = browser.run("[...document.querySelectorAll('.chart.queue .faint')].map((it) => it.textContent)")
    same(found, [f"most {max(1, it)}" for it in longest], f"{run.name}: longest queues")
    box = browser.run("(() => { const b = document.querySelector('.chart svg').getBoundingClientRect(); return [b.left, b.top + 20, b.width]; })()")
    browser.click_at(box[0] + box[2] * 0.25, box[1])
    same(abs(shown(browser) - run.steps / 4) <= run.steps / 100 + 1, True, f"{run.name}: a click on a chart")
    check_program(browser, run)
    check_timeline(browser, run)


def check_program(browser, run):
    browser.click("#tab-program")
    browser.key("d")
    for step in run.chosen_steps(5):
        go(browser, step)
        wanted = {}
        for p, text in enumerate(Picture(run.picture(step)).processors):
            pc = re.search(r" ([0-9a-f]{8})( word \d+)?$", text)[1]
            wanted.setdefault(pc, []).append(str(p))
        found = browser.run("Object.fromEntries([...document.querySelectorAll('.program-line.here')].map((it) => [it.querySelector('.address').textContent,"
                            " [...it.querySelectorAll('.mark')].map((mark) => mark.textContent)]))")
        same(found, {pc: ps[:8] for pc, ps in wanted.items()}, f"{run.name} after {step} steps: pcs in the program")
    values = {}
    for line in run.story:
        if found := re.match(r"\d+ turn 0: retires \S+ x(\d+),.* = ([0-9a-f]{8})$", line):
            values[found[1]] = found[2]
        elif found := re.match(r"\d+ poke 0 x(\d+) ([0-9a-f]{8})", line):
            values[found[1]] = found[2]
    go(browser, run.steps)
    shown_ones = browser.run("Object.fromEntries([...document.querySelectorAll('[data-register]')].map((it) => [it.getAttribute('data-register'), it.textContent]))")
    same({r: shown_ones[r] for r in values}, values, f"{run.name}: registers of processor 0")
    browser.key("d")


def check_timeline(browser, run):
    """Each reference that is in sight has its step, and an arrow if another has written the word before."""
    browser.click("#tab-timeline")
    lines = [(number, it) for number, it in enumerate(run.order) if re.search(r" word \d+ [0-9a-f]{8} [0-9a-f]{8}$", it)]
    ordered = order_steps(steps_of(run.story))
    steps = [ordered[number] for number, _ in lines]
    found = browser.run("[...document.querySelectorAll('.reference')].map((it) => Number(it.getAttribute('data-go')) - 1)")
    same(sorted(found), steps[len(steps) - len(found):], f"{run.name}: references in sight")
    arrows = browser.run("document.querySelectorAll('#timeline .saw').length")
    wanted, written = [], set()
    for _, line in lines:
        word = re.search(r" word (\d+) ", line)[1]
        instruction = line.split()[2] if " poke " in line else line.split()[3]
        stores = instruction in ("sw", "sh", "sb", "poke")
        wanted.append(not stores and word in written)
        if stores or instruction.startswith("amo"):
            written.add(word)
    same(arrows, sum(wanted[len(wanted) - len(found):]), f"{run.name}: arrows")


# ---- looks

def check_looks(browser, run):
    opened(browser, run, run.steps // 2)
    paper = "getComputedStyle(document.body).backgroundColor"
    browser.media(prefers_color_scheme="light")
    light = browser.run(paper)
    browser.media(prefers_color_scheme="dark")
    dark = browser.run(paper)
    same(light != dark, True, "dark by the host's choice")
    browser.key("l")
    same(browser.run(paper), light, "light by the key")
    browser.key("l")
    same(browser.run(paper), dark, "dark by the key")
    # paper is white, and has the drawing and the caption alone
    browser.media("print", prefers_color_scheme="dark")
    same(browser.run("[...document.querySelectorAll('.controls, aside, .tools, .zoom')].every((it) => it.getClientRects().length === 0)"), True, "print: controls")
    same(browser.run(paper), "rgb(255, 255, 255)", "print: white")
    same(browser.run("document.getElementById('caption').getClientRects().length"), 1, "print: caption")
    browser.media()
    with tempfile.TemporaryDirectory() as room:
        printed = browser.paper(os.path.join(room, "page.pdf"))
        same([printed[:5], len(re.findall(rb"/Type\s*/Page\b", printed))], [b"%PDF-", 1], "print: one sheet")
    # moves are animated, unless less motion is asked for
    browser.media(prefers_reduced_motion="no-preference")
    moving = [number for number, it in enumerate(run.story) if " up " in it]
    go(browser, moving[3])
    browser.key("ArrowRight")
    same(browser.run("document.getAnimations().length > 0"), True, "a move is animated")
    browser.media(prefers_reduced_motion="reduce")
    go(browser, moving[3])
    browser.key("ArrowRight")
    same(browser.run("document.getAnimations().length"), 0, "a move is not animated")
    browser.media()
    # detail by pointing, by a click and by the keyboard
    go(browser, moving[3] + 1)
    text = browser.run("document.querySelector('.items .request').getAttribute('data-text')")
    x, y = browser.middle(".items .request")
    browser.mouse("mouseMoved", x, y)
    same(text in text_of(browser, "detail-list"), True, "detail by pointing")
    browser.click_at(x, y)
    browser.mouse("mouseMoved", 5, 5)
    same(text in text_of(browser, "detail-list"), True, "detail by a click")
    browser.key("Escape")
    browser.run("document.querySelector('.processors [data-key=p0]').focus()")
    same("processor 0" in text_of(browser, "detail-list"), True, "detail by focus")
    browser.key("?")
    same(browser.run("document.getElementById('help').open"), True, "help")
    browser.key("?")
    same(browser.run("document.getElementById('help').open"), False, "help is closed")


def check_names(browser, run):
    """Each control has a name, and each panel its tab."""
    opened(browser, run)
    unnamed = browser.run("""[...document.querySelectorAll('button, input, select, [role=img], [role=button]')].filter((it) =>
      !(it.getAttribute('aria-label') || it.textContent.trim() || it.labels && it.labels.length)).map((it) => it.outerHTML)""")
    same(unnamed, [], "names of controls")
    same(browser.run("document.getElementById('said').getAttribute('aria-live')"), "polite", "the caption is said")
    go(browser, 1)
    browser.wait(f"document.getElementById('said').textContent.includes('After 1: ')", 5)


# ---- a long run

def longer(text, steps):
    """A page of so many steps: that of a run in which a part is repeated that leads the machine back to where it was."""
    before, _, rest = text.partition('id="data">\n')
    data, _, after = rest.partition("</script>")
    lines = data.rstrip("\n").split("\n")
    n = int(lines[2].split()[3])
    changes, story, order = lines[4:4 + n], lines[4 + n:4 + 2 * n], lines[4 + 2 * n:]
    state, seen, first, end = {}, {}, 0, 0
    for number, line in enumerate(changes):
        for change in line.split("\t")[:-1]:
            name, _, value = change.partition("=")
            if not re.match(r"w|\d+x", name):
                state[name] = value
        # only when nothing is on its way
        if not any(value for name, value in state.items() if "." in name):
            key = json.dumps(state, sort_keys=True)
            if key in seen and number - seen[key] > end - first:
                first, end = seen[key] + 1, number + 1
            seen.setdefault(key, number)
    assert end > first, "no part leads back"
    times = -(-(steps - n) // (end - first))
    ordered = order_steps(steps_of(story))
    a, b = sum(it < first for it in ordered), sum(it < end for it in ordered)

    def renumbered(all_lines):
        return [f"{number} {line.split(' ', 1)[1]}" for number, line in enumerate(all_lines)]
    story = renumbered(story[:first] + story[first:end] * times + story[first:])
    changes = changes[:first] + changes[first:end] * times + changes[first:]
    order = renumbered(order[:a] + order[a:b] * times + order[a:])
    lines[2] = lines[2].replace(f" {n} ", f" {len(story)} ")
    return before + 'id="data">\n' + "\n".join(lines[:4] + changes + story + order) + "\n</script>" + after, len(story)


def check_long(browser, run, folder):
    text, steps = longer(run.page(), LONG)
    path = os.path.join(folder, "long.html")
    with open(path, "w", encoding="utf-8") as file:
        file.write(text)
    best = ready = 1e9
    # another process may take the time, so the best of some tries counts
    for _ in range(6):
        began = time.monotonic()
        browser.open(f"file://{path}", "document.getElementById('caption') && document.getElementById('caption').textContent !== ''")
        best = min(best, time.monotonic() - began)
        browser.wait("document.body.dataset.ready === 'yes'")
        ready = min(ready, time.monotonic() - began)
        if best < OPENING_SECONDS * 0.8:
            break
    same(best < OPENING_SECONDS, True, f"a run of {steps} steps opens in {best:.2f} s")
    took = []
    for step in (steps, 17, steps // 2, steps - 99, 4, steps // 3):
        seek = f"""(() => {{ const it = document.getElementById('slider'), from = performance.now(); it.value = {step};
          it.dispatchEvent(new Event('input')); document.body.getBoundingClientRect(); return performance.now() - from; }})()"""
        took.append(min(browser.run(seek.replace(str(step), str(it))) for it in (step, max(0, step - 1), step)) / 1000)
        same(shown(browser), step, "a long run: seek")
    same(max(took) < SEEKING_SECONDS, True, f"a run of {steps} steps seeks in {took} s")
    print(f"a run of {steps} steps, {len(text) / 1e6:.1f} MB: shown after {best:.2f} s, charts after {ready:.2f} s, seeks in at most {max(took) * 1000:.0f} ms")


# ----

def main():
    with tempfile.TemporaryDirectory() as room, Browser() as browser:
        made = {}
        for run in runs(room):
            made[run.name] = run
            check_texts(browser, run)
            if run.name in ("hot_spot", "wrong", "alone", "sixty_four", "functions", "poked"):
                check_controls(browser, run)
            check_panels(browser, run)
            same(browser.faults, [], f"{run.name}: the console")
            print(f"{run.name}: the page shows what the program tells")
        for part in parts(room, made):
            check_part(browser, part)
        print("pages of parts of runs show these parts")
        check_looks(browser, made["hot_spot"])
        check_names(browser, made["hot_spot"])
        check_long(browser, made["hot_spot"], room)
        same(browser.faults, [], "the console")
        asked = [it for it in browser.requests if not re.match(r"(file|data|about):", it)]
        same(asked, [], "requests to the network")
        if len(sys.argv) > 1:
            for name, step in (("hot_spot", 40), ("hot_spot", 48), ("sixty_four", 300), ("console", 100)):
                opened(browser, made[name], step)
                browser.picture(os.path.join(sys.argv[1], f"{name}-{step}.png"))
    print(f"{checks} comparisons")


main()
