"""Runs of which pages are made: their traces, and what the program tells of them. The program is that of the environment variable
ULTRA, or else ./ultra."""
import os
import subprocess

TOP = os.path.dirname(os.path.dirname(os.path.dirname(os.path.abspath(__file__))))
ULTRA = os.environ.get("ULTRA") or os.path.join(TOP, "ultra")

# Each processor refers to words 0 and 1 with every kind of function.
FUNCTIONS = """start:  addi a7, x0, 2
        ecall
        lui s0, 0x80000
        addi s1, a0, 3
        addi s2, x0, 6
again:  amoadd.w t0, s1, (s0)
        amoxor.w t0, s1, (s0)
        amomaxu.w t0, s1, (s0)
        amominu.w t0, s2, (s0)
        amoor.w t0, s1, (s0)
        amoand.w t0, s2, (s0)
        amoswap.w t0, s1, (s0)
        amomin.w t0, s2, (s0)
        amomax.w t0, s1, (s0)
        lw t0, 0(s0)
        sb s1, 1(s0)
        sh s1, 2(s0)
        sw s1, 0(s0)
        lbu t0, 3(s0)
        addi s0, s0, 4
        addi s2, s2, -3
        blt x0, s2, again
        addi a7, x0, 0
        ecall
"""

# Processor 0 adds to a word until there is a fault; the others wait for it in vain.
FAULT = """start:  addi a7, x0, 2
        ecall
        lui s0, 0x80000
        addi s1, x0, 5
        amoadd.w t0, s1, (s0)
        bne a0, x0, others
        lw t1, 2(s0)
others: amoadd.w t0, a0, (s0)
        addi a7, x0, 0
        ecall
"""


def ultra(*words, **more):
    """What the program prints with these words."""
    done = subprocess.run([ULTRA, *words], stdout=subprocess.PIPE, stderr=subprocess.PIPE, cwd=TOP, check=False, **more)
    # Status 1 says that a fault has stopped a processor.
    if done.returncode > 1:
        raise RuntimeError(f"{words}: status {done.returncode}: {done.stderr.decode()}")
    return done.stdout.decode()


class Run:
    """A run: its trace and image, and the texts that the program tells of it. Its page may have other steps than all: `options` are
    those of `ultra page`, and `symbols` is a file of names."""

    def __init__(self, folder, name, image, trace, options=(), symbols=None):
        self.name, self.image, self.trace = name, image, trace
        self.path = os.path.join(folder, name + ".html")
        self.named = ["--symbols", symbols] if symbols else []
        with open(self.path, "w", encoding="utf-8") as file:
            file.write(ultra("page", *options, *self.named, trace, image))
        self.machine = ultra("trace", trace).split("\n", 1)[0]
        self.k = int(self.machine.split()[2])
        self.story = ultra("story", trace, image).splitlines()
        self.order = ultra("order", trace, image).splitlines()
        self.steps = len(self.story)
        self.pictures = {}

    def page(self):
        with open(self.path, encoding="utf-8") as file:
            return file.read()

    def picture(self, step):
        if step not in self.pictures:
            self.pictures[step] = ultra("picture", "--step", str(step), *self.named, self.trace, self.image)
        return self.pictures[step]

    def chosen_steps(self, count):
        """So many steps of the run, the first and the last among them, spread over it."""
        return sorted({round(i * self.steps / (count - 1)) for i in range(count)})


class Part(Run):
    """A run of which the page has a part: `count` steps from `first` on. `symbols` is the text of the file of names."""

    def __init__(self, folder, name, run, first, count, symbols=None):
        path = None
        if symbols is not None:
            path = os.path.join(folder, name + ".sym")
            with open(path, "w", encoding="ascii") as file:
                file.write(symbols)
        super().__init__(folder, name, run.image, run.trace, ["--from", str(first), "--steps", str(count)], path)
        self.symbols = symbols or ""
        self.first = min(first, self.steps)
        self.count = min(count, self.steps - self.first)

    def chosen_steps(self, count):
        return sorted({self.first + round(i * self.count / (count - 1)) for i in range(count)})

    def named_story(self):
        return ultra("story", *self.named, self.trace, self.image).splitlines()


def parts(folder, made):
    """Parts of runs: with messages on their way at both ends, with names, one step without an entry, the end, and none."""
    hot_spot = made["hot_spot"]
    labels = os.path.join(folder, "labels")
    ultra("asm", "--symbols", labels, os.path.join(TOP, "examples", "algorithms", "hot_spot.s"), os.path.join(folder, "again.elf"))
    with open(labels, encoding="ascii") as file:
        symbols = file.read()
    yield Part(folder, "middle", hot_spot, 37, 90, symbols + "80000000 00000004 d a_word_with_a_name_of_many_letters\n80000004 d behind\n")
    yield Part(folder, "queues", made["queued"], 150, 200)
    yield Part(folder, "many", made["sixty_four"], 500, 300)
    yield Part(folder, "first", hot_spot, 0, 1)
    yield Part(folder, "sent", hot_spot, next(i for i, line in enumerate(hot_spot.story) if "sends" in line), 1)
    yield Part(folder, "end", made["fault"], 10, 500000)
    yield Part(folder, "none", made["fault"], 4294967295, 500000)


def image_of(folder, name, text=None):
    path = os.path.join(TOP, "examples", name + ".s")
    image = os.path.join(folder, os.path.basename(name) + ".elf")
    if text is not None:
        path = os.path.join(folder, name + ".s")
        with open(path, "w", encoding="ascii") as file:
            file.write(text)
    ultra("asm", path, image)
    return image


def sweep(folder, name, text, *sizes, source=None, budget=None):
    """A run by the sweep; with a budget, one that it ends."""
    image = image_of(folder, text, source)
    trace = os.path.join(folder, name + ".trace")
    ended = ["--unfinished", "--budget", str(budget)] if budget else []
    done = subprocess.run([ULTRA, "run", "--sweep", *sizes, *ended, "--trace", trace, image], stdout=subprocess.PIPE, stderr=subprocess.PIPE,
                          cwd=TOP, check=False)
    if done.returncode > (4 if budget else 1):
        raise RuntimeError(f"{name}: status {done.returncode}: {done.stderr.decode()}")
    return Run(folder, name, image, trace)


def wrong(folder):
    """A saved trace of a wrong algorithm."""
    text = "algorithms/wrong/readers_writers_one_look"
    return Run(folder, "wrong", image_of(folder, text), os.path.join(TOP, "examples", text + ".trace"))


def poked(folder):
    """A debugger's session that writes to registers, to pc and to bytes."""
    image, trace = image_of(folder, "explore/counter"), os.path.join(folder, "poked.trace")
    said = "set 0 5 89abcdef\nset 1 20 10004\nwrite 1 20000 01ff\nwrite 0 80000ffc 2a\nwrite 0 80000000 07\nstep 1\nstep 0\nstep 0\nstep 0\nquit\n"
    ultra("debug", "--stdio", "--k", "1", "--trace", trace, image, input=said.encode())
    return Run(folder, "poked", image, trace)


def runs(folder):
    """The runs of the tests, made in a folder."""
    yield sweep(folder, "hot_spot", "algorithms/hot_spot", "--k", "3", budget=420)
    yield sweep(folder, "barrier", "algorithms/barrier", "--k", "2", budget=600)
    yield sweep(folder, "readers_writers", "algorithms/readers_writers", "--k", "3", "--r", "2", budget=700)
    yield wrong(folder)
    yield sweep(folder, "console", "fetch_and_add_100", "--k", "1", budget=400)
    yield sweep(folder, "alone", "explore/counter", "--k", "0")
    yield sweep(folder, "sixty_four", "explore/counter", "--k", "6")
    yield sweep(folder, "functions", "functions", "--k", "3", "--r", "3", source=FUNCTIONS)
    yield sweep(folder, "fault", "fault", "--k", "1", source=FAULT)
    yield sweep(folder, "queued", "explore/counter", "--k", "4", "--b", "0")
    yield poked(folder)
