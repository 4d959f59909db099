"""Measures the rows of one table: each run beside another one, in turn, so that a load meets both alike.

A row tells the seconds of a run and of the one beside it, each the best of its rounds, how often the
second goes into the first, and the goal. Then come the seconds of all its processors, in the same
way. Memory is the greatest of a run. What the runs answer is checked too.
"""

import os
import resource
import shutil
import subprocess
import sys
import tempfile
import time
from dataclasses import dataclass, field

ROOT = os.path.dirname(os.path.dirname(os.path.abspath(__file__)))
FIGGROUP = f"{ROOT}/bin/figgroup"
PLAIN = f"{ROOT}/crates/bench_lines/out/bench_lines"
READER = f"{ROOT}/crates/bench_fig/out/bench_fig"
ROUNDS = 5
SIDE = 4_096
BUSY = 8
SESSIONS = 50


def processor_seconds():
    """What all ended children took of the processors."""
    used = resource.getrusage(resource.RUSAGE_CHILDREN)
    return used.ru_utime + used.ru_stime


@dataclass
class Run:
    """A command with its input; what it took, once it was measured."""

    words: list
    source: str = os.devnull
    # None where a refusal is an answer too.
    status: int | None = 0
    seconds: float = 1e9
    processor: float = 1e9
    kib: int = 0
    output: bytes = field(default=b"", repr=False)

    def measure(self, folder):
        told = f"{folder}/told"
        with open(self.source, "rb") as source, open(f"{folder}/output", "wb") as output:
            before, began = processor_seconds(), time.perf_counter()
            timed = ["/usr/bin/time", "-q", "-o", told, "-f", "%M", *self.words]
            ended = subprocess.run(timed, stdin=source, stdout=output, stderr=subprocess.PIPE)
            seconds = time.perf_counter() - began
        if ended.returncode not in ((0, 1) if self.status is None else (self.status,)):
            sys.exit(f"{self.words} < {self.source}: status {ended.returncode}: {ended.stderr.decode()}")
        self.seconds = min(self.seconds, seconds)
        self.processor = min(self.processor, processor_seconds() - before)
        with open(told) as kib:
            self.kib = max(self.kib, int(kib.read()))
        with open(f"{folder}/output", "rb") as output:
            self.output = output.read()


@dataclass
class Row:
    """A run beside another one, and how many times as long it may take; or alone, with its seconds."""

    name: str
    run: Run
    beside: Run = None
    goal: float = None
    # How many times its input a run may take of memory.
    memory: float = None

    def tell(self):
        run, beside, goal = self.run, self.beside, "" if self.goal is None else f"{self.goal:g}"
        times = f"{run.seconds / beside.seconds:.2f}" if beside else ""
        second = f"{beside.seconds:.3f}" if beside else ""
        more = f"{run.processor / beside.processor:.2f}" if beside else ""
        memory = f"{run.kib / 1024:.0f} MiB"
        if self.memory:
            memory += f", {run.kib * 1024 / os.stat(run.source).st_size:.1f} times (goal {self.memory:g})"
        value = run.seconds / beside.seconds if beside else run.seconds
        missed = " **missed**" if self.goal is not None and value > self.goal else ""
        return f"| {self.name} | {run.seconds:.3f} | {second} | {times} | {goal}{missed} | {run.processor:.3f} | {more} | {memory} |"


def fig(folder, name, workers=1, status=0):
    return Run([FIGGROUP, "fig", "--workers", str(workers)], f"{folder}/{name}.jsonl", status)


def line_rows(folder):
    plain = Run([PLAIN], f"{folder}/causal.jsonl")
    one, few, roomy = fig(folder, "causal"), fig(folder, "few"), fig(folder, "roomy", 4)
    four, shuffled, backwards = (fig(folder, name, 4) for name in ("causal", "shuffled", "backwards"))
    status = Run([FIGGROUP, "status"], f"{folder}/causal.jsonl")
    inspect = Run([FIGGROUP, "inspect", "--object", "1.1"], f"{folder}/causal.jsonl")
    edit = Run([FIGGROUP, "edit", "--site", "1"], f"{folder}/commands.jsonl")
    yield Row("`fig` of 80,000 lines, one worker, beside reading their JSON", one, plain, 2.5, 3)
    yield Row("the same, four workers", four, plain, 1, 3)
    yield Row("shuffled, four workers, beside causal order", shuffled, four, 1.3, 3)
    yield Row("backwards, four workers, beside causal order", backwards, four, 1.3, 3)
    yield Row("80,000 lines beside 8,000, one worker", one, few, 11)
    yield Row("`status` beside `fig`", status, four, 1.1)
    yield Row("`inspect` of an object beside `fig`", inspect, four, 1.1)
    yield Row("`edit` of ten commands on 79,900 lines beside `fig` of these with one worker", edit, fig(folder, "roomy"), 1.1)


def take_rows(folder):
    """A drawing of 1,000 figures, as it was written, and with another colour of a figure in the middle."""
    lines, plain = f"{folder}/figures.jsonl", fig(folder, "figures")
    named = Run([FIGGROUP, "fig", "--named", "--workers", "1"], lines)
    named.measure(folder)
    text = named.output.decode().splitlines(keepends=True)
    middle = next(k for k in range(len(text) // 2, len(text)) if text[k].startswith("2 2"))
    box = text[middle].split(" ")
    changed = [*text[:middle], " ".join([*box[:4], "4", "4", *box[6:]]), *text[middle + 1 :]]
    for name, saved in (("same", text), ("changed", changed)):
        with open(lines) as before, open(f"{folder}/{name}.jsonl", "w") as after:
            after.write(before.read() + "".join(saved))
    same, changed = (Run([FIGGROUP, "take", "--site", "1", "--workers", "1"], f"{folder}/{name}.jsonl") for name in ("same", "changed"))
    yield Row("`fig --named` of 1,000 figures beside `fig`, one worker", named, plain, 2)
    yield Row("`take` of their text, unchanged, beside `fig`", same, plain, 2)
    yield Row("the same, one figure of another colour", changed, plain, 2)


def conflict_rows(folder):
    for name, text, goal in (
        ("equal", "eight sites give a box one colour 9,875 times each, apart", 3),
        ("moves", "eight sites move a box 2,000 times each, apart", 10),
        ("grid", "the same on 1,000 by 1,000 places", 10),
        ("fifty", "the same among 50 places", 50),
        ("busy", "one site colours a box 9,900 times, seven move it as often, apart", 10),
        ("rare", "eight sites move a box 1,000 times each, and hear of each other before one in a thousand", 10),
        ("often", "the same 200 times, before one in fifty", 10),
    ):
        yield Row(f"{text}, beside causal order", fig(folder, f"{name}_apart"), fig(folder, f"{name}_causal"), goal)
    yield Row("200 conflicts of one object: too many versions", fig(folder, "rounds_200", status=1), None, 0.1)
    yield Row("the same, hidden: nothing is drawn", fig(folder, "hidden_200"), None, 0.1)


def strange_rows(folder):
    """Inputs of strangers, one round each, as some are slow."""
    inspect = ["sh", "-c", 'ulimit -v 2000000 && exec "$0" inspect --at=5,5', FIGGROUP]
    yield Row("`inspect --at` of 30 conflicts of one object, with 2 GB: out of memory", Run(inspect, f"{folder}/rounds_30.jsonl", 1), None)
    little = Run(["sh", "-c", 'ulimit -s 512 && exec "$0" fig', FIGGROUP], f"{folder}/deep.jsonl", 1)
    yield Row("2,800 hides of a box, each an open choice, with 512 KB of stack", little, None, 2)
    for name, text, goal, status in (
        ("crossed", "two sites at once hide and show a box, 9,998 times each", 10, 1),
        ("toggles_400", "eight sites hide or show a box 50 times each, and hear of each other before one in twenty", 2, None),
        ("toggles_800", "the same 100 times", 10, None),
        ("toggles_apart", "the same 1,000 times, apart", 10, None),
        ("places_apart", "eight sites move a box among 5,000 places 9,875 times each, apart", 5, 1),
        ("hidden_aims", "eight sites change a box 2,000 times each, apart, and seven hide it each second time by an aim", 1, 0),
    ):
        yield Row(text, fig(folder, name, status=status), None, goal)
    status = Run([FIGGROUP, "status"], f"{folder}/hides_apart.jsonl")
    yield Row("`status` where eight sites hide a box 9,900 times each, apart", status, None, 1)
    rows = [FIGGROUP, "repaint", "--width", str(SIDE), "--height", "64", "--y", "1000"]
    yield Row("`repaint` of 22 saws of 65,534 points, 64 rows", Run(rows, f"{folder}/saws.fig"), None, 10)


def aim_rows(folder):
    yield Row("200 conflicts, each settled by an aim at one operation", fig(folder, "settled_200"), None, 0.1)
    yield Row("60 conflicts, each settled by an aim at a whole version", fig(folder, "whole_60"), None, 0.5)
    for count, goal in ((200, 0.05), (400, 0.2)):
        yield Row(f"{count} conflicts of a box, each settled by `keep`", fig(folder, f"kept_{count}"), None, goal)
    aimed, plain = fig(folder, "changed_aimed"), fig(folder, "changed_plain")
    yield Row("200 conflicts and 2,000 changes aimed at versions, beside changes without aims", aimed, plain)
    yield Row("2,104 changes aimed at 1,000 operations each, 16 MiB", fig(folder, "bomb"), None)


def text_rows(folder):
    def read(name, word="read", status=0):
        return Run([READER, word], f"{folder}/{name}.fig", status)

    yield Row("1,000 polygons read, beside splitting their text", read("thousand"), read("thousand", "scan"), 3)
    yield Row("10,000 polygons beside 1,000", read("ten_thousand"), read("thousand"), 11)
    for name, text, status in (
        ("token", "one token of 16 MiB", 1),
        ("decimal", "one decimal of 16 MiB", 1),
        ("blanks", "blanks", 0),
        ("lines", "line feeds", 0),
        ("comments", "comments", 0),
        ("unheaded", "comments before the header", 1),
    ):
        yield Row(f"{text}, beside a sixteenth of it", read(f"{name}-most", status=status), read(f"{name}-few", status=status), 17)


def picture_rows(folder):
    size = ["--width", str(SIDE), "--height", str(SIDE)]

    def repaint(name, workers, before=()):
        return Run([*before, FIGGROUP, "repaint", *size, "--workers", str(workers)], f"{folder}/{name}.fig")

    fill = Run(["dd", "if=/dev/zero", f"bs={3 * SIDE * 64}", f"count={SIDE // 64}", "status=none"])
    for name, text, goal, faster in (
        ("boxes", "1,000 boxes", 2, 1.1),
        ("circles", "1,000 circles", 2, 1.1),
        ("ellipses", "1,000 ellipses", 2, 1.1),
        ("polygons", "1,000 polygons", 3, 1.1),
        ("large", "1,000 large polygons", None, 0.4),
        ("stars", "1,000 large stars", None, 0.4),
        ("combs", "16 combs of 21 teeth", None, 0.4),
        ("many", "20,000 small polygons", None, 1.1),
    ):
        one = repaint(name, 1)
        yield Row(f"`repaint` of {text}, one worker, beside filling and writing", one, fill, goal)
        yield Row("the same, four workers, beside one", repaint(name, 4), one, faster)
    hair = f"{folder}/hair.fig"
    row = [FIGGROUP, "repaint", "--width", str(SIDE), "--height", "64"]
    yield Row("200 combs of 1,024 teeth, 64 rows", Run(row, hair), None, 2)
    if shutil.which("fig2dev"):
        fig2dev = Run(["fig2dev", "-L", "ppm", f"{folder}/boxes.fig", f"{folder}/fig2dev.ppm"])
        yield Row("1,000 boxes beside fig2dev", repaint("boxes", 1), fig2dev)


def busy_rows(folder):
    """Four workers beside one, while as many processes as this keep all processors busy."""
    size = ["--width", str(SIDE), "--height", str(SIDE)]
    for name in ("boxes", "large"):
        runs = [Run([FIGGROUP, "repaint", *size, "--workers", str(n)], f"{folder}/{name}.fig") for n in (4, 1)]
        yield Row(f"{name} with four workers beside one, under a load of eight processes", runs[0], runs[1], 2)
    yield Row("`fig` with four workers beside one, under the same load", fig(folder, "causal", 4), fig(folder, "causal"), 2)


def session_rows(folder):
    session = [FIGGROUP, "session", "--sites", "8"]
    changes, awaits = Run(session, f"{folder}/changes.jsonl"), Run(session, f"{folder}/awaits.jsonl")
    core = Run(["taskset", "-c", "0", *session], f"{folder}/awaits.jsonl")
    yield Row("a session of 8,000 changes beside `fig` of its operations", changes, fig(folder, "operations"), 3)
    yield Row("one of 2,400 awaits on one core, beside all cores", core, awaits, 10)


def agree(folder):
    """Sessions whose outcome is one whatever the threads do come to it."""
    run = Run([FIGGROUP, "session", "--sites", "8"], f"{folder}/awaits.jsonl")
    with open(f"{folder}/awaits.txt", "rb") as wanted:
        wanted = wanted.read()
    for _ in range(SESSIONS):
        run.measure(folder)
        if run.output != wanted:
            sys.exit("a session came to another outcome")


def measured(folder, rows, rounds=ROUNDS):
    """The rows, each run measured in as many rounds."""
    rows = list(rows)
    runs = {id(run): run for row in rows for run in (row.run, row.beside) if run}
    for _ in range(rounds):
        for run in runs.values():
            run.measure(folder)
    return rows


def same(rows):
    """The rows, whose runs answer the same bytes."""
    if len({row.run.output for row in rows}) != 1:
        sys.exit("one answer differs from the others")


def main():
    with tempfile.TemporaryDirectory() as folder:
        for inputs in ("fig", "conflict", "aim", "fig_read", "paint", "session"):
            subprocess.run(["python3", f"{ROOT}/bench/{inputs}_inputs.py", folder], check=True)
        print("| run | seconds | beside | times | goal | processor seconds | times | memory |")
        print("|---|---|---|---|---|---|---|---|")
        lines = measured(folder, line_rows(folder))
        same(lines[:4])
        rows = lines
        for part in (take_rows, conflict_rows, aim_rows, text_rows, picture_rows, session_rows):
            rows += measured(folder, part(folder))
        rows += measured(folder, strange_rows(folder), 1)
        busy = [subprocess.Popen([sys.executable, "-c", "while True: pass"]) for _ in range(BUSY)]
        try:
            rows += measured(folder, busy_rows(folder))
        finally:
            for process in busy:
                process.kill()
        agree(folder)
        for row in rows:
            print(row.tell())


main()
