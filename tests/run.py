#!/usr/bin/env python3
"""Runs the program once for each row of the tables in rows/, and compares what it answers: tests/run.py [PROGRAM].
Without PROGRAM it is that of FIGGROUP, or the one in bin/.

The words of a row stand behind settings. READ, ROOM, MOST and ALLOCATION are those of tools/refuse.c: READ=0..9 stands for
ten runs. NAME is the word by which the program is called, and 2>/dev/full a standard error that takes nothing.

The input is told by pieces (`input`), by FIG objects with a blank behind each word (`objects`), or by operations. The output
is told by pieces (`output`, and `front` where ROOM cuts it), by a text, or by lines with ` / ` between them. Other cells say
how it `begins` and `ends`, what it `has`, how many `bytes` it has, and by `3 of x` that three lines begin with x. A cell `as`
has the words of another run with the same answer. The lines of standard error lack their `figgroup: `, and `...` is any."""

import os
import re
import subprocess
import sys
import tempfile
from concurrent.futures import ThreadPoolExecutor
from pathlib import Path
from typing import NamedTuple

import damaged
from histories import Unreadable, lines
from tables import TESTS, joined, read_table, unescaped

ROOT = TESTS.parent
sys.path.insert(0, str(ROOT / "tools"))
from preloaded import build_library  # noqa: E402

INPUTS = ["input", "objects", "operations"]
LIMITS = ["READ", "ROOM", "MOST", "ALLOCATION"]
FULL = "2>/dev/full"
SECONDS = 60  # that one run may take


class Answer(NamedTuple):
    """What the program answered."""

    status: int
    output: bytes
    told: bytes


class Program:
    """The program, with the library that refuses what the settings of a run say."""

    def __init__(self, path, library):
        self.path, self.library = path, library

    def answer(self, settings, words, given):
        """What it answers to these words and this input."""
        environment = {key: value for key, value in settings.items() if key in LIMITS}
        if environment:
            environment["LD_PRELOAD"] = str(self.library)
        with open("/dev/full", "wb") as full:
            run = subprocess.run(
                [settings.get("NAME", "figgroup"), *words], executable=self.path, input=given, env=environment,
                stdout=subprocess.PIPE, stderr=full if FULL in settings else subprocess.PIPE, timeout=SECONDS)
        return Answer(run.returncode, run.stdout, run.stderr or b"")


class Run(NamedTuple):
    """A run that a row asks for."""

    place: str
    cells: dict
    pieces: dict
    settings: dict
    words: list

    def given(self):
        """The bytes of the input: operations, or FIG objects with a blank behind each word, or pieces."""
        if "operations" in self.cells:
            return operations(self.cells["operations"], self.pieces)
        if "objects" in self.cells:
            return joined("empty_fig", self.pieces) + joined(self.cells["objects"], self.pieces, " ")
        return joined(self.cells.get("input", ""), self.pieces)


def operations(cell, pieces):
    """The lines of operations with `;` between them, or a call of what is generated."""
    if re.fullmatch(r"\w+\([\d,]+\)", cell):
        return joined(cell, pieces)
    return lines(text for text in cell.split(";") if text.strip()).encode()


def words_of(cell):
    """The settings and the words of a cell. In a word `~` spells a blank."""
    words = cell.split()
    settings = {}
    while words and re.match("[A-Z]+=", words[0]):
        key, _, value = words.pop(0).partition("=")
        if key != "NAME" and not (key in LIMITS and re.fullmatch(r"\d+(\.\.\d+)?", value)):
            raise Unreadable(f"no setting: {key}={value}")
        settings[key] = value
    if FULL in words:
        words.remove(FULL)
        settings[FULL] = ""
    return settings, [unescaped(word.replace("~", " ")) for word in words]


def each_of(settings):
    """The settings themselves, or one of them for each number of a range."""
    for key, value in settings.items():
        span = re.fullmatch(r"(\d+)\.\.(\d+)", value)
        if span:
            return [{**settings, key: str(number)} for number in range(int(span[1]), int(span[2]) + 1)]
    return [settings]


def runs_of(row, pieces):
    """The runs that a row asks for."""
    place, cells = row
    try:
        unknown = set(cells) - set(CHECKS) - {"words", "as", *INPUTS}
        if unknown or "words" not in cells:
            raise Unreadable(f"no words, or other cells: {sorted(unknown)}")
        settings, words = words_of(cells["words"])
        runs = [Run(place, cells, pieces, setting, words) for setting in each_of(settings)]
        if runs == []:
            raise Unreadable("a range of nothing")
    except Unreadable as fault:
        raise Unreadable(f"{place}: {fault}") from None
    return runs


def listed(cell, between):
    """The bytes of the lines of a cell, with this between them."""
    return b"" if cell == "" else b"".join(unescaped(line) + b"\n" for line in cell.split(between))


def told_text(cell):
    """The lines of a cell as the program tells them."""
    return listed("" if cell == "" else "figgroup: " + cell.replace(" / ", " / figgroup: "), " / ")


def count_like(output, cell):
    """Whether so many lines of the output begin so."""
    count, front = cell.split(" of ")
    return sum(line.startswith(unescaped(front)) for line in output.split(b"\n")) == int(count)


# Each kind of cell, and whether an answer is as the cell of a run says.
CHECKS = {
    "status": lambda run, cell, answer: answer.status == int(cell),
    "output": lambda run, cell, answer: answer.output == joined(cell, run.pieces),
    "text": lambda run, cell, answer: answer.output == unescaped(cell),
    "lines": lambda run, cell, answer: answer.output == listed(cell, " / "),
    "front": lambda run, cell, answer: answer.output == joined(cell, run.pieces)[:int(run.settings["ROOM"])],
    "begins": lambda run, cell, answer: answer.output.startswith(unescaped(cell)),
    "has": lambda run, cell, answer: unescaped(cell) in answer.output,
    "ends": lambda run, cell, answer: answer.output.endswith(unescaped(cell)),
    "bytes": lambda run, cell, answer: len(answer.output) == int(cell),
    "count": lambda run, cell, answer: count_like(answer.output, cell),
    "told": lambda run, cell, answer: answer.told != b"" if cell == "..." else answer.told == told_text(cell),
}


def is_right(program, run, kind, cell, answer):
    """Whether an answer is as a cell says. A cell `as` has the words of another run, with more than seven bytes."""
    if kind == "as":
        return answer == program.answer({}, words_of(cell)[1], run.given()) and len(answer.output) > 7
    return kind not in CHECKS or CHECKS[kind](run, cell, answer)


def fault_of(program, run):
    """How the answer to a run differs from its row, or nothing."""
    try:
        answer = program.answer(run.settings, run.words, run.given())
        wrong = [kind for kind, cell in run.cells.items() if not is_right(program, run, kind, cell, answer)]
    except (Unreadable, ValueError, LookupError, subprocess.TimeoutExpired) as fault:
        return f"{run.place}: {type(fault).__name__}: {fault}"
    if wrong:
        return f"{run.place}: {run.settings or ''} {', '.join(wrong)}: {str(run.cells)[:600]}, and not\n  {str(answer)[:600]}"
    return None


def tried(threads, name, rows, asked, trials):
    """Tries each of these, tells what failed, and answers how many passed and failed."""
    faults = [fault for fault in threads.map(asked, trials) if fault is not None]
    for fault in faults:
        print(fault, file=sys.stderr)
    print(f"{name}: {rows} rows, {len(trials)} runs, {len(faults)} failed", flush=True)
    return len(trials) - len(faults), len(faults)


def counts(program, tables, threads):
    """How many runs of each table passed and failed."""
    for table in tables:
        runs = [run for row in table.rows for run in runs_of(row, table.pieces)]
        yield tried(threads, table.name, len(table.rows), lambda run: fault_of(program, run), runs)
    texts = damaged.texts()
    yield tried(threads, "damaged", 1, lambda text: damaged.fault_of(program, *text), texts)


def main():
    path = Path(sys.argv[1] if len(sys.argv) > 1 else os.environ.get("FIGGROUP", ROOT / "bin" / "figgroup"))
    if not path.exists():
        sys.exit(f"no program: {path}")
    try:
        tables = [read_table(file) for file in sorted((TESTS / "rows").glob("*.txt"))]
        with tempfile.TemporaryDirectory() as folder, ThreadPoolExecutor(os.cpu_count()) as threads:
            program = Program(path.resolve(), build_library(folder))
            sums = [sum(column) for column in zip(*counts(program, tables, threads))]
    except Unreadable as fault:
        sys.exit(str(fault))
    print(f"{sums[0]} passed, {sums[1]} failed")
    sys.exit(1 if sums[1] else 0)


main()
