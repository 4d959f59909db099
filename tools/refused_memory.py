#!/usr/bin/env python3
"""Runs each call of test_memory and each command with its first allocation refused, with its second, and so on to its last.

A refused call has to answer want of memory, leave what was there, and answer rightly when it is called again: test_memory
tells by one line whether it did. A refused command has to end with status 1, want of memory for an answer, and no output but the
header and whole bands of a picture. A server may refuse the request for want of memory, and then goes on as if it had not been
asked. Where the program does without what was refused, the answer has to be the expected one:
of calls, only those may do so of which test_memory says it. The threads of a command are refused likewise: it has to start as
many as are told here, and only a session may be refused for want of one."""

import json
import os
import re
import subprocess
import sys
import tempfile
from concurrent.futures import ThreadPoolExecutor
from pathlib import Path

from preloaded import build_library

ROOT = Path(__file__).resolve().parent.parent
EXAMPLES = ROOT / "examples"
LIMIT = 60  # seconds that one run may take


def input_of(example, pattern="*.jsonl"):
    return b"".join(path.read_bytes() for path in sorted((EXAMPLES / example).glob(pattern)))


def words_of(example, name):
    return (EXAMPLES / example / name).read_text().split()


class Refuser:
    """Runs a program with one of its allocations or threads refused."""

    def __init__(self, folder):
        self.library = build_library(folder)

    def run(self, words, given, what, number, between):
        """The run, and whether anything was refused in it."""
        ended, told = os.pipe()
        environment = {"LD_PRELOAD": str(self.library), what: str(number), "TOLD": str(told)}
        if between:
            environment["BETWEEN"] = "1"
        try:
            run = subprocess.run(words, input=given, env=environment, pass_fds=[told], capture_output=True, timeout=LIMIT)
        finally:
            os.close(told)
        refused = os.read(ended, 1)
        os.close(ended)
        return run, refused != b""


class Call:
    """A public call on its worked example, as test_memory runs it."""

    what = "ALLOCATION"
    threads = None
    between = True
    given = b""

    def __init__(self, program, line):
        self.name, answer = line.split(": ", 1)
        self.words = [program, self.name]
        self.may_do_without = answer == "right; may do without"
        if not self.may_do_without and answer != "right":
            sys.exit(f"{line}, with nothing refused")

    def came(self, run, refused):
        """What came of a run, or none where it must not come."""
        answer = run.stdout.decode().strip()
        if run.returncode != 0:
            return None
        if answer == "right":
            return "right" if self.may_do_without or not refused else None
        return answer if re.fullmatch(r"(OutOfMemory|WriteFailed), then right", answer) and refused else None


class Command:
    """A command on an example, of which the allocations are refused, or the threads where it is told how many it starts."""

    between = False

    def __init__(self, program, words, given, threads=None):
        self.name = "figgroup " + " ".join(words) + (", its threads" if threads else "")
        self.words, self.given, self.threads = [program, *words], given, threads
        self.what = "THREAD" if threads else "ALLOCATION"
        self.refusal = refusal_of(words[0], self.what)
        whole = subprocess.run(self.words, input=given, capture_output=True)
        self.expected, self.status = whole.stdout, whole.returncode
        if self.status > 1:
            sys.exit(f"{self.name}: status {self.status}, with nothing refused")

    def is_front(self, output):
        """Whether this is nothing, or the header and whole bands of a picture."""
        header = re.match(rb"P6\n(\d+) \d+\n255\n", self.expected)
        if output == b"" or header is None:
            return output == b""
        band = 64 * 3 * int(header[1])
        return self.expected.startswith(output) and (len(output) - header.end()) % band == 0

    def came(self, run, refused):
        """What came of a run, or none where it must not come."""
        if run.returncode == self.status and run.stdout == self.expected and b"memory" not in run.stderr:
            return "as expected"
        answers_so = self.refusal and re.fullmatch(self.refusal, run.stderr)
        return "out of memory" if refused and run.returncode == 1 and answers_so and self.is_front(run.stdout) else None


class Server:
    """A server that is asked. A request that is refused for want of memory leaves all as it was."""

    what, between, threads = "ALLOCATION", False, None

    def __init__(self, program, requests):
        self.name, self.words, self.given = "figgroup serve", [program, "serve"], b"".join(requests)
        self.expected = self.answers(self.given)
        self.without = [self.answers(b"".join(requests[:n] + requests[n + 1 :])) for n in range(len(requests))]
        if len(self.expected) != len(requests):
            sys.exit(f"{self.name}: {len(self.expected)} answers to {len(requests)} requests, with nothing refused")

    def answers(self, given):
        return whole_answers(subprocess.run(self.words, input=given, capture_output=True, check=True).stdout)

    def came(self, run, refused):
        """What came of a run, or none where it must not come."""
        answers = whole_answers(run.stdout)
        if run.returncode == 0 and answers == self.expected:
            return "as expected"
        if not refused or answers is None:
            return None
        if run.returncode == 1 and answers == self.expected[: len(answers)]:
            return "ended"
        place = answers.index(OUT_OF_MEMORY) if OUT_OF_MEMORY in answers else 0
        left_out = answers[:place] + answers[place + 1 :]
        is_right = run.returncode == 0 and answers[place : place + 1] == [OUT_OF_MEMORY] and left_out == self.without[place]
        return "out of memory" if is_right else None


OUT_OF_MEMORY = b'{"bytes":13,"refused":true}\nout of memory'


def whole_answers(wrote):
    """The answers of a server, or none where one is cut off."""
    answers = []
    while wrote:
        line, end, _ = wrote.partition(b"\n")
        length = len(line) + 1 + json.loads(line)["bytes"] if end else len(wrote) + 1
        if length > len(wrote):
            return None
        answers.append(wrote[:length])
        wrote = wrote[length:]
    return answers


def refusal_of(command, what):
    """The line that tells want of memory, or none where a command does without what is refused."""
    if what == "THREAD":
        return rb"figgroup: session: out of memory\n" if command == "session" else None
    return rb"figgroup: (session: )?out of memory\n" if command == "session" else rb"figgroup: out of memory\n"


def refuse_each(refuser, trial):
    """Refuses the first, the second and so on, until a run meets no refusal: how often what came."""
    came = {}
    number = 1
    while True:
        run, refused = refuser.run(trial.words, trial.given, trial.what, number, trial.between)
        answer = trial.came(run, refused)
        if answer is None:
            raise SystemExit(f"{trial.name}, number {number}: status {run.returncode}, {run.stdout[:200]}, {run.stderr[:200]}")
        if not refused:
            break
        came[answer] = came.get(answer, 0) + 1
        number += 1
    if trial.threads not in (None, number - 1):
        raise SystemExit(f"{trial.name}: {number - 1} started, and not {trial.threads}")
    told = "; ".join(f"{count} {answer}" for answer, count in sorted(came.items()))
    return f"{trial.name}: {number - 1} refused" + (f": {told}" if told else "")


def is_current(program):
    """Whether the program is there and no older than its sources."""
    sources = [path for path in (ROOT / "crates").rglob("*") if path.is_file() and path.name != "README.md" and "out" not in path.parts]
    newest = max(path.stat().st_mtime for path in [ROOT / "crates.txt", *sources])
    return program.exists() and program.stat().st_mtime >= newest


def built(name):
    """The program of this name, proved and built where it is missing or older than its sources."""
    program = ROOT / "crates" / name / "out" / name
    if not is_current(program):
        print(f"{name}: proving and building", file=sys.stderr)
        subprocess.run(["rt", "run"], cwd=ROOT / "crates" / name, check=True, stdin=subprocess.DEVNULL, capture_output=True)
        program.touch()
    return program


def combs(count):
    """A FIG text of so many combs over 1,000 by 128 points."""
    header = "#FIG 3.2\nLandscape\nCenter\nMetric\nA4\n100.00\nSingle\n-2\n1200 2\n"
    points = [point for k in range(100) for point in ((10 * k, 0), (10 * k + 5, 128))]
    points = " ".join(f"{x} {y}" for x, y in points + points[:1])
    comb = f"2 3 0 0 1 1 50 -1 20 0.000 0 0 -1 0 0 201\n\t {points}\n"
    return (header + comb * count).encode()


def zigzags(count):
    """The lines that create so many polygons of 64 points over 1,000 by 128."""
    zigzag = {"kind": "polygon", "place": [0, 0], "points": [[15 * k, 128 * (k % 2)] for k in range(64)]}
    zigzag.update(op="create", colour="ff0000", layer=0, shown=True)
    lines = [json.dumps({**zigzag, "id": [1, n + 1], "past": [n] + [0] * 7}) + "\n" for n in range(count)]
    return "".join(lines).encode()


def commands(program):
    lines, places = input_of("three-sites"), input_of("two-places")
    edited, mistakes = input_of("two-colours", "[sc]*.jsonl"), input_of("mistakes")
    waiting = input_of("three-sites", "site-[23].jsonl")
    window, figure = words_of("two-places", "window"), input_of("two-places", "expected.fig")
    box = input_of("xfig/box", "site-*.jsonl")
    changed = box + (EXAMPLES / "xfig" / "box" / "name-deleted-and-moved.fig").read_bytes()
    session, script = ["session", "--sites", *words_of("session", "sites")], input_of("session")
    return [
        Command(program, ["fig"], lines),
        Command(program, ["fig"], waiting),
        Command(program, ["fig", "--named"], box),
        Command(program, ["paint", *window, "--workers", "3"], places),
        Command(program, ["repaint", *window], figure),
        Command(program, ["paint", "--fit"], places),
        Command(program, ["repaint", "--fit"], figure),
        Command(program, ["import", "--site", "1"], figure),
        Command(program, ["inspect", "--object", "1.1"], lines),
        Command(program, ["inspect", "--at", "0,0"], lines),
        Command(program, ["inspect", "--object", "all", "--json"], lines),
        Command(program, ["edit", "--site", "1"], edited),
        Command(program, ["take", "--site", "3"], changed),
        Command(program, ["status"], lines),
        Command(program, ["status", "--json"], lines),
        Command(program, ["check"], mistakes),
        Command(program, session, script),
        Command(program, session, script, threads=2),
        *threaded(program),
        Server(program, requests()),
    ]


def request(body=b"", **keys):
    """A request to a server."""
    return json.dumps({**keys, "bytes": len(body)} if body else keys).encode() + b"\n" + body


def requests():
    """Requests of each kind, some of which are refused anyway."""
    box, mistakes = input_of("xfig/box", "site-*.jsonl"), input_of("mistakes")
    changed = (EXAMPLES / "xfig" / "box" / "name-deleted-and-moved.fig").read_bytes()
    return [
        request(do="named"),
        request(box, do="lines"),
        request(do="named"),
        request(changed, do="take", site=3, named=True),
        request(changed.replace(b" 20 ", b" 10 "), do="take", site=3),
        request(mistakes, do="lines"),
        request(do="status"),
        request(box, do="lines"),
        request(changed, do="take", site=4, after=0),
        request(do="status", json=True),
        request(do="fig"),
    ]


def threaded(program):
    """Commands of several workers, one of which is the first thread. All of them read so many lines, one of them two blocks of
    lines. They share two bands, for each of which threads start twice, or paint three bands of their own."""
    read = input_of("red-box") * 1_000
    low = ["--width", "1000", "--height", "128", "--workers", "3"]
    high = ["--width", "1000", "--height", "192", "--workers", "3"]
    return [
        Command(program, ["fig", "--workers", "4"], read, threads=3),
        Command(program, ["fig", "--workers", "4"], read * 5, threads=2 * 3),
        Command(program, ["inspect", "--object", "1.1", "--workers", "4"], read, threads=3),
        Command(program, ["inspect", "--at", "0,0", "--workers", "4"], read, threads=3),
        Command(program, ["status", "--workers", "4"], read, threads=3),
        Command(program, ["paint", *low], zigzags(100) * 8, threads=2 + 2 * 2 * 2),
        Command(program, ["paint", "--fit", *high], zigzags(100) * 8, threads=2 + 2),
        Command(program, ["repaint", *high], combs(20), threads=2),
        Command(program, ["repaint", "--fit", *low], combs(20), threads=2 * 2 * 2),
    ]


def main():
    calls = built("test_memory")
    listed = subprocess.run([calls], capture_output=True, text=True, check=True).stdout
    trials = [Call(calls, line) for line in listed.splitlines()] + commands(Path(os.environ.get("FIGGROUP", ROOT / "bin" / "figgroup")))
    with tempfile.TemporaryDirectory() as folder, ThreadPoolExecutor(os.cpu_count()) as threads:
        refuser = Refuser(folder)
        for line in threads.map(lambda trial: refuse_each(refuser, trial), trials):
            print(line, flush=True)


main()
