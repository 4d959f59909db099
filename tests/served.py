#!/usr/bin/env python3
"""Asks `figgroup serve` at random, and compares its answers with those of the commands: tests/served.py [RUNS [SEED]].

A run has 1 to 60 requests. Operations of several sites come in any order, some again, some late, some at fault. Drawings are
taken that were changed, of the newest text or of an older one. What is no request is asked, too. Each answer has to be what
`fig --named`, `take` and `status` tell of all lines that came before, to the byte. Half of the runs ask as soon as they have
the answer before, the others ask all at once. Then come inputs and outputs that end a server, and few and many lines at once.

FIGGROUP names the program, else it is the one in bin/."""

import json
import os
import random
import re
import subprocess
import sys
import tempfile
import threading
from multiprocessing import Pool
from pathlib import Path

from requests_at_random import Group

ROOT = Path(__file__).resolve().parent.parent
FIGGROUP = os.environ.get("FIGGROUP", str(ROOT / "bin" / "figgroup"))
SECONDS = 60  # that one run may take
KEYS = {  # beside `do` and `bytes`, with their values
    "lines": {},
    "take": {"site": range(1, 9), "after": range(10_001), "named": (False, True)},
    "named": {},
    "status": {"json": (False, True)},
}


class Refused(Exception):
    """A command was refused, with these words."""


class Unnamed(Exception):
    """A command tells of more polygons than it names."""


def spelled(keys):
    return json.dumps(keys, sort_keys=True, separators=(",", ":")).encode() + b"\n"


def refusal(words):
    return spelled({"bytes": len(words), "refused": True}) + words


def is_request(asked, body):
    """Whether an object, with a body behind it, is a request of the table."""
    given = {key: value for key, value in asked.items() if key not in ("do", "bytes")}
    own = KEYS.get(str(asked.get("do")))
    if own is None or ("site" in own) != ("site" in given) or body and asked["do"] in ("named", "status"):
        return False
    return all(key in own and type(value) is type(own[key][0]) and value in own[key] for key, value in given.items())


def ids_of(found):
    """The first and the last id that a match names, or none."""
    return [list(map(int, name.split("."))) for name in (found[1], found[2] or found[1])] if found else []


def thin(said):
    """The polygons of which it is said that xfig does not keep them."""
    if re.search("^and .* more$", said, re.M):
        raise Unnamed
    return [[int(site), int(number)] for site, number in re.findall(r"^polygon (\d+)\.(\d+) has fewer", said, re.M)]


class Commands:
    """The answers of the commands to requests, by all lines that were taken."""

    def __init__(self):
        self.kept, self.ids = b"", set()

    def answer(self, asked, body):
        """What a server answers to an object with a body of its length."""
        if not is_request(asked, body):
            return refusal(b"no such request")
        try:
            return getattr(self, asked["do"])(asked, body)
        except Refused as refused:
            return refusal(refused.args[0])

    def told(self, given, *words):
        """What a command writes of these bytes, what it says, and its status."""
        run = subprocess.run([FIGGROUP, *words], input=given, capture_output=True, timeout=SECONDS)
        said = re.sub(rb"^figgroup: ", b"", run.stderr, flags=re.M)[:-1]
        if run.returncode and said:
            raise Refused(said)
        return run.stdout, said.decode(), run.returncode

    def keep(self, more):
        """Keeps further lines, and tells how many operations are new."""
        before = len(self.ids)
        self.kept += more
        self.ids |= {tuple(json.loads(line)["id"]) for line in more.split(b"\n") if line.strip()}
        return len(self.ids) - before

    def lines(self, _, body):
        """Keeps lines that read with those before. The lines of a request are counted by themselves."""
        before, more = self.kept.count(b"\n"), body + b"\n" * (body[-1:] not in (b"", b"\n"))
        try:
            wrote, _, _ = self.told(self.kept + more, "status", "--json")
        except Refused as refused:
            words = re.sub(rb"^line (\d+)", lambda found: b"line %d" % (int(found[1]) - before), refused.args[0])
            raise Refused(words) from None
        return spelled({"bytes": 0, "new": self.keep(more), "waiting": wrote.count(b'"waits_for"')})

    def take(self, asked, body):
        if not body.startswith(b"#FIG"):
            raise Refused(b"no drawing behind the operation lines")
        words = ["--site", str(asked["site"])] + ["--named"] * asked.get("named", False)
        words += ["--after", str(asked["after"])] if "after" in asked else []
        wrote, said, _ = self.told(self.kept + body, "take", *words)
        self.keep(wrote.partition(b"#FIG")[0])
        counts = {"changed": 0, "drawn": 0, "hidden": 0}
        counts.update((word, int(count)) for count, word in re.findall(r"(\d+) (changed|drawn|hidden)", said))
        made = re.search(r"^made ([\d.]+)(?: to ([\d.]+))?(?::|$)", said, re.M)
        since = re.search(r"^([\d.]+)(?: to ([\d.]+))? (?:was|were) made since", said, re.M)
        told = {"made": ids_of(made), "since": ids_of(since), "thin": thin(said)}
        return spelled({"bytes": len(wrote), **counts, **told}) + wrote

    def named(self, *_):
        wrote, said, _ = self.told(self.kept, "fig", "--named")
        waiting = re.search(r"^(\d+) operations? waits? and", said, re.M)
        return spelled({"bytes": len(wrote), "thin": thin(said), "waiting": int(waiting[1]) if waiting else 0}) + wrote

    def status(self, asked, _):
        wrote, _, status = self.told(self.kept, "status", "--check", *["--json"] * asked.get("json", False))
        return spelled({"bytes": len(wrote), "clean": status == 0}) + wrote



class Serving:
    """A server that is asked, and ended where it takes too long."""

    def __init__(self, *words, **channels):
        pipes = {"stdin": subprocess.PIPE, "stdout": subprocess.PIPE, "stderr": subprocess.PIPE, **channels}
        self.process = subprocess.Popen([FIGGROUP, "serve", *words], **pipes)
        self.timer = threading.Timer(SECONDS, self.process.kill)
        self.timer.start()

    def ask(self, request, count):
        """So many bytes of the answer, or fewer where it has ended."""
        try:
            self.process.stdin.write(request)
            self.process.stdin.flush()
        except BrokenPipeError:
            pass
        return self.process.stdout.read(count)

    def end(self, request=b""):
        """What it still answers to this, and then its status and whether it tells something."""
        wrote, told = self.process.communicate(request)
        self.timer.cancel()
        return wrote or b"", self.process.returncode, bool(told)


def asked_of(rand):
    """The requests of a run, and the answers of the commands. It ends before an answer that these do not tell whole."""
    group, commands, pairs = Group(rand), Commands(), []
    for _ in range(rand.randint(1, 60)):
        asked, body = group.request()
        try:
            answer = commands.answer(asked, body)
        except Unnamed:
            break
        group.hear(asked, body, answer)
        pairs.append((json.dumps(asked, sort_keys=rand.random() < 0.5).encode() + b"\n" + body, answer))
    return pairs


def fault_of(seed):
    """How the answers of a run differ from those of the commands, or nothing; and how many requests it has."""
    rand = random.Random(seed)
    pairs = asked_of(rand)
    requests, answers = (b"".join(column) for column in zip(*pairs))
    server = Serving("--workers", str(rand.randint(1, 16)))
    if rand.random() < 0.5:
        wrote = b"".join(server.ask(request, len(answer)) for request, answer in pairs)
        ended = server.end()
    else:
        wrote, *ended = server.end(requests)
        ended = b"", *ended
    if (wrote, *ended) == (answers, b"", 0, False):
        return None, len(pairs)
    with tempfile.NamedTemporaryFile("wb", prefix="served_", delete=False) as file:
        file.write(requests)
    place = len(os.path.commonprefix([wrote, answers]))
    return f"run {seed}: figgroup serve < {file.name}: byte {place}: {wrote[place:][:200]}, and not {answers[place:][:200]}; {ended}", 0


NONE, CLEAN = refusal(b"no request"), b'{"bytes":0,"clean":true}\n'
ENDS = [  # an input, what is answered to it, and the status then
    (b"", b"", 0),
    (b'{"do":"status"}\n' * 2, CLEAN * 2, 0),
    (b'{"do":"status"%s}\n' % (b" " * 985), CLEAN, 0),
    (b'{"do":"status"%s}\n' % (b" " * 986), NONE, 1),
    (b'{"do":"lines","bytes":16777216}\n' + b" " * 16_777_215 + b"\n", b'{"bytes":0,"new":0,"waiting":0}\n', 0),
    (b'{"bytes":16777216}\n' + b"{" * 16_777_216 + b'{"do":"status"}\n', refusal(b"no such request") + CLEAN, 0),
    *((b'{"do":"lines","bytes":%s}\n{}\n' % count, NONE, 1) for count in (b"-1", b"16777217", b'"3"', b"true", b"null", b"[]")),
    *((b'{"do":"status"}\n%s\n{"do":"status"}\n' % line, CLEAN + NONE, 1) for line in (b"", b"[]", b"{", b"{} 1", b"3", b"\xff")),
    *((b'{"do":"status"}\n%s' % cut, CLEAN, 1) for cut in (b"{", b'{"do":"status"}', b'{"do":"lines","bytes":3}\n{}', b'{"bytes":1}\n')),
]


def ends():
    """Asks what ends a server, and lets it read and write what fails. What is wrong with its answers."""
    for request, answer, status in ENDS:
        wrote, ended, told = Serving().end(request)
        if (wrote, ended) != (answer, status) or told and status == 0:
            yield f"{request[:99]}: {wrote[:200]}, {ended}, and not {answer[:200]}, {status}"
    closed, pipe = os.pipe()
    os.close(closed)
    for channels in ({"stdout": os.open("/dev/full", os.O_WRONLY)}, {"stdout": pipe}, {"stdin": os.open("/", os.O_RDONLY)}):
        wrote, ended, _ = Serving(**channels).end(b'{"do":"status"}\n')
        if (wrote, ended) != (b"", 1):
            yield f"{list(channels)} fails: {wrote}, {ended}"


def move(number):
    """The line of an operation of site 1, which creates one of ten boxes, or moves one."""
    made = {"id": [1, number], "past": [number - 1] + [0] * 7}
    if number <= 10:
        box = {"kind": "box", "place": [9 * number, 0], "size": [8, 8], "colour": "0000ff", "layer": 1, "shown": True}
        return spelled({**made, "op": "create", **box})
    return spelled({**made, "op": "set", "object": [1, number % 10 + 1], "set": "place", "to": [number, number % 7]})


def grows():
    """Asks what is drawn between few lines and many, more than a server forgets one by one. What is wrong with its answers."""
    lines, commands, server = [move(number) for number in range(1, 2401)], Commands(), Serving()
    for first, last in ((0, 100), (100, 1400), (1400, 2400)):
        body = b"".join(lines[first:last])
        for asked, given in (({"do": "lines", "bytes": len(body)}, body), ({"do": "named"}, b""), ({"do": "status"}, b"")):
            answer = commands.answer(asked, given)
            wrote = server.ask(spelled(asked) + given, len(answer))
            if wrote != answer:
                yield f"{asked['do']} behind {last} lines: {wrote[:200]}, and not {answer[:200]}"
    server.end()


def main():
    runs, seed = [*sys.argv[1:], *["300", "1"][len(sys.argv) - 1 :]]
    with Pool(os.cpu_count()) as pool:
        found = pool.map(fault_of, [f"{seed}.{number}" for number in range(int(runs))], 1)
    faults = [fault for fault, _ in found if fault] + list(ends()) + list(grows())
    for fault in faults:
        print(fault, file=sys.stderr)
    print(f"served: {runs} runs of {sum(count for _, count in found)} requests, {len(faults)} failed")
    print(f"{int(runs) - len(faults)} passed, {len(faults)} failed")
    sys.exit(1 if faults else 0)


if __name__ == "__main__":
    main()
