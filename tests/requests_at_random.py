"""Requests to `figgroup serve` at random, about operations of several sites and about drawings of these."""

import json
import sys
from pathlib import Path

sys.path.insert(0, str(Path(__file__).resolve().parent.parent / "tools"))
from random_takes import COLOURS, KINDS, Drawing, change, corners  # noqa: E402

EMPTY = "#FIG 3.2\nLandscape\nCenter\nMetric\nA4\n100.00\nSingle\n-2\n# figgroup knows nothing\n1200 2\n"


class Group:
    """Sites that make operations by what they heard of each other, and requests about these."""

    def __init__(self, rand):
        self.rand = rand
        self.knows = {site: [0] * 8 for site in rand.sample(range(1, 9), rand.choice([1, 2, 3, 8]))}
        self.operations, self.unsent, self.texts = {}, [], [EMPTY]

    def learn(self, site, operation):
        """A site hears of an operation, and so of all that this one knows."""
        past, (other, number) = operation["past"], operation["id"]
        self.knows[site] = [max(two) for two in zip(self.knows.setdefault(site, [0] * 8), past)]
        self.knows[site][other - 1] = max(self.knows[site][other - 1], number)

    def add(self, operation):
        if self.operations.setdefault(tuple(operation["id"]), operation) is operation:
            self.learn(operation["id"][0], operation)

    def work(self):
        """A site makes an operation, perhaps behind one that it hears of now."""
        site = self.rand.choice(list(self.knows))
        if self.operations and self.rand.random() < 0.4:
            self.learn(site, self.rand.choice(list(self.operations.values())))
        past = self.knows[site]
        operation = {"id": [site, past[site - 1] + 1], "past": list(past), **self.given(past)}
        self.add(operation)
        self.unsent.append(operation)

    def given(self, past):
        """A new object, or a change of one that is known."""
        rand, known = self.rand, [one for one in self.operations.values() if one["id"][1] <= past[one["id"][0] - 1]]
        creations = [one for one in known if one["op"] == "create"]
        creation = rand.choice(creations) if creations and rand.random() < 0.7 else None
        kind, width = creation["kind"] if creation else rand.choice(list(KINDS.values())), rand.randint(1, 20)
        points = [(0, 0)] * 3 if rand.random() < 0.1 else corners(rand)
        form = {"points": points} if kind == "polygon" else {"size": [width, width if kind == "circle" else rand.randint(1, 20)]}
        values = {"place": rand.choices(range(40), k=2), "colour": rand.choice(COLOURS), "layer": rand.randrange(9), **form}
        values["shown"] = rand.random() < 0.7
        if creation is None:
            return {"op": "create", "kind": kind, **values}
        attribute, name = rand.choice(list(values)), creation["id"]
        aims = [[name], *[sorted([name, one["id"]]) for one in known if one.get("object") == name and "aim" not in one]]
        aim = {"aim": rand.choice(aims)} if rand.random() < 0.1 else {}
        return {"op": "set", "object": name, "set": attribute, "to": values[attribute], **aim}

    def faulty(self):
        """A line that is none, or one that may break a rule."""
        rand, one = self.rand, self.rand.choice(list(self.operations.values()))
        site, past = rand.choice(list(self.knows.items()))
        own = {"id": [site, past[site - 1] + 1], "past": past, "op": "set", "set": "layer", "to": 1}
        own["object"] = one.get("object", one["id"])
        broken = {**own, **rand.choice([
            {"past": [0] * 8}, {"past": [9] * 8}, {"object": [site, 99]}, {"set": "points", "to": [[0, 0], [9, 0], [0, 9]]},
            {"aim": [[8, 99]]}, {"aim": [one["id"]]}, {"to": 10_000}, {"to": "1"}, {"new": 1}, {"id": [9, 1]}])}
        return rand.choice(["{", "#", *[json.dumps({**one, "layer": 8})] * 2, *[json.dumps(broken)] * 6])

    def lines(self):
        rand, again = self.rand, list(self.operations.values())
        for _ in range(rand.randrange(9)):
            self.work()
        sent = [one for one in self.unsent if rand.random() < 0.8] + rand.choices(again, k=rand.randrange(3) if again else 0)
        texts = [json.dumps(one, sort_keys=True, separators=rand.choice([(",", ":"), (", ", " : ")])) for one in sent]
        texts += [" \r"] * (rand.random() < 0.1)
        texts += [self.faulty()] if self.operations and rand.random() < 0.12 else []
        if rand.random() < 0.5:
            rand.shuffle(texts)
        return {"do": "lines"}, ("\n".join(texts) + "\n" * (rand.random() < 0.8)).encode()

    def take(self):
        rand, late = self.rand, {one["id"][0] for one in self.unsent}
        sites = [site for site in self.knows if site not in late or rand.random() < 0.05] or [rand.randint(1, 8)]
        asked = {"do": "take", "site": rand.choice(sites)}
        count = self.knows.get(asked["site"], [0] * 8)[asked["site"] - 1]
        asked.update(rand.choice([{}, {}, {"after": count}, {"after": max(count - 1, 0)}, {"after": rand.randrange(9)}]))
        asked.update(rand.choice([{}, {"named": True}, {"named": True}, {"named": False}]))
        drawing = Drawing(self.texts[-1] if rand.random() < 0.7 else rand.choice(self.texts))
        for _ in range(rand.randint(0, 4)):
            change(rand, drawing)
        text, cut = drawing.text(rand), rand.randrange(9, 300)
        broken = [
            "", "{}\n" + text, text[:cut], text[:cut] + text[cut + 9 :], text[:cut] + "\xfc" + text[cut:],
            text.replace(" 20 ", " 10 "), text.replace("knows ", "knows 1.99 "), text.replace("knows nothing", "knows 8.99")]
        return asked, (rand.choice(broken) if rand.random() < 0.1 else text).encode()

    def named(self):
        return {"do": "named"}, b""

    def status(self):
        return {"do": "status", **self.rand.choice([{}, {"json": True}, {"json": False}])}, b""

    def none(self):
        """What is no request."""
        return self.rand.choice([
            ({}, b""), ({"do": "fig"}, b""), ({"do": "status", "check": True}, b""), ({"do": "named"}, b"x"),
            ({"do": 3}, b"{}\n"), ({"do": "take", "site": 0}, EMPTY.encode()), ({"do": "take", "site": 9}, b"#FIG"),
            ({"do": "take"}, EMPTY.encode()), ({"do": "take", "site": "1"}, b""), ({"do": "lines", "site": 1}, b"{}\n"),
            ({"do": "status", "json": 1}, b"")])

    def request(self):
        """An object, and a body of its length."""
        ways = [self.lines, self.take, self.named, self.status, self.none]
        asked, body = self.rand.choices(ways, [6, 6, 3, 3, 1])[0]()
        return ({**asked, "bytes": len(body)} if body or self.rand.random() < 0.1 else asked), body

    def hear(self, asked, body, answer):
        """Learns what an answer tells."""
        line, _, more = answer.partition(b"\n")
        if json.loads(line).get("refused"):
            return
        if asked["do"] == "lines":
            sent = [json.loads(text) for text in body.splitlines() if text.strip()]
            self.unsent = [one for one in self.unsent if one["id"] not in [other["id"] for other in sent]]
            for operation in sent:
                self.add(operation)
        elif asked["do"] != "status":
            made, mark, text = more.partition(b"#FIG")
            self.texts += [(mark + text).decode()] * (mark != b"")
            for operation in made.splitlines():
                self.add(json.loads(operation))
