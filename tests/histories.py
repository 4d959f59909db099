"""Operation lines of short texts, as `2.1 after 1 0 3: 1.1 layer 3` and `1.1: box 3 4, colour ff0000`, and of histories of
many operations."""

import json
import re


class Unreadable(Exception):
    """Why a row or a piece can't be read."""


def id_list(count):
    """The ids of the first operations of site 1, with commas between them."""
    return ",".join(f"[1,{number}]" for number in range(1, count + 1))


def name(text):
    """`2.1`: a site and a number."""
    if not re.fullmatch(r"\d+\.\d+", text):
        raise Unreadable(f"no id: {text}")
    return numbers(text.replace(".", " "))


def names(text):
    return [name(word) for word in text.split()]


def numbers(text):
    return [int(word) for word in text.split()]


def point(text):
    """`-5,7`."""
    return numbers(text.replace(",", " "))


def points(text):
    return [point(word) for word in text.split()]


def truth(text):
    return {"true": True, "false": False}[text]


VALUES = {"place": point, "points": points, "size": numbers, "colour": str, "layer": int, "shown": truth}


def value(text):
    """`layer 3`: an attribute, and its value."""
    attribute, _, to = text.partition(" ")
    return attribute, VALUES[attribute](to)


def creation(text):
    """`box 3 4, place 100,200, colour ff0000, layer 3, shown false`: a black object at the origin but for its values."""
    form, *values = text.split(", ")
    kind, _, size = form.partition(" ")
    made = {"op": "create", "kind": kind, "place": [0, 0], "colour": "000000", "layer": 0, "shown": True}
    made.update([value(f"points {size}" if kind == "polygon" else f"size {size}")])
    made.update(map(value, values))
    return made


def change(text):
    """`1.1 layer 3`, `1.1 layer 3 aim 1.1 1.2`, or what a new object is."""
    first, _, rest = text.partition(" ")
    if "." not in first:
        return creation(text)
    rest, _, aim = rest.partition(" aim ")
    attribute, to = value(rest)
    made = {"op": "set", "object": name(first), "set": attribute, "to": to}
    return {**made, "aim": names(aim)} if aim else made


def line(text):
    """The line of an operation."""
    try:
        front, what = text.strip().split(": ", 1)
        own, _, known = front.partition(" after ")
        past = numbers(known)
        made = {"id": name(own), "past": past + [0] * (8 - len(past)), **change(what)}
    except (KeyError, ValueError):
        raise Unreadable(f"no operation: {text}") from None
    return json.dumps(made, sort_keys=True, separators=(",", ":")) + "\n"


def lines(texts):
    return "".join(map(line, texts))


def boxes(count):
    """One site's small boxes."""
    return lines(f"1.{n} after {n - 1}: box 1 1" for n in range(1, count + 1))


def named_boxes(count, moved):
    """The named text of these boxes, of more than 940, when the last one was moved so far to the right."""
    text = f"#FIG 3.2\nLandscape\nCenter\nMetric\nA4\n100.00\nSingle\n-2\n# figgroup knows 1.{count}\n1200 2\n"
    for depth in range(count):
        left = moved if depth == 0 else 0
        corners = f"{left} 0 {left + 1} 0 {left + 1} 1 {left} 1 {left} 0"
        text += f"# figgroup 1.{count - depth} at {depth}\n2 2 0 0 0 0 {depth} -1 20 0.000 0 0 -1 0 0 5\n\t {corners}\n"
    return text


def coloured_boxes(count, colours):
    """Boxes of so many colours in turn, the n-th at (n, 0)."""
    made = (f"1.{n} after {n - 1}: box 10 10, place {n},0, colour {n % colours:06x}" for n in range(1, count + 1))
    return lines(made)


def points_in_one_place(count):
    """Polygons of three equal points, the n-th at (n, 0)."""
    made = (f"1.{n} after {n - 1}: polygon 0,0 0,0 0,0, place {n},0, colour ff0000" for n in range(1, count + 1))
    return lines(made)


def both(number, known, other, one, two):
    """What sites 1 and 2 give at once, where they know so many of each: the operations of these numbers."""
    return [f"1.{number} after {known} {other}: {one}", f"2.{other + 1} after {known} {other}: {two}"]


def colour_rounds(count):
    """A red box, to which two sites give two colours at once, so many times."""
    made = ["1.1: box 10 10, colour ff0000"]
    for n in range(1, count + 1):
        made += both(n + 1, n, n - 1, "1.1 colour 0000ff", "1.1 colour 00ff00")
    return lines(made)


def aimed_rounds(count):
    """A red box, to which two sites give two colours at once, so many times. After each time site 1 hides the version that
    holds the colour of site 2 and its own earlier ones, by an aim at all of these."""
    made = ["1.1: box 10 10, colour ff0000"]
    for n in range(1, count + 1):
        made += both(2 * n, 2 * n - 1, n - 1, "1.1 colour 0000ff", "1.1 colour 00ff00")
        aim = " ".join(["1.1", *(f"1.{2 * k}" for k in range(1, n)), f"2.{n}"])
        made.append(f"1.{2 * n + 1} after {2 * n} {n}: 1.1 shown false aim {aim}")
    return lines(made)


def layer_rounds(count):
    """A box, to which two sites give two layers at once, so many times."""
    made = ["1.1: box 1 1"]
    for n in range(1, count + 1):
        made += both(n + 1, n, n - 1, "1.1 layer 1", "1.1 layer 2")
    return lines(made)


def settled_rounds(count):
    """Two objects, to each of which two sites give two layers at once, so many times, and a last layer of each."""
    made = ["1.1: box 1 1", "1.2 after 1: box 1 1"]
    rounds = 2 * count
    for n in range(rounds):
        made += both(n + 3, n + 2, n, f"1.{n % 2 + 1} layer 1", f"1.{n % 2 + 1} layer 2")
    made += [f"1.{rounds + k + 2} after {rounds + k + 1} {rounds}: 1.{k} layer 3" for k in (1, 2)]
    return lines(made)


def crossed_values(count):
    """A box, to which so many sites each give a place, a size and a colour at once, and two of them a layer."""
    made = ["1.1: box 1 1"]
    for site in range(2, count + 2):
        values = [f"place {site},0", f"size {site} {site}", f"colour 00000{site}"] + [f"layer {site}"] * (site < 4)
        made += [f"{site}.{n + 1} after 1 {'0 ' * (site - 2)}{n}: 1.1 {to}" for n, to in enumerate(values)]
    return lines(made)


def session_boxes(first, second):
    """The commands by which two sites make so many boxes each."""
    box = '"do":"create","kind":"box","place":[0,0],"size":[1,1],"colour":"000000","layer":0,"shown":true}\n'
    return "".join(f'{{"site":{site},{box}' * count for site, count in ((1, first), (2, second)))


GENERATED = {
    "aimed_rounds": aimed_rounds,
    "boxes": boxes,
    "named_boxes": named_boxes,
    "coloured_boxes": coloured_boxes,
    "crossed_values": crossed_values,
    "points_in_one_place": points_in_one_place,
    "colour_rounds": colour_rounds,
    "layer_rounds": layer_rounds,
    "session_boxes": session_boxes,
    "settled_rounds": settled_rounds,
}
