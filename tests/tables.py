"""Reads tables of rows, and the pieces of which rows make their inputs and outputs.

A line `pieces: ..` names the files of pieces of a table, and a line `cells: ..` the cells of the rows below it. A row has `|`
between its cells. Lines that begin with `// ` say what the rows below them try."""

import re
from pathlib import Path
from typing import NamedTuple

from histories import GENERATED, Unreadable, id_list

TESTS = Path(__file__).resolve().parent
ESCAPES = {b"n": b"\n", b"t": b"\t", b"r": b"\r", b"\\": b"\\"}


class Table(NamedTuple):
    """The rows of a file, each with its place and its cells by their names, and the pieces by theirs."""

    name: str
    pieces: dict
    rows: list


def unescaped(text):
    r"""The bytes of a text in which `\n`, `\t`, `\r`, `\\` and `\xff` are spelt so."""

    def one(match):
        escape = match[1]
        if len(escape) == 3:
            return bytes([int(escape[1:], 16)])
        if escape not in ESCAPES:
            raise Unreadable(f"no escape: {match[0].decode()}")
        return ESCAPES[escape]

    return re.sub(rb"\\(x[0-9a-f]{2}|.)", one, text.encode())


def read_pieces(names):
    """The pieces of these files. A line has a name and, behind one blank, the text."""
    pieces = {}
    for name in names:
        for line in (TESTS / "pieces" / f"{name}.txt").read_text().splitlines():
            if line == "" or line.startswith("// "):
                continue
            known, blank, text = line.partition(" ")
            if blank == "" or known in pieces:
                raise Unreadable(f"pieces {name}: no piece, or the second of its name: {line}")
            pieces[known] = text
    return pieces


def joined(cell, pieces, behind=""):
    """The bytes of the words of a cell, with nothing between them, or this behind each."""
    return unescaped("".join(text_of(word, pieces) + behind for word in cell.split()))


def text_of(word, pieces):
    """The text of a word: a call of what is generated, or a piece with its changes, and how often it stands there."""
    call = re.fullmatch(r"(\w+)\((\d+(?:,\d+)*)\)", word)
    if call:
        if call[1] not in GENERATED:
            raise Unreadable(f"nothing is generated so: {word}")
        return GENERATED[call[1]](*map(int, call[2].split(",")))
    times, word = counted(word)
    name, *changes = word.split("~")
    if len(changes) % 2 == 1:
        raise Unreadable(f"a change lacks its text: {word}")
    text = piece_of(name, pieces)
    for old, new in zip(changes[::2], changes[1::2]):
        if old not in text:
            raise Unreadable(f"no {old} in {word}")
        text = text.replace(old, several(new), 1)
    return text * times


def piece_of(name, pieces):
    """The piece of this name; what is no name stands for itself."""
    if name not in pieces and re.fullmatch(r"[a-z]\w*", name):
        raise Unreadable(f"no piece: {name}")
    return pieces.get(name, name)


def counted(word):
    """How often a word stands there, and the word: `3*x` is x three times."""
    match = re.fullmatch(r"(\d+)\*(.*)", word)
    return (int(match[1]), match[2]) if match else (1, word)


def several(text):
    """The text of a change: `3*x`, or `3*id`, which are the ids of the first three operations of site 1."""
    times, what = counted(text)
    return id_list(times) if what == "id" and times > 1 else what * times


def read_table(path):
    """The table of a file."""
    pieces, names, rows = {}, [], []
    for number, line in enumerate(path.read_text().splitlines(), 1):
        place = f"{path.name}, line {number}"
        if line == "" or line.startswith("// "):
            continue
        if line.startswith("pieces: "):
            pieces = read_pieces(line.removeprefix("pieces: ").split())
        elif line.startswith("cells: "):
            names = cells_of(line.removeprefix("cells: "))
        elif "|" in line:
            rows.append((place, named_cells(place, names, line)))
        else:
            raise Unreadable(f"{place}: no row: {line}")
    return Table(path.stem, pieces, rows)


def cells_of(line):
    return [cell.strip() for cell in line.split("|")]


def named_cells(place, names, line):
    """The cells of a row by their names."""
    cells = cells_of(line)
    if len(cells) != len(names):
        raise Unreadable(f"{place}: {len(cells)} cells, and not {len(names)}: {line}")
    return dict(zip(names, cells))
