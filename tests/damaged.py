"""The foreign triangle's text with each byte replaced by 00, `#`, `-` and `9` in turn: `repaint` and `import` both read it,
or both refuse it with the same fault."""

import re

from tables import joined, read_pieces


def texts():
    """The texts, each with the place of the byte that was replaced."""
    text = joined("foreign_triangle", read_pieces(["commands"]))
    return [(place, text[:place] + byte + text[place + 1:]) for place in range(len(text)) for byte in (b"\0", b"#", b"-", b"9")]


def fault_of(program, place, text):
    """How the answers of both commands to a text differ, or nothing."""
    painted = program.answer({}, ["repaint", "--width", "1", "--height", "1"], text)
    imported = program.answer({}, ["import", "--site", "1"], text)
    if painted.status == imported.status == 0 and painted.told == imported.told == b"":
        return None
    fault = re.fullmatch(rb"figgroup: (figure object \d+: \w+\n)", painted.told)
    line = re.fullmatch(rb"figgroup: line \d+: (figure object \d+: \w+\n)", imported.told)
    refused = painted.status == imported.status == 1 and painted.output == imported.output == b""
    if refused and fault and line and fault[1] == line[1]:
        return None
    return f"damaged, byte {place}, {text[place:place + 1]}: {painted}, and {imported}"
