"""What draw tells: one line for each thing, without control characters that others wrote."""
import sys


class Failure(Exception):
    """A word is not done; the lines say why, and what to do."""

    def __init__(self, *lines):
        super().__init__(*lines)
        self.lines = list(lines)


def fail(words):
    raise Failure(f'draw: {words}')


def tell(words):
    say(f'draw: {words}')


def say(line):
    print(printable(line), file=sys.stderr, flush=True)


def write(line):
    """Writes what a word was asked for."""
    print(printable(line), flush=True)


def printable(text):
    return ''.join(sign if sign.isprintable() else '?' for sign in text)


def lines_of(said):
    """What another program told, line by line."""
    return said.decode(errors='replace').expandtabs(4).removesuffix('\n').split('\n') if said else []


def quoted(name):
    """A file's name as a shell reads it, without control characters."""
    if not name.isprintable():
        signs = name.encode(errors='surrogateescape').replace(b'\\', b'\\\\').replace(b"'", b"\\'")
        return "$'" + ''.join(map(escaped, signs)) + "'"
    if all(sign.isalnum() or sign in '_-./:=@%+,' for sign in name):
        return name
    return "'" + name.replace("'", "'\\''") + "'"


def escaped(sign):
    known = {9: '\\t', 10: '\\n', 13: '\\r', 27: '\\E'}
    return known.get(sign) or (chr(sign) if 32 <= sign < 127 else f'\\{sign:03o}')
