"""Files that are written beside their place, brought onto the disk, and moved there."""
import sitefile
from telling import fail, quoted


def put(path, content):
    """Writes a file, whole or not at all."""
    prepare(path, content)
    place(path)


def prepare(path, content):
    try:
        sitefile.prepare(path, content)
    except OSError as error:
        fail(f"{quoted(path)} can't be written, and is as it was: {error.strerror}")


def place(path):
    try:
        sitefile.place(path)
    except OSError:
        fail(f"{quoted(path)} can't be written, and is as it was")
