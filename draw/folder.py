"""The files of a drawing, in the folder where a word is typed."""
import os

from calls import figgroup
from telling import Failure, fail, lines_of, quoted, say

MOST_BYTES = 16 * 1024 * 1024  # which figgroup reads
MOST_FILES = 64
SHARED = ('names', 'designers')
FILES = ('site', 'drawing.fig', 'drawing.last', 'drawing.word', *SHARED)


def is_site_file(name):
    return name.startswith('site-') and name.endswith('.jsonl')


def site_files():
    return sorted(filter(is_site_file, os.listdir('.')), key=os.fsencode)


def refuse_links():
    """Under the names that draw reads and writes others may have committed links, or many files."""
    drawings = sorted(name for name in os.listdir('.') if name.startswith('drawing.'))
    for name in ['site', *drawings, *SHARED, *site_files()]:
        if os.path.islink(name):
            fail(f'{quoted(name)} is a link, which draw does not follow: rm takes it away')
    refuse_many(site_files())
    for name in [*FILES, *site_files()]:
        if os.path.exists(name) and not os.path.isfile(name):
            fail(f'{quoted(name)} is no file: take it away')


def refuse_many(names: list[str]) -> None:
    if len(names) > MOST_FILES:
        fail(f'{len(names)} files have names as site-1.jsonl, and draw reads at most {MOST_FILES}: '
             'take away those that are not of site 1 to 8')


def content(name, most=MOST_BYTES):
    """The bytes of a file, and of one that is too long one more than it may have."""
    with open(name, 'rb') as file:
        return file.read(most + 1)


def whole(name):
    """The bytes of a file of which no part may be missing."""
    text = content(name)
    if len(text) > MOST_BYTES:
        fail(f'{quoted(name)} has more than {MOST_BYTES} bytes, which figgroup does not read')
    return text


def lines() -> bytes:
    """All operation lines; the last one of a file may lack its end."""
    return joined(map(content, site_files()))


def joined(texts: 'map[bytes]') -> bytes:
    """The lines of all texts; of too many, which figgroup refuses, a beginning."""
    found, length = [], 0
    for text in texts:
        found += [text, b'' if text.endswith(b'\n') or not text else b'\n']
        length += len(text)
        if length > MOST_BYTES:
            break
    return b''.join(found)


def site():
    """The number of this copy, or None."""
    if not os.path.isfile('site'):
        return None
    number = content('site', 10).strip()
    if number not in [b'%d' % site for site in range(1, 9)]:
        fail('the file site has no number from 1 to 8')
    return int(number)


def over_lines(*words, read=None):
    """What figgroup writes of all lines."""
    read = lines() if read is None else read
    status, wrote, said = figgroup(*words, read=read)
    if status:
        import explaining  # here alone, as a word that is right begins without it
        raise Failure(*explaining.why(said, read))
    for line in lines_of(said):
        say(line)
    return wrote
