"""The addresses of designers: each site that is served has a secret, which drawing.secrets keeps with the name."""
import hmac
import json
import secrets
from typing import Optional

from sitefile import read_whole, write_whole

FILE = 'drawing.secrets'
MOST_BYTES = 100_000

Known = dict[int, tuple[str, str]]


class Damaged(Exception):
    """The file is not one of addresses."""


def read_known() -> Known:
    """The secret and the name of each site, as they are kept with the drawing."""
    try:
        known = json.loads(read_whole(FILE, MOST_BYTES).decode())
        return {int(site): (str(secret), str(name)) for site, (secret, name) in known.items()}
    except FileNotFoundError:
        return {}
    except (ValueError, TypeError, AttributeError, RecursionError):
        raise Damaged


class Addresses:
    """The secrets of the sites that are served. What is new is on the disk before it is used. git leaves out drawing.*, as
    `draw` says."""

    def __init__(self, known: Known, names: dict[int, str]) -> None:
        self.known = known
        self.secrets: dict[int, str] = {}
        self.next: dict[int, int] = {}  # the site that a designer goes on as
        for site, name in names.items():
            self.known = {**self.known, site: (known[site][0] if site in known else secrets.token_urlsafe(16), name)}
            self.secrets[site] = self.known[site][0]
        if self.known != known:
            self.write()

    def write(self) -> None:
        text = json.dumps({str(site): both for site, both in self.known.items()})
        write_whole(FILE, text.encode(), 0o600)

    def add(self, site: int, name: str) -> None:
        """Gives a further site an address."""
        before = self.known
        self.known = {**before, site: (secrets.token_urlsafe(16), name)}
        try:
            self.write()
        except OSError:
            self.known = before
            raise
        self.secrets[site] = self.known[site][0]

    def site_of(self, secret: str) -> Optional[int]:
        """The site whose secret this is. It takes as long whichever it is, and if it is none."""
        found = None
        for site, known in self.secrets.items():
            if hmac.compare_digest(secret.encode(), known.encode()):
                found = site
        return found
