"""Pulls again and again, and tells what is new once."""
import time

import own
import pulling
import sharing
from folder import site
from telling import Failure, fail, write


def word_watch(option: str = '--every', seconds: str = '60') -> None:
    if site() is None:
        fail('whose copy is this? draw site N says it')
    sharing.must_be_in_git()
    told = []
    while True:
        wait_for_words()
        told = look(told)
        time.sleep(int(seconds))


def wait_for_words():
    """Waits until no word is at work."""
    while True:
        try:
            return own.alone().close()
        except Failure:
            time.sleep(1)


def look(told):
    """Pulls, and tells what was not told before. Answers all that stands now."""
    try:
        came, unsettled = pulling.pull()
    except Failure as failure:
        came, unsettled = [], failure.lines
    for line in came:
        if line != 'draw: nothing new':
            write(line)
    for line in unsettled:
        if line not in told:
            write(line)
    return unsettled
