#!/usr/bin/python3
"""serve.py, that kills itself before the n-th step by which something comes onto the disk or is told: KILL_AT is n.
The steps are counted from the first append on."""
import asyncio
import os
import pathlib
import signal
import sys

sys.path.insert(0, str(pathlib.Path(__file__).resolve().parent.parent))
import serve
from sitefile import SiteFile

left = int(os.environ['KILL_AT'])
armed = False


def counted(step):
    def run(*words, **more):
        global left
        left -= armed
        if armed and left == 0:
            os.kill(os.getpid(), signal.SIGKILL)
        return step(*words, **more)
    return run


def arming(step):
    def run(*words, **more):
        global armed
        armed = True
        return step(*words, **more)
    return run


os.fsync, os.rename, os.unlink = counted(os.fsync), counted(os.rename), counted(os.unlink)
SiteFile.know = counted(SiteFile.know)
serve.Page.tell = counted(serve.Page.tell)
SiteFile.append = arming(SiteFile.append)
asyncio.run(serve.main())
