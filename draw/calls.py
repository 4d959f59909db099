"""Calls of other programs. What they read and write are files in memory, so that none waits for the other."""
import os

from telling import fail

IGNORED = (13, 25)  # by Python: SIGPIPE and SIGXFSZ; the module `signal` takes as long to load as figgroup runs


def memory():
    return open(os.memfd_create('draw'), 'w+b')


def run(*words, read=b''):
    """The status of a program, what it wrote, and what it told."""
    with memory() as given, memory() as wrote, memory() as said:
        given.write(read)
        given.seek(0)
        streams = [(os.POSIX_SPAWN_DUP2, file.fileno(), number) for number, file in enumerate((given, wrote, said))]
        status = finish(words, file_actions=streams)
        wrote.seek(0)
        said.seek(0)
        return status, wrote.read(), said.read()


def run_here(*words):
    """The status of a program that has the terminal."""
    return finish(words)


def finish(words, **streams):
    try:
        process = os.posix_spawnp(words[0], words, os.environ, setsigdef=IGNORED, **streams)
    except FileNotFoundError:
        fail(f'there is no {words[0]} here: apt-get install it')
    return os.waitstatus_to_exitcode(os.waitpid(process, 0)[1])


def is_there(program):
    return any(os.access(os.path.join(folder, program), os.X_OK) for folder in os.environ['PATH'].split(':'))


def figgroup(*words, read):
    return run('figgroup', *map(str, words), read=read)


def git(*words: str) -> tuple[int, bytes, bytes]:
    """Git, which does not take this folder for a repository of its own: others may have committed one with a config."""
    return run('git', '-c', 'safe.bareRepository=explicit', *words)
