"""Programs on a pseudo-terminal."""
import contextlib
import os
import pty
import select
import time

from .running import NOTHING, NOWHERE, SECONDS, TAKEN, started, taken_late

END_OF_FILE = b"\x04"


@contextlib.contextmanager
def terminal():
    """A pseudo-terminal: the end of who types and reads, and that of a program."""
    main, end = pty.openpty()
    with open(main, "r+b", buffering=0) as ours, open(end, "r+b", buffering=0) as theirs:
        yield ours, theirs


def shown(main, seconds=SECONDS):
    """The text that a terminal shows, until no program has it any more."""
    until = time.monotonic() + seconds
    text = b""
    while select.select([main], [], [], max(0, until - time.monotonic()))[0]:
        try:
            piece = os.read(main.fileno(), 4096)
        except OSError:
            break
        if not piece:
            break
        text += piece
    else:
        raise AssertionError(f"it had the terminal still after {seconds} s")
    return text.decode(errors="backslashreplace").replace("\r\n", "\n")


def explained(words, room, stdin=NOTHING):
    """What a program says on standard error, where that is a terminal."""
    with terminal() as (ours, theirs):
        with started(words, room, stdin, NOWHERE, theirs.fileno()) as child:
            theirs.close()
            text = shown(ours)
            child.ending()
    return text


def waited_for(words, room):
    """How a program ends whose input is a terminal, on which Ctrl-D alone is typed."""
    with terminal() as (ours, theirs):
        ours.write(END_OF_FILE)
        with started(words, room, theirs.fileno(), NOWHERE, TAKEN) as child:
            return child.ending()


def told_late(words, room):
    """How many bytes are taken of a program after a while, and what it tells on a terminal."""
    with terminal() as (ours, theirs):
        taken, _ = taken_late(words, room, theirs.fileno())
        theirs.close()
        return taken, shown(ours)
