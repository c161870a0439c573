"""Images that another program has locked."""
import contextlib
import fcntl
import os
import struct
import time

from . import rooms
from .edits import EDITED, HELD, Edited, checked
from .harness import case, rows
from .running import started

# The byte that programs lock which run virtual machines.
HELD_BYTE = 201
WAITED = 10


def is_held(path):
    """Whether a program has locked a file as a whole."""
    with open(path, "r+b") as file:
        try:
            fcntl.flock(file, fcntl.LOCK_EX | fcntl.LOCK_NB)
        except BlockingIOError:
            return True
    return False


def wait_for(what, is_so):
    """Waits until something is so, or fails."""
    until = time.monotonic() + WAITED
    while not is_so():
        if time.monotonic() > until:
            raise AssertionError(f"this never came: {what}")
        time.sleep(0.05)


@contextlib.contextmanager
def held_byte(path, kind):
    """A file of which another one holds a byte, as programs do that run virtual machines."""
    with open(path, "r+b") as file:
        lock = struct.pack("hhqqi4x", kind, os.SEEK_SET, HELD_BYTE, 1, 0)
        fcntl.fcntl(file, fcntl.F_OFD_SETLK, lock)
        yield


class Locks(Edited):
    """Edits of images that another program holds."""

    @case("edit: a second edit is refused, and a job that reads is not")
    def second_edit(self):
        """An edit holds its images off from others until it is over."""
        reader, writer = os.pipe()
        with open(reader, "rb") as heard, open(writer, "wb", buffering=0) as typed:
            with started(self.ldm("edit", *EDITED), self.room, heard.fileno()) as first:
                wait_for("the first edit holds c.img", lambda: is_held(self.room / "edited/c.img"))
                other = self.ldm("delete Volume1 on", *rooms.group("edited", "cba"))
                self.unopened(other, 0, "edited/c.img", HELD)
                self.ends(self.ldm("check", *EDITED), 0, checked(7))
                typed.write(b"delete Volume1\n")
                typed.close()
                self.is_ending(first.ending(), 0, "1 ok 8\n")

    def minds_byte(self, kind):
        """While a byte of an image is held an edit is refused, and a job that reads isn't."""
        with held_byte(self.room / "edited/b.img", kind):
            self.unopened(self.ldm("delete Volume1", *EDITED), 1, "edited/b.img", HELD)
            self.ends(self.ldm("check", *EDITED), 0, checked(7))

    @rows(
        ("edit: another program holds a byte for writing", fcntl.F_WRLCK),
        ("edit: another program holds a byte for reading", fcntl.F_RDLCK),
    )
    def byte_held(self, kind):
        """A lock of a byte is heeded, whichever its kind."""
        self.minds_byte(kind)

    @case("edit: the images after these")
    def images_after(self):
        """An edit that is held off changes no byte."""
        for kind in (fcntl.F_WRLCK, fcntl.F_RDLCK):
            self.minds_byte(kind)
        self.is_group("edited")
