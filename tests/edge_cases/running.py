"""Running a program with given streams, and how it ends.

A standard stream of a program is one of these: a `Stream`, the bytes that it reads, a descriptor,
CLOSED, or TAKEN, so that its ending tells what was said.
"""
import contextlib
import os
import signal
import subprocess
import tempfile
import time
import typing

SECONDS = 20
WHILE = 0.8


class Stream(typing.NamedTuple):
    """A file that is a standard stream, and how it is opened."""

    path: str
    flags: int


def reading(path):
    """A stream that is open for reading alone, as behind `<`."""
    return Stream(path, os.O_RDONLY)


def writing(path):
    """A stream that is open for writing alone, as behind `>`."""
    return Stream(path, os.O_WRONLY | os.O_CREAT | os.O_TRUNC)


CLOSED = Stream("", -1)
TAKEN = Stream("", -2)
NOTHING = reading("/dev/null")
NOWHERE = writing("/dev/null")
FULL = writing("/dev/full")


class Ending(typing.NamedTuple):
    """How a program ended: its status, below zero where a signal ended it, and what it said."""

    status: int
    out: bytes
    err: bytes


class Child:
    """A program that was started, as the leader of a session of its own."""

    def __init__(self, words, room, streams, opened):
        self.room = room
        self.opened = opened
        self.taken = [None, None, None]
        self.closed = []
        given = [self._descriptor(number, stream) for number, stream in enumerate(streams)]
        self.process = subprocess.Popen(
            [os.fspath(word) for word in words],
            cwd=room,
            stdin=given[0],
            stdout=given[1],
            stderr=given[2],
            start_new_session=True,
            preexec_fn=self._close if self.closed else None,
        )

    def _descriptor(self, number, stream):
        """What a stream is for the one who starts the program."""
        if isinstance(stream, int):
            return stream
        if stream == CLOSED:
            self.closed.append(number)
            return subprocess.DEVNULL
        if stream == TAKEN or isinstance(stream, bytes):
            file = self.opened.enter_context(tempfile.TemporaryFile())
            if stream == TAKEN:
                self.taken[number] = file
            else:
                file.write(stream)
                file.seek(0)
            return file
        descriptor = os.open(os.path.join(self.room, stream.path), stream.flags, 0o666)
        self.opened.callback(os.close, descriptor)
        return descriptor

    def _close(self):
        """Closes what the program doesn't get, where it is about to begin."""
        for number in self.closed:
            os.close(number)

    def _said(self, number):
        """What was taken of a stream."""
        file = self.taken[number]
        if file is None:
            return b""
        file.seek(0)
        return file.read()

    def ending(self, seconds=SECONDS):
        """How the program ends, which it has to do in some seconds."""
        try:
            status = self.process.wait(seconds)
        except subprocess.TimeoutExpired:
            raise AssertionError(f"it had not ended after {seconds} s") from None
        return Ending(status, self._said(1), self._said(2))

    def stop(self):
        """Ends what still runs of the program, and of the programs that it started."""
        if self.process.poll() is None:
            with contextlib.suppress(ProcessLookupError):
                os.killpg(self.process.pid, signal.SIGKILL)
            self.process.wait()


@contextlib.contextmanager
def started(words, room, stdin=NOTHING, stdout=TAKEN, stderr=TAKEN):
    """A program that runs in the folder `room`, and is stopped at the end of the block."""
    with contextlib.ExitStack() as opened:
        child = Child(words, room, (stdin, stdout, stderr), opened)
        try:
            yield child
        finally:
            child.stop()


def run(words, room, seconds=SECONDS, **streams):
    """How a program ends that runs in the folder `room`."""
    with started(words, room, **streams) as child:
        return child.ending(seconds)


def taken_late(words, room, stderr=TAKEN):
    """How many bytes a program says that are taken after a while, and how it ends."""
    reader, writer = os.pipe()
    with open(reader, "rb", buffering=0) as out, open(writer, "wb", buffering=0) as into:
        with started(words, room, NOTHING, into.fileno(), stderr) as child:
            into.close()
            time.sleep(WHILE)
            taken = sum(len(piece) for piece in iter(lambda: out.read(65536), b""))
            return taken, child.ending()


@contextlib.contextmanager
def unread():
    """The descriptor of a pipe that nobody reads."""
    reader, writer = os.pipe()
    os.close(reader)
    try:
        yield writer
    finally:
        os.close(writer)


@contextlib.contextmanager
def empty_pipe():
    """The descriptor of a pipe into which nobody writes."""
    reader, writer = os.pipe()
    os.close(writer)
    try:
        yield reader
    finally:
        os.close(reader)
