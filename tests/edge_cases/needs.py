"""What cases need, to be tried: each is asked of a class, and says why it can't be had, or None."""
import functools
import os
import subprocess

from .failing import can_compile
from .harness import is_built


def a_program(cls):
    """The program is built."""
    return None if is_built(cls.program) else f"{cls.program} is not built"


def a_reader(cls):
    """The smaller program is built."""
    return None if is_built(cls.reader) else f"{cls.reader} is not built"


def root(_):
    """The user is root, who alone has loop devices and other folders of the system."""
    return None if os.geteuid() == 0 else "it needs root"


@functools.lru_cache(maxsize=None)
def strace_works():
    """Whether a program can be traced here."""
    words = ["strace", "-o", "/dev/null", "true"]
    try:
        return subprocess.run(words, capture_output=True, timeout=20, check=False).returncode == 0
    except (OSError, subprocess.TimeoutExpired):
        return False


def strace(_):
    """A program can be traced."""
    return None if strace_works() else "strace does not work here"


def a_compiler(_):
    """A library can be compiled that makes reads fail."""
    return None if can_compile() else "there is no compiler of C"


@functools.lru_cache(maxsize=None)
def terminals_work():
    """Whether a pseudo-terminal is to be had."""
    try:
        ends = os.openpty()
    except OSError:
        return False
    for end in ends:
        os.close(end)
    return True


def a_terminal(_):
    """There is a pseudo-terminal to be had."""
    return None if terminals_work() else "no pseudo-terminal is to be had"
