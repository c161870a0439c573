"""Programs under strace: what they call of the system, and how they end where that is disturbed."""
import re

from .running import run

TRACED = 60

# What may change a file.
CHANGING = (
    "write",
    "pwrite64",
    "writev",
    "pwritev",
    "pwritev2",
    "ftruncate",
    "fallocate",
    "fsync",
    "fdatasync",
    "sync_file_range",
    "copy_file_range",
    "sendfile",
    "splice",
)
OPENING = ("open", "openat", "openat2", "creat")
LOCKING = ("flock", "fcntl")


def traced(words, room, calls, *options, seconds=TRACED, **streams):
    """How a program ends, and a line for each of these calls that it makes."""
    command = ["strace", "-o", "trace", "-e", "trace=" + ",".join(calls), *options, *words]
    ending = run(command, room, seconds, **streams)
    return ending, (room / "trace").read_text(errors="backslashreplace").splitlines()


def disturbed(words, room, call, effect, at, *options, **streams):
    """How a program ends that a fault or a signal meets at the call of this number."""
    inject = f"inject={call}:{effect}:when={at}"
    return traced(words, room, (call,), *options, "-e", inject, **streams)


def fails(words, room, call, error, at, *options, **streams):
    """How a program ends whose call of this number fails."""
    return disturbed(words, room, call, f"error={error}", at, *options, **streams)


def with_path(path):
    """Has calls traced that go to this file alone."""
    return ("-P", str(path))


def plain_call(line):
    """A call that changes a file: its name, the file, and of a write the bytes, how many and where.

    Of the bytes of a header and of blocks no more is said than that they are these.
    """
    call = re.match(r"(?:\d+ +)?(\w+)\(\d+<[^>]*/([a-z]*)(?:\.img)?>(.*?)\) *= ", line)
    if call is None:
        return None
    name, file, rest = call.groups()
    rest = re.sub(r'"MDB[^"]*"\.\.\.', "header", rest)
    rest = re.sub(r'"VBLK[^"]*"\.\.\.', "blocks", rest)
    return name + " " + file + rest.replace(",", "")


def plain_calls(lines):
    """The calls that change a file, in their order, a line each."""
    calls = [plain_call(line) for line in lines]
    return "".join(f"{call}\n" for call in calls if call is not None)


def not_read_alone(lines, images):
    """What is wrong where so many images have to be opened for reading alone, and not locked."""
    opened = [line for line in lines if re.match(r'[^(]*open\w*\(.*\.img", O_RDONLY\|', line)]
    if len(opened) != images:
        yield f"wanted {images} images opened for reading alone, had {len(opened)}\n"
    for line in lines:
        if ".img" in line and re.search(r"O_RDWR|O_WRONLY|O_CREAT|O_TRUNC|creat\(", line):
            yield f"it is opened for more than reading: {line}\n"
        if ".img>" in line and not re.search(r" open\w*\(", line):
            yield f"it is changed or locked: {line}\n"
