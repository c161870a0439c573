"""Programs whose reads of some sectors fail, by a library that is loaded into them."""
import functools
import os
import subprocess

from . import rooms

# A read of a file fails where it touches a range of SECTORS: each has the number of the file's
# inode, the first sector and how many.
SOURCE = """
#define _GNU_SOURCE
#include <dlfcn.h>
#include <errno.h>
#include <stdio.h>
#include <stdlib.h>
#include <sys/stat.h>
#include <unistd.h>

static int is_bad(int file, size_t length, off64_t place)
{
    struct stat of;
    const char *rest = getenv("SECTORS");
    unsigned long inode;
    long first, count;
    int taken;

    if (fstat(file, &of) != 0)
        return 0;
    while (rest && sscanf(rest, "%lu:%ld+%ld %n", &inode, &first, &count, &taken) == 3) {
        long end = place + (long)length;

        if (inode == of.st_ino && place < 512 * (first + count) && 512 * first < end)
            return 1;
        rest += taken;
    }
    return 0;
}

ssize_t pread64(int file, void *bytes, size_t length, off64_t place)
{
    ssize_t (*read)(int, void *, size_t, off64_t) = dlsym(RTLD_NEXT, "pread64");

    if (is_bad(file, length, place)) {
        errno = EIO;
        return -1;
    }
    return read(file, bytes, length, place);
}

ssize_t pread(int file, void *bytes, size_t length, off_t place)
{
    return pread64(file, bytes, length, place);
}
"""


@functools.lru_cache(maxsize=None)
def can_compile():
    """Whether there is a compiler of C."""
    try:
        return subprocess.run(["cc", "--version"], capture_output=True, check=False).returncode == 0
    except OSError:
        return False


def make_library(room):
    """Compiles the library in a folder."""
    (room / "failing.c").write_text(SOURCE)
    words = ["cc", "-shared", "-fPIC", "-o", "failing.so", "failing.c", "-ldl"]
    subprocess.run(words, cwd=room, check=True)


def with_bad_sectors(command, room, bad):
    """The words that call a program which can't read these sectors: a file, the first, how many."""
    ranges = (f"{os.stat(room / path).st_ino}:{first}+{count}" for path, first, count in bad)
    return ["env", f"LD_PRELOAD={room / 'failing.so'}", f"SECTORS={' '.join(ranges)}", *command]


def spoil(data, first, count):
    """Bytes with zeros in the place of some of their sectors."""
    end = (first + count) * rooms.SECTOR
    return data[: first * rooms.SECTOR] + bytes(count * rooms.SECTOR) + data[end:]
