"""New groups of empty disks."""
import os
import re

from . import needs, rooms, tracing
from .harness import Case, case

DISK_GUIDS = "11111111-1111-1111-1111-111111111111 22222222-2222-2222-2222-222222222222"
INIT = f"init Dg0 aaaaaaaa-aaaa-aaaa-aaaa-aaaaaaaaaaaa {DISK_GUIDS} on"
LARGE, SMALL = ["made/1.img", "made/2.img"], ["made/3.img", "made/4.img"]
READS = ("read", "readv", "pread64", "preadv")
# What is written to a disk, 1028 KiB, and some blocks of the file system's own.
MOST_WRITTEN = 1100 * 1024


class NewGroups(Case):
    """New groups, of two disks of a tebibyte, of 4 MiB, or of two tebibytes."""

    needs = (needs.a_program,)

    def prepare(self):
        rooms.empty(self.room)
        (self.room / "made").mkdir()
        for path in (*LARGE, *SMALL):
            rooms.make_sparse(self.room / path, 1 << 40 if path in LARGE else rooms.SIZE)

    def make(self, images):
        """Makes the group of two images."""
        self.ends(self.ldm(INIT, *images), 0, "ok 1\n")

    @case("init: two disks of a tebibyte")
    def makes(self):
        """The group is made."""
        self.make(LARGE)

    @case("init: it writes no more than it says")
    def is_sparse(self):
        """A disk takes few blocks, since nothing is written between its ends."""
        self.make(LARGE)
        self.assertLessEqual((self.room / LARGE[1]).stat().st_blocks * 512, MOST_WRITTEN)

    @case("init: the new group")
    def checks(self):
        """It may be edited."""
        self.make(LARGE)
        said = "image 0 sequence 1\nimage 1 sequence 1\nok: editable\n"
        self.ends(self.ldm("check on", *LARGE), 0, said)

    @case("init: a mirror on it")
    def takes_a_mirror(self):
        """It takes a volume over all its sectors but those of the database."""
        self.make(LARGE)
        words = "create M bbbbbbbb-bbbb-bbbb-bbbb-bbbbbbbbbbbb mirror 2147481537 Disk1 Disk2 on"
        self.ends(self.ldm(words, *LARGE), 0, "1 ok 2\n")

    @case("init: the same disks again")
    def again(self):
        """A disk of a group isn't empty."""
        self.make(LARGE)
        self.ends(self.ldm(INIT, *LARGE), 1, "refused: image 0: not empty\n")

    @case("init: a disk that an MBR can't count")
    def too_large(self):
        """A disk of 2^32 sectors is refused, and nothing is written; one of a sector less isn't too large."""
        for sectors, status, said in ((1 << 32, 1, "refused: image 1: too large for MBR\n"), ((1 << 32) - 1, 0, "ok 1\n")):
            path = self.room / "made/5.img"
            rooms.make_sparse(path, 0)
            os.truncate(path, sectors * rooms.SECTOR)
            self.ends(self.ldm(INIT, SMALL[0], "made/5.img"), status, said)
            self.assertEqual((self.room / SMALL[0]).stat().st_blocks == 0, status == 1)

    @case("init: an image that may not be written")
    def may_not_be_written(self):
        """The system gives no permission."""
        if os.geteuid() == 0:
            self.skipTest("root may write it")
        (self.room / LARGE[0]).chmod(0o444)
        self.unopened(self.ldm(INIT, *LARGE), 0, LARGE[0], "no permission")

    @case("init: it reads the first 63 sectors and the last 2048 alone")
    def reads_the_ends(self):
        """A bad sector between the ends of a disk disturbs no new group."""
        self.skip_without(needs.strace)
        paths = [option for path in SMALL for option in tracing.with_path(self.room / path)]
        ending, lines = tracing.traced(self.ldm(INIT, *SMALL), self.room, READS, *paths)
        self.is_ending(ending, 0, "ok 1\n")
        calls = [line for line in lines if re.match(r"p?read", line)]
        reads = [re.search(r", (\d+), (\d+)\) *= \d+$", line) for line in calls]
        self.assertTrue(reads and all(reads), "\n".join(calls))
        end = (rooms.SIZE // rooms.SECTOR - 2048) * rooms.SECTOR
        for length, place in (map(int, it.groups()) for it in reads):
            if place + length > 63 * rooms.SECTOR and place < end:
                self.fail(f"it reads {length} bytes at {place}")
