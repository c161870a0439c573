"""The bytes of volumes beside those that are cut out of the images, and copies that disagree."""
import itertools
import os
import re

from . import needs, rooms, tracing
from .harness import NO_OUTPUT, NO_SPACE, Case, case, rows
from .running import CLOSED, FULL, TAKEN, unread

DATA_FIRST, DATA_COUNT = 63, 6081
ALL = ["on", *rooms.group("data")]
R_GUID = "99999999-0000-0000-0000-000000000002"
LONG_GUID = "99999999-0000-0000-0000-000000000003"
CHUNK = 64 * rooms.SECTOR
UNSAID_JOBS = ("dump Volume1", "scrub Mirror1")

# The devices of the volumes, and at last that of the mirror without its first copy.
DEVICES = (
    "ldm_vol_Dg0_Volume1,LDM-55555555-5555-5555-5555-555555555555,,ro,0 1000 linear data/a.img 63",
    "ldm_vol_Dg0_Volume2,LDM-66666666-6666-6666-6666-666666666666,,ro,"
    "0 500 linear data/a.img 1063,500 1000 linear data/b.img 63",
    "ldm_vol_Dg0_Stripe1,LDM-77777777-7777-7777-7777-777777777777,,ro,"
    "0 1024 striped 2 128 data/b.img 1063 data/c.img 63",
    "ldm_vol_Dg0_Mirror1,LDM-88888888-8888-8888-8888-888888888888,,ro,0 700 linear data/a.img 1563",
    "ldm_vol_Dg0_Mirror1,LDM-88888888-8888-8888-8888-888888888888,,ro,0 700 linear data/c.img 575",
)

# Two columns of four chunks of 128 sectors, one in turn after the other.
ROWS = [128 * it for it in range(4)]
STRIPE = [part for it in ROWS for part in (("b", 1063 + it, 128), ("c", 63 + it, 128))]


class Volumes(Case):
    """The group of the examples, with any bytes in the data areas."""

    needs = (needs.a_program,)

    @classmethod
    def furnish(cls):
        rooms.copy_group(cls.first, cls.room / "filled")
        for path in rooms.group("filled"):
            data = os.urandom(DATA_COUNT * rooms.SECTOR)
            rooms.put_in(cls.room / path, DATA_FIRST * rooms.SECTOR, data)

    def prepare(self):
        rooms.copy_group(self.room / "filled", self.room / "data")

    def put(self, name, sector, data):
        """Writes bytes into an image from a sector on."""
        rooms.put_in(self.room / f"data/{name}.img", sector * rooms.SECTOR, data)

    def cut(self, *parts):
        """The bytes of parts: an image, the first sector and how many."""
        images = self.room / "data"
        return b"".join(rooms.cut_out(images / f"{name}.img", *place) for name, *place in parts)

    def dumps(self, volume, wanted, names):
        """A dump says just these bytes, and nothing else."""
        came = self.ran(self.ldm(f"dump {volume} on", *rooms.group("data", names)))
        self.is_ending(came._replace(out=b""), 0)
        self.is_bytes(wanted, came.out)


class Dumps(Volumes):
    """Dumps of each shape but a RAID-5, in other orders of the images, and where one is absent."""

    @classmethod
    def furnish(cls):
        super().furnish()
        os.mkfifo(cls.room / "pipe")

    @rows(
        ("dump: a span", "Volume1", [("a", 63, 1000)], "a"),
        ("dump: a span of two disks", "Volume2", [("a", 1063, 500), ("b", 63, 1000)], "ba"),
        ("dump: a stripe", "Stripe1", STRIPE, "bc"),
        ("dump: the first copy of a mirror", "Mirror1", [("a", 1563, 700)], "abc"),
        ("dump: the other copy", "Mirror1", [("c", 575, 700)], "cb"),
    )
    def dumps_parts(self, volume, parts, names):
        """The bytes of a volume are those of its places."""
        self.dumps(volume, self.cut(*parts), names)

    @rows(
        ("dump: the first disk of a span is absent", "Volume2", "bc", "sector 0 is lost"),
        ("dump: the second column of a stripe is absent", "Stripe1", "ab", "sector 128 is lost"),
        ("dump: no such volume", "Nope", "a", "no volume"),
    )
    def refuses(self, volume, names, why):
        """A volume is dumped whole or not at all."""
        command = self.ldm(f"dump {volume} on", *rooms.group("data", names))
        self.ends(command, 1, f"refused: {why}\n")

    @case("dump: no volume is named")
    def no_volume(self):
        """The words are read before the image, which is a pipe, is opened."""
        why = "VOLUME is missing: the form is dump VOLUME on IMAGE..."
        self.misread(self.ldm("dump on pipe"), why)


class Tables(Volumes):
    """The devices of all volumes of which some have no table."""

    @rows(
        ("table: all volumes have one", "abc", (0, 1, 2, 3), ""),
        (
            "table: a volume that has none is told on standard error",
            "ab",
            (0, 1, 3),
            "ldm: volume Stripe1 has no table: sector 128 is lost\n",
        ),
        (
            "table: each volume that has none is told",
            "bc",
            (2, 4),
            "ldm: volume Volume1 has no table: sector 0 is lost\n"
            "ldm: volume Volume2 has no table: sector 0 is lost\n",
        ),
    )
    def tells_others(self, names, devices, told):
        """The text has the others, and the status is 0."""
        said = ";".join(DEVICES[it] for it in devices) + "\n"
        self.ends(self.ldm("table on", *rooms.group("data", names)), 0, said, told)

    @case("table: a text that isn't said tells of no volume")
    def unsaid_text(self):
        """What its output failed by is all that is told."""
        self.unsaid(self.ldm("table on", *rooms.group("data", "ab")), NO_SPACE, stdout=FULL)


class UnsaidDumps(Volumes):
    """Jobs that say much, where their output fails."""

    @rows(*((f"{job}: output is closed", job) for job in UNSAID_JOBS))
    def output_closed(self, job):
        """Standard error says it."""
        self.unsaid(self.ldm(job, *ALL), NO_OUTPUT, stdout=CLOSED)

    @rows(*((f"{job}: output is full", job) for job in UNSAID_JOBS))
    def output_full(self, job):
        """Standard error says it."""
        self.unsaid(self.ldm(job, *ALL), NO_SPACE, stdout=FULL)

    @case("dump: nobody reads the output")
    def nobody_reads(self):
        """A pipe without a reader is a fault of the talk, and doesn't kill the program."""
        with unread() as pipe:
            why = "standard output: Broken pipe (os error 32)"
            self.unsaid(self.ldm("dump Volume1 on data/a.img"), why, stdout=pipe)

    @case("dump and scrub: the images after these")
    def images_after(self):
        """No job that reads changes a byte, whatever becomes of its output."""
        dumps = [f"dump {it}" for it in ("Volume1", "Volume2", "Stripe1", "Mirror1", "Nope")]
        with unread() as pipe:
            outputs = (TAKEN, CLOSED, FULL, pipe)
            for job, stdout in itertools.product((*dumps, "scrub Mirror1"), outputs):
                self.ran(self.ldm(job, *ALL), stdout=stdout)
        self.is_as_before("data", rooms.bytes_of(self.room / "filled"))


class Scrubs(Volumes):
    """Copies of a mirror that agree, and that don't."""

    def scrubs(self, words, names, status, said):
        """A scrub of these images ends so."""
        self.ends(self.ldm(f"scrub {words} on", *rooms.group("data", names)), status, said)

    def equal_copies(self):
        """Makes the copies of the mirror equal."""
        self.put("c", 575, self.cut(("a", 1563, 700)))

    @case("scrub: a mirror that was never written")
    def never_written(self):
        """Each of its sectors differs, and is said to."""
        said = "".join(f"sector {it} differs\n" for it in range(700))
        self.scrubs("Mirror1", "abc", 1, f"{said}scrub Mirror1 checked 700 bad 700\n")

    @case("scrub: equal copies")
    def equal(self):
        """A clean scrub says so in a line."""
        self.equal_copies()
        self.scrubs("Mirror1", "ac", 0, "scrub Mirror1 checked 700 bad 0\n")

    @case("scrub: a sector differs")
    def one_differs(self):
        """The sector is named, counted from the beginning of the volume."""
        self.equal_copies()
        self.put("c", 580, bytes(rooms.SECTOR))
        self.scrubs("Mirror1", "cba", 1, "sector 5 differs\nscrub Mirror1 checked 700 bad 1\n")

    @rows(
        ("scrub: a disk is missing", "Mirror1", "ab", "refused: disk 1027 is missing\n"),
        ("scrub: a span", "Volume1", "abc", "refused: nothing to compare\n"),
    )
    def refuses(self, volume, names, said):
        """A scrub needs all copies, and more than one."""
        self.scrubs(volume, names, 1, said)


class Raid5(Volumes):
    """A RAID-5 of one row: both of its chunks are alike, so its parity is zero."""

    def prepare(self):
        super().prepare()
        self.created = self.ran(self.ldm(f"create R {R_GUID} raid5 64 64 Disk1 Disk2 Disk3", *ALL))
        self.chunk = os.urandom(CHUNK)
        self.put("a", 2263, self.chunk)
        self.put("b", 1575, self.chunk)
        self.put("c", 1275, bytes(CHUNK))

    @case("dump: a RAID-5 is made")
    def makes(self):
        """The command is answered."""
        self.is_ending(self.created, 0, "1 ok 8\n")

    @rows(
        ("dump: a RAID-5", "abc"),
        ("dump: a RAID-5 without its first column", "bc"),
        ("dump: a RAID-5 without its parity", "ba"),
    )
    def dumps_row(self, names):
        """What an absent column holds is made of the others."""
        self.dumps("R", self.chunk * 2, names)

    @case("scrub: a RAID-5")
    def scrubs(self):
        """A row holds where its columns and its parity make zero."""
        self.ends(self.ldm("scrub R", *ALL), 0, "scrub R checked 64 bad 0\n")

    @case("scrub: a row fails")
    def row_fails(self):
        """The row is named, and the sector in it."""
        self.put("c", 1284, b"parity")
        said = "row 0 offset 9 parity fails\nscrub R checked 64 bad 1\n"
        self.ends(self.ldm("scrub R", *ALL), 1, said)

    @case("dump: a RAID-5 of which one column is left")
    def one_left(self):
        """Two absent columns are one too many."""
        self.ends(self.ldm("dump R on data/a.img"), 1, "refused: sector 64 is lost\n")


class LongDumps(Volumes):
    """A span of 2 MiB, which is read in more than one piece."""

    def prepare(self):
        super().prepare()
        self.ran(self.ldm(f"create R {R_GUID} raid5 64 64 Disk1 Disk2 Disk3", *ALL))
        self.created = self.ran(self.ldm(f"create Long {LONG_GUID} span Disk3=4096", *ALL))

    @case("dump: a longer span is made")
    def makes(self):
        """The command is answered."""
        self.is_ending(self.created, 0, "1 ok 9\n")

    @case("dump: a read fails in the middle")
    def read_fails(self):
        """What was said begins the volume, in whole sectors, and what can't be read is told."""
        self.skip_without(needs.strace)
        command = self.ldm("dump Long", *ALL)
        whole = self.ran(command).out
        self.assertEqual(4096 * rooms.SECTOR, len(whole))
        of_c = tracing.with_path(self.room / "data/c.img")
        _, lines = tracing.traced(command, self.room, ["pread64"], *of_c)
        reads = sum(line.startswith("pread64") for line in lines)
        came, lines = tracing.fails(command, self.room, "pread64", "EIO", reads, *of_c)
        places = (re.match(r"pread64.*, (\d+), (\d+)\) *= -1", line) for line in lines)
        length, place = next(map(int, it.groups()) for it in places if it)
        sectors = f"{place // rooms.SECTOR}+{length // rooms.SECTOR}"
        fault = f"image 2 (data/c.img): read of sectors {sectors}: Input/output error (os error 5)"
        self.is_ending(came._replace(out=b""), 3, "", f"ldm: disk fault: {fault}\n")
        self.is_bytes(whole[: 2048 * rooms.SECTOR], came.out)
