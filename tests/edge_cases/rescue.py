"""Volumes that are rescued off disks of which some are absent, or can't be read."""
import re

from . import failing, needs, rooms, terminals, tracing
from .harness import NO_OUTPUT, NO_SPACE, case, rows
from .running import CLOSED, FULL
from .volumes import ALL, CHUNK, STRIPE, Raid5, Volumes

A, B, C = rooms.group("data")
# What the system says of a sector that can't be read.
UNREAD = "Input/output error (os error 5)"
# The columns of the stripe on b.img, with zeros for those on c.img.
HALF_STRIPE = [part if part[0] == "b" else None for part in STRIPE]
EIGHTHS = [(A, 63 + sector, 1) for sector in range(0, 1000, 8)]
DATABASE = 6144
# It takes away the line of a terminal.
CLEAR = "\r\x1b[K"


def lines(*told):
    """The lines that standard error has."""
    return "".join(f"ldm: {line}\n" for line in told)


def all_said(count):
    """The only line where no sector is lost."""
    return lines(f"{count} sectors: {count} said, 0 lost")


class Rescues(Volumes):
    """Volumes of which all images can be read, and some are absent."""

    def rescue(self, words, names="abc", bad=()):
        """The words of a rescue off images of these letters, of which some sectors are bad."""
        command = self.ldm(f"dump --rescue {words} on", *rooms.group("data", names))
        return failing.with_bad_sectors(command, self.room, bad) if bad else command

    def rescues(self, command, wanted, told):
        """A rescue says just these bytes and tells just these lines, by which it ends."""
        came = self.ran(command)
        status = 0 if told.endswith(" 0 lost\n") else 1
        self.is_ending(came._replace(out=b""), status, "", told)
        self.is_bytes(wanted, came.out)

    @rows(
        ("rescue: a span", "Volume2", [("a", 1063, 500), ("b", 63, 1000)], "cab"),
        ("rescue: a stripe", "Stripe1", STRIPE, "abc"),
        ("rescue: the first copy of a mirror", "Mirror1", [("a", 1563, 700)], "abc"),
        ("rescue: the other copy", "Mirror1", [("c", 575, 700)], "cb"),
    )
    def is_whole(self, volume, parts, names):
        """Where nothing is lost the bytes are those of a dump, and the status is 0."""
        wanted = self.cut(*parts)
        self.rescues(self.rescue(volume, names), wanted, all_said(len(wanted) // rooms.SECTOR))

    @case("rescue: the second disk of a span is absent")
    def half_span(self):
        """Zeros stand for what is lost, and it is told which sectors that are."""
        wanted = self.cut(("a", 1063, 500)) + bytes(1000 * rooms.SECTOR)
        told = lines("lost 500+1000: disk 1026 is absent", "1500 sectors: 500 said, 1000 lost")
        self.rescues(self.rescue("Volume2", "ac"), wanted, told)

    @case("rescue: the second column of a stripe is absent")
    def half_stripe(self):
        """Each chunk of the column is told."""
        wanted = b"".join(self.cut(it) if it else bytes(128 * rooms.SECTOR) for it in HALF_STRIPE)
        ranges = (f"lost {it}+128: disk 1027 is absent" for it in range(128, 1024, 256))
        told = lines(*ranges, "1024 sectors: 512 said, 512 lost")
        self.rescues(self.rescue("Stripe1", "ba"), wanted, told)

    @case("rescue: a section is that part of the whole")
    def section(self):
        """The sectors are counted from the beginning of the volume, and the totals are its own."""
        whole = self.ran(self.rescue("Volume2", "ac")).out
        told = lines("lost 500+10: disk 1026 is absent", "20 sectors: 10 said, 10 lost")
        part = whole[490 * rooms.SECTOR : 510 * rooms.SECTOR]
        self.rescues(self.rescue("Volume2 490 20", "ac"), part, told)

    @rows(
        ("rescue: no such volume", "Nope", "no volume"),
        ("rescue: a section behind the end", "Mirror1 690 11", "bad range"),
        ("rescue: a section of no sector", "Mirror1 0 0", "bad range"),
    )
    def refuses(self, words, why):
        """A refusal is that of a dump, and no totals are told."""
        self.ends(self.rescue(words), 1, f"refused: {why}\n")

    @case("rescue: without a word behind it the option is a volume's name")
    def is_no_option(self):
        """Words that have a reading without the option keep it."""
        self.ends(self.ldm("dump --rescue", *ALL), 1, "refused: no volume\n")

    @case("rescue: it goes with no other option")
    def one_option(self):
        """The words have no reading, and are told why."""
        why = "dump takes --past-damage or --rescue, and not both"
        self.misread(self.ldm("dump --rescue --past-damage Mirror1", *ALL), why)

    @rows(
        ("rescue: output is closed", CLOSED, NO_OUTPUT),
        ("rescue: output is full", FULL, NO_SPACE),
    )
    def output_fails(self, stdout, why):
        """It ends as a dump does."""
        self.unsaid(self.rescue("Volume1"), why, stdout=stdout)

    @case("rescue: an image does not open")
    def does_not_open(self):
        """Nothing is said."""
        command = self.ldm("dump --rescue Mirror1 on", A, "missing.img")
        self.unopened(command, 1, "missing.img", "there is no such file")

    @case("rescue: a disk that is behind is read last")
    def behind(self):
        """Its copy of the database is older, and so its copy of a mirror may be."""
        old = self.cut(("a", DATABASE, 2048))
        self.ran(self.ldm("delete Volume1", *ALL))
        self.put("a", DATABASE, old)
        self.rescues(self.rescue("Mirror1"), self.cut(("c", 575, 700)), all_said(700))
        self.rescues(self.rescue("Mirror1", "ab"), self.cut(("a", 1563, 700)), all_said(700))


class BadSectors(Rescues):
    """Volumes on images of which some sectors can't be read."""

    needs = (needs.a_program, needs.a_compiler)

    @classmethod
    def furnish(cls):
        super().furnish()
        failing.make_library(cls.room)

    @case("rescue: the copies of a mirror have bad sectors in different places")
    def other_copy(self):
        """Each sector is read from the copy that has it, and nothing is lost."""
        bad = [(A, 1563, 1), (A, 1663, 50), (C, 575 + 9, 1), (C, 575 + 150, 550)]
        parts = ("c", 575, 1), ("a", 1564, 99), ("c", 675, 50), ("a", 1713, 550)
        self.rescues(self.rescue("Mirror1", bad=bad), self.cut(*parts), all_said(700))

    @case("rescue: the copies of a mirror have a bad sector in one place")
    def both_copies(self):
        """One bad sector of each costs one sector, and the last copy that was tried is told."""
        wanted = failing.spoil(self.cut(("a", 1563, 700)), 9, 1)
        told = lines(f"lost 9+1: image 2 ({C}): {UNREAD}", "700 sectors: 699 said, 1 lost")
        bad = [(A, 1572, 1), (C, 584, 1)]
        self.rescues(self.rescue("Mirror1", bad=bad), wanted, told)

    @case("rescue: a sector is lost, and the next one of another copy")
    def next_is_read(self):
        """What the system said is no longer known where a read of another image has failed since."""
        wanted = failing.spoil(self.cut(("a", 1563, 10), ("c", 585, 1), ("a", 1574, 689)), 9, 1)
        told = lines(f"lost 9+1: image 2 ({C}) can't be read", "700 sectors: 699 said, 1 lost")
        bad = [(A, 1572, 2), (C, 584, 1)]
        self.rescues(self.rescue("Mirror1", bad=bad), wanted, told)

    @case("rescue: bad sectors beside an absent disk")
    def span(self):
        """What is lost for two causes is told as two ranges."""
        front = failing.spoil(self.cut(("a", 1063, 500)), 490, 10)
        told = lines(
            f"lost 490+10: image 0 ({A}): {UNREAD}",
            "lost 500+1000: disk 1026 is absent",
            "1500 sectors: 490 said, 1010 lost",
        )
        command = self.rescue("Volume2", "ac", [(A, 1553, 10)])
        self.rescues(command, front + bytes(1000 * rooms.SECTOR), told)

    @rows(
        ("rescue: a hundred ranges are told", 100, []),
        ("rescue: one range more", 101, ["1 more range is lost"]),
        ("rescue: many ranges more", 125, ["25 more ranges are lost"]),
    )
    def many(self, count, more):
        """Of many ranges the first have lines, and the others are counted."""
        wanted = self.cut(("a", 63, 1000))
        for _, first, length in EIGHTHS[:count]:
            wanted = failing.spoil(wanted, first - 63, length)
        ranges = (f"lost {8 * it}+1: image 0 ({A}): {UNREAD}" for it in range(100))
        told = lines(*ranges, *more, f"1000 sectors: {1000 - count} said, {count} lost")
        self.rescues(self.rescue("Volume1", "a", EIGHTHS[:count]), wanted, told)

    @case("rescue: the database can't be read")
    def database(self):
        """That is a disk fault, as for a dump: there is no group without it."""
        bad = [(B, DATABASE, 2048)]
        came = self.ran(self.rescue("Volume1", bad=bad))
        plain = failing.with_bad_sectors(self.ldm("dump Volume1", *ALL), self.room, bad)
        self.is_ending(came, 3, "", self.ran(plain).err)
        self.assertRegex(came.err.decode(), r"\Aldm: disk fault: image 1 \(data/b\.img\): read of ")

    @case("rescue: the images after these")
    def images_after(self):
        """No byte of an image is changed."""
        for volume in ("Volume1", "Volume2", "Stripe1", "Mirror1", "Nope"):
            self.ran(self.rescue(volume, bad=EIGHTHS))
        self.is_as_before("data", rooms.bytes_of(self.room / "filled"))


class RescuedRaid5(BadSectors, Raid5):
    """A RAID-5 of one row, on images of which some sectors can't be read."""

    def prepare(self):
        Raid5.prepare(self)
        self.said = self.chunk * 2

    @case("rescue: the columns of a RAID-5 have bad sectors in different rows")
    def other_columns(self):
        """What one column lacks is made of the others."""
        bad = [(A, 2263, 9), (B, 1575 + 20, 9), (C, 1275 + 40, 9)]
        self.rescues(self.rescue("R", bad=bad), self.said, all_said(128))

    @case("rescue: two columns of a RAID-5 have a bad sector in one row")
    def one_row(self):
        """The sectors of both are lost."""
        wanted = failing.spoil(failing.spoil(self.said, 5, 1), 64 + 5, 1)
        told = re.compile(r"ldm: lost 5\+1: image \d .*\nldm: lost 69\+1: image \d .*\n")
        came = self.ran(self.rescue("R", bad=[(A, 2268, 1), (B, 1580, 1)]))
        self.is_bytes(wanted, came.out)
        self.assertEqual(1, came.status)
        self.assertRegex(came.err.decode(), told)

    @case("rescue: a RAID-5 of which a column is absent and another has a bad sector")
    def absent_column(self):
        """What is there is read, and of the absent column what can be made."""
        wanted = failing.spoil(failing.spoil(self.said, 5, 1), 64 + 5, 1)
        came = self.ran(self.rescue("R", "ac", [(A, 2268, 1)]))
        self.is_bytes(wanted, came.out)
        self.assertIn(b"ldm: 128 sectors: 126 said, 2 lost\n", came.err)


class RescuedAtTerminal(BadSectors):
    """What is told of a rescue where standard error is a terminal."""

    needs = (needs.a_program, needs.a_compiler, needs.a_terminal)

    def told(self, command):
        """What a rescue tells on a terminal, but how far it had come after half a second."""
        return re.sub(r"\r\d+ bytes [^\r\n]*\n?", "", terminals.explained(command, self.room))

    @case("rescue: a refusal is explained on a terminal")
    def explains(self):
        """It is told in words of the volume, as for a dump."""
        told = "ldm: Stripe1 has 1024 sectors, and 5 from sector 1020 on end behind them\n"
        self.is_text(told, self.told(self.rescue("Stripe1 1020 5")))

    @case("rescue: lost sectors are no refusal")
    def is_not_explained(self):
        """Each line begins a line of the terminal, whatever stood there of the progress."""
        bad = [(A, 1572, 1), (C, 584, 1)]
        loss = f"{CLEAR}ldm: lost 9+1: image 2 ({C}): {UNREAD}\n"
        told = f"{loss}{CLEAR}ldm: 700 sectors: 699 said, 1 lost\n"
        self.is_text(told, self.told(self.rescue("Mirror1", bad=bad)))

    @case("rescue: it tells on a terminal how far it has come")
    def tells(self):
        """The totals take the place of what was told last."""
        taken, told = terminals.told_late(self.rescue("Stripe1"), self.room)
        self.assertEqual(1024 * rooms.SECTOR, taken)
        last = re.escape(f"{CLEAR}ldm: 1024 sectors: 1024 said, 0 lost\n")
        self.assertRegex(told, rf"\A(\r\d+ bytes [^\r\n]*)+{last}\Z")

    @case("rescue: an image that is behind is told on a terminal")
    def is_behind(self):
        """Its data may be old where no other disk has them."""
        old = self.cut(("a", DATABASE, 2048))
        self.ran(self.ldm("delete Volume1", *ALL))
        self.put("a", DATABASE, old)
        told = self.told(self.rescue("Mirror1"))
        line = f"ldm: image 0 ({A}) is behind: sequence 7 of 8; its data may be old\n"
        self.assertTrue(told.endswith(line), told)


class RescueCalls(Rescues):
    """Rescues, by the calls of the system."""

    needs = (needs.a_program, needs.strace)

    @case("rescue opens its images for reading alone, and changes no file")
    def opens_for_reading(self):
        """It is a job that reads."""
        calls = (*tracing.OPENING, *tracing.CHANGING, *tracing.LOCKING)
        ending, made = tracing.traced(self.rescue("Mirror1"), self.room, calls, "-f", "-y")
        self.judge(tracing.not_read_alone(made, 3))
        self.is_ending(ending._replace(out=b""), 0, "", all_said(700))
