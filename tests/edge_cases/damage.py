"""Images that are damaged, or behind the others: what is read past that, told and repaired."""
from . import needs, rooms, terminals, tracing
from .harness import NO_OUTPUT, UNWRITTEN, Case, case, rows
from .running import CLOSED

# Block 7 of the database of b.img, whose config area begins at byte 3154432.
BLOCK_7 = 3155328
# The sectors of c.img up to the first private header.
LABEL_SECTORS = 7

FIRST = ["on", *rooms.group("first")]
DAMAGED = ["on", *rooms.group("damaged")]
PASSED_OVER = "ldm: image 1 (damaged/b.img) passed over: block 7: no VBLK\n"
PAST = f"{PASSED_OVER}ldm: image 2 (damaged/c.img) mended: no signature\n"
VOLUMES = ("Volume1", "Stripe1", "Mirror1")
JOBS_PAST = ("show", "check", "map Mirror1 0 1", "dump Mirror1", "scrub Mirror1")
OPENS = "opens its images for reading alone, and changes no file"
REPAIRED = "ldm: image 1 (damaged/b.img) had a damaged copy: block 7: no VBLK\n"
BEHIND = "ldm: image 2 (behind/c.img) is behind: sequence 7 of 8; its data may be old"
JOBS_BEHIND = ("show", "dump Mirror1", "scrub Mirror1", "show --past-damage")


def past(words):
    """The words of a job that reads past damage."""
    job, *others = words.split()
    return " ".join([job, "--past-damage", *others])


class Damaged(Case):
    """A group of which b.img has a damaged copy of the database, and c.img a damaged label."""

    @classmethod
    def furnish(cls):
        rooms.copy_group(cls.first, cls.room / "first")

    def prepare(self):
        rooms.copy_group(self.first, self.room / "damaged")
        rooms.put_in(self.room / "damaged/b.img", BLOCK_7, b"W")
        rooms.put_in(self.room / "damaged/c.img", 0, bytes(LABEL_SECTORS * rooms.SECTOR))


class PastDamage(Damaged):
    """What is read past damage."""

    needs = (needs.a_program,)

    @case("a damaged label refuses the group")
    def refused(self):
        """Without the word for it nothing is read past damage."""
        self.ends(self.ldm("show", *DAMAGED), 1, "refused: image 2: no signature\n")

    @case("show reads past damage")
    def shows(self):
        """The answer is that of before, and what is damaged is told."""
        before = self.ran(self.ldm("show", *FIRST))
        self.assertEqual(0, before.status)
        self.ends(self.ldm("show --past-damage", *DAMAGED), 0, before.out, PAST)

    @case("check says past damage what is damaged")
    def checks(self):
        """It is the answer of this job."""
        self.ends(
            self.ldm("check --past-damage", *DAMAGED),
            0,
            "image 1 passed over: block 7: no VBLK\n"
            "image 2 mended: no signature\n"
            "image 0 sequence 7\n"
            "image 1 closed\n"
            "image 2 sequence 7\n"
            "ok: editable\n",
        )

    @rows(*((f"dump of {it} past damage is that of before", it) for it in VOLUMES))
    def dumps(self, volume):
        """The bytes of a volume don't lie in what is damaged."""
        before = self.ran(self.ldm(f"dump {volume}", *FIRST))
        self.assertEqual(0, before.status)
        came = self.ran(self.ldm(f"dump --past-damage {volume}", *DAMAGED))
        self.is_bytes(before.out, came.out)
        self.is_ending(came._replace(out=b""), 0, "", PAST)

    @case("table past damage: one volume")
    def one_table(self):
        """The table of a volume, of the copies that are left."""
        said = "ldm_vol_Dg0_Mirror1,LDM-88888888-8888-8888-8888-888888888888,,ro,0 700 linear damaged/a.img 1563\n"
        self.ends(self.ldm("table --past-damage Mirror1 on", *rooms.group("damaged", "ab")), 0, said, PASSED_OVER)

    @case("table past damage: all volumes")
    def tables(self):
        """Where no volume is named, the word is the name of one, as it is of a dump."""
        self.ends(self.ldm("table --past-damage on", *rooms.group("damaged", "ab")), 1, "refused: image 1: block 7: no VBLK\n")

    @case("a refusal past damage tells it too")
    def refuses(self):
        """What is damaged is told whatever the answer is."""
        command = self.ldm("dump --past-damage Nope", *DAMAGED)
        self.ends(command, 1, "refused: no volume\n", PAST)


class PastDamageCalls(Damaged):
    """Jobs that read past damage, by the calls of the system."""

    needs = (needs.a_program, needs.strace)

    @rows(*((f"{it.split()[0]} past damage {OPENS}", it) for it in JOBS_PAST))
    def opens_for_reading(self, job):
        """A job that reads past damage opens its images as others do."""
        calls = (*tracing.OPENING, *tracing.CHANGING, *tracing.LOCKING)
        ending, lines = tracing.traced(self.ldm(past(job), *DAMAGED), self.room, calls, "-f", "-y")
        self.judge(tracing.not_read_alone(lines, 3))
        self.is_ending(ending._replace(out=b""), 0, "", "" if job == "check" else PAST)


class ExplainedDamage(Damaged):
    """What is told of damage on a terminal."""

    needs = (needs.a_program, needs.a_terminal)

    @rows(
        (
            "a refusal that is got over past damage says so on a terminal",
            ["show", *DAMAGED],
            "ldm: sector 0 of damaged/c.img doesn't end with 55 AA, as an MBR does: "
            "is it the image of a whole disk?\n"
            "ldm: leave it out, where the others are enough to read\n"
            "ldm: to read on past this damage: ldm show --past-damage ...\n",
        ),
        ("and past damage nothing more is told", ["show", "--past-damage", *DAMAGED], PAST),
        (
            "nor where no copy is left",
            ["show", "on", "damaged/b.img"],
            "ldm: damaged/b.img: block 7 of its database doesn't begin with VBLK\n",
        ),
    )
    def explains(self, words, told):
        """A refusal is explained, and where one can read on, that is said."""
        self.is_text(told, terminals.explained([self.program, *words], self.room))

    @case("a command that is refused for damage says on a terminal what repairs it")
    def names_repair(self):
        """Where a copy alone is damaged, `repair` is named."""
        rooms.copy_one(self.first, self.room / "damaged", "c.img")
        told = terminals.explained(self.ldm("delete Volume1", *DAMAGED), self.room)
        line = (
            "ldm: ldm check --past-damage says what is damaged, "
            "and ldm repair makes damaged copies of the database anew"
        )
        self.assertIn(line, told.splitlines())


class LabelNotRepaired(Damaged):
    """What `repair` doesn't mend."""

    needs = (needs.a_program,)

    @case("a repair mends no label, and tells what is damaged")
    def mends_no_label(self):
        """All that is damaged is told with the refusal."""
        self.ends(
            self.ldm("repair", *DAMAGED),
            1,
            "refused: image 2: no signature\n",
            "ldm: image 1 (damaged/b.img) has a damaged copy: block 7: no VBLK\n"
            "ldm: image 2 (damaged/c.img) has a label that repair doesn't mend: no signature\n",
        )


class Repair(Damaged):
    """Repairs of a group with good labels, of which b.img has a damaged copy."""

    needs = (needs.a_program,)

    def prepare(self):
        super().prepare()
        rooms.copy_one(self.first, self.room / "damaged", "c.img")

    def repair(self):
        """Repairs the one copy that is damaged."""
        self.ends(self.ldm("repair", *DAMAGED), 0, "ok 7 repaired 1\n", REPAIRED)

    @case("a repair needs its output before it writes")
    def output_first(self):
        """Nothing is written where no answer can be said."""
        before = rooms.bytes_of(self.room / "damaged")
        self.unsaid(self.ldm("repair", *DAMAGED), NO_OUTPUT, UNWRITTEN, stdout=CLOSED)
        self.is_as_before("damaged", before)

    @case("a repair makes a damaged copy anew")
    def repairs(self):
        """The answer counts the copies, and each is told with what was damaged in it."""
        self.repair()

    @rows(*((f"{it} is as it was before the damage", it) for it in rooms.GROUP))
    def as_before(self, name):
        """A repair brings back the bytes of before."""
        self.repair()
        self.is_image(f"damaged/{name}", name)

    @case("then nothing is to be repaired")
    def again(self):
        """A repair of what is repaired counts none."""
        self.repair()
        self.ends(self.ldm("repair", *DAMAGED), 0, "ok 7 repaired 0\n")


class Behind(Case):
    """A group whose disk of c.img wasn't there when it was edited."""

    needs = (needs.a_program, needs.a_terminal)

    def prepare(self):
        rooms.copy_group(self.first, self.room / "behind")
        self.ends(self.ldm("delete Volume1 on", *rooms.group("behind")), 0, "1 ok 8\n")
        rooms.copy_one(self.first, self.room / "behind", "c.img")

    @rows(*((f"an image that is behind is told on a terminal: {it}", it) for it in JOBS_BEHIND))
    def tells(self, job):
        """A job that reads goes by the newest copy, and tells which image has an older one."""
        told = terminals.explained(self.ldm(f"{job} on", *rooms.group("behind")), self.room)
        self.assertIn(BEHIND, told.splitlines())

    @case("and none where none is")
    def tells_none(self):
        """Nothing is told where all images are at one sequence."""
        command = self.ldm("show on", *rooms.group("behind", "ab"))
        self.is_text("", terminals.explained(command, self.room))
