"""Edits of files: what is refused, and what is done where a standard stream fails."""
import fcntl
import os

from . import needs, rooms
from .harness import NO_OUTPUT, NO_SPACE, UNWRITTEN, Case, case, rows
from .running import CLOSED, FULL, NOTHING, reading, unread

SCRIPT = b"create One 99999999-0000-0000-0000-000000000001 span Disk1=10\ndelete Volume1\n"
EDITED = ["on", *rooms.group("edited")]
HELD = "held by another program"
NO_INPUT = "standard input: Bad file descriptor (os error 9)"
INPUT_FOLDER = "standard input: Is a directory (os error 21)"


def checked(sequence):
    """What `check` says of a whole group at a sequence."""
    return "".join(f"image {it} sequence {sequence}\n" for it in range(3)) + "ok: editable\n"


class Edited(Case):
    """The group of the examples in the folder `edited`, new for each case."""

    needs = (needs.a_program,)

    def prepare(self):
        self.renew()

    def renew(self):
        """Puts the examples in the place of the group that is edited."""
        rooms.copy_group(self.first, self.room / "edited")

    def edit(self, script=SCRIPT, **streams):
        """How an edit by a script ends."""
        return self.ran(self.ldm("edit", *EDITED), stdin=script, **streams)


class Edits(Edited):
    """Edits that are done, and edits that are refused and change nothing."""

    def prepare(self):
        super().prepare()
        (self.room / "edited/link.img").unlink(missing_ok=True)
        (self.room / "edited/link.img").symlink_to("a.img")

    @case("edit: a script")
    def script(self):
        """Each line is answered."""
        self.is_ending(self.edit(), 0, "1 ok 8\n2 ok 9\n")

    @case("edit: one command")
    def one_command(self):
        """The words of a call are a line of a script, here one that the group refuses."""
        self.is_ending(self.edit(), 0, "1 ok 8\n2 ok 9\n")
        self.ends(self.ldm("delete Volume1", *EDITED), 1, "1 refused: no volume\n")

    def without_a_disk(self):
        """An edit without one of the disks."""
        command = self.ldm("delete Volume1 on", *rooms.group("edited", "ab"))
        self.ends(command, 1, "refused: disk 1027 is absent\n")

    def of_one_image_twice(self):
        """An edit that names one image by a link too."""
        command = self.ldm("delete Volume1 on edited/a.img edited/link.img edited/b.img")
        self.ends(command, 1, "refused: images 0 and 1 are one disk\n")

    def of_a_held_image(self):
        """An edit of an image that another program has locked."""
        with open(self.room / "edited/c.img", "r+b") as image:
            fcntl.flock(image, fcntl.LOCK_EX | fcntl.LOCK_NB)
            self.unopened(self.ldm("delete Volume1", *EDITED), 2, "edited/c.img", HELD)

    @rows(
        ("edit: a disk is absent", without_a_disk),
        ("edit: one image by two names", of_one_image_twice),
        ("edit: another program holds an image", of_a_held_image),
    )
    def refused(self, edit):
        """An edit is refused as a whole."""
        edit(self)

    @case("edit: an image that may not be written")
    def may_not_be_written(self):
        """The system gives no permission."""
        if os.geteuid() == 0:
            self.skipTest("root may write it")
        image = self.room / "edited/c.img"
        image.chmod(0o444)
        self.addCleanup(image.chmod, 0o644)
        self.unopened(self.ldm("delete Volume1", *EDITED), 2, "edited/c.img", "no permission")

    @case("edit: the images after these")
    def images_after(self):
        """An edit that is refused as a whole changes no byte."""
        for edit in (Edits.without_a_disk, Edits.of_one_image_twice, Edits.of_a_held_image):
            edit(self)
        self.is_group("edited")


class EditInputs(Edited):
    """Jobs that hear a script, whose standard input is closed, or none."""

    jobs = (("try", ""), ("edit", UNWRITTEN))

    @classmethod
    def furnish(cls):
        (cls.room / "folder").mkdir()

    @rows(*((f"{job}: standard input is closed", job, more) for job, more in jobs))
    def closed(self, job, more):
        """It is told, and of an edit that nothing was written."""
        self.unsaid(self.ldm(job, *EDITED), NO_INPUT, more, stdin=CLOSED)

    @rows(*((f"{job}: standard input and error are closed", job) for job, _ in jobs))
    def closed_and_error(self, job):
        """The status tells it alone."""
        self.ends(self.ldm(job, *EDITED), 5, stdin=CLOSED, stderr=CLOSED)

    @rows(*((f"{job}: standard input is a folder", job, more) for job, more in jobs))
    def folder(self, job, more):
        """A folder can't be heard."""
        self.unsaid(self.ldm(job, *EDITED), INPUT_FOLDER, more, stdin=reading("folder"))

    @rows(*((f"{job}: the images after these", job) for job, _ in jobs))
    def images_after(self, job):
        """No byte is changed where no line was heard."""
        self.ran(self.ldm(job, *EDITED), stdin=CLOSED)
        self.ran(self.ldm(job, *EDITED), stdin=CLOSED, stderr=CLOSED)
        self.ran(self.ldm(job, *EDITED), stdin=reading("folder"))
        self.is_group("edited")

    @case("edit: one command hears nothing")
    def one_command(self):
        """One command doesn't mind its input."""
        self.ends(self.ldm("delete Volume1", *EDITED), 0, "1 ok 8\n", stdin=reading("folder"))


class EditOutputs(Edited):
    """Edits whose standard output fails."""

    outputs = (
        ("edit: output is closed", CLOSED, NO_OUTPUT),
        ("edit: output is for reading", NOTHING, NO_OUTPUT),
        ("edit: output is full", FULL, NO_SPACE),
    )

    @rows(*outputs)
    def fails(self, stdout, why):
        """The output is tried before a byte is handed to a disk."""
        self.unsaid(self.ldm("edit", *EDITED), why, UNWRITTEN, stdin=SCRIPT, stdout=stdout)

    @case("edit: the images after these")
    def images_after(self):
        """An edit that can't answer changes no byte."""
        for _, stdout, why in self.outputs:
            self.unsaid(self.ldm("edit", *EDITED), why, UNWRITTEN, stdin=SCRIPT, stdout=stdout)
        self.is_group("edited")

    def edit_unread(self):
        """How an edit ends whose replies nobody reads."""
        with unread() as pipe:
            return self.edit(stdout=pipe)

    @case("edit: nobody reads the output")
    def nobody_reads(self):
        """The line whose reply fails may be done, and that is told."""
        self.is_ending(
            self.edit_unread(),
            5,
            "",
            "ldm: talk fault: standard output: Broken pipe (os error 32)\n"
            "ldm: 0 lines were answered; the next may be done: run check, then edit again\n",
        )

    @case("edit: the group then")
    def group_then(self):
        """The line was done, and none behind it."""
        self.edit_unread()
        self.ends(self.ldm("check", *EDITED), 0, checked(8))
