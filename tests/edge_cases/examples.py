"""The program that writes the images of the examples."""
import os

from . import needs, rooms
from .harness import Case, case, rows
from .running import CLOSED, FULL

NAMES = "a.img\nb.img\nc.img\n"
USAGE = "examples: usage: examples FOLDER\n"
CANNOT_WRITE = "examples: cannot write a.img\n"
TALK_FAULT = "examples: talk fault\n"


def is_there(name):
    """What is said of a file that is there."""
    return f"examples: {name} is there already, and no file is written over\n"


class Examples(Case):
    """The program in folders of all kinds, each of which is new for a case."""

    def prepare(self):
        rooms.empty(self.room)
        for folder in ("new", "some", "linked", "closed", "full", "heard", "barred"):
            (self.room / folder).mkdir()
        (self.room / "some/c.img").write_bytes(b"mine\n")
        (self.room / "linked/b.img").symlink_to("../missing.img")
        (self.room / "short.img").write_bytes(b"short")

    def writes(self, folder, **streams):
        """The images are written, and their names said."""
        self.ends([self.examples, folder], 0, NAMES, **streams)

    @case("examples: into an empty folder")
    def into_empty(self):
        """The names of the images are said."""
        self.writes("new")

    @case("examples: each has 8192 sectors")
    def sizes(self):
        """The images are 4 MiB each."""
        self.writes("new")
        for name in rooms.GROUP:
            self.assertEqual(rooms.SIZE, (self.room / "new" / name).stat().st_size, name)

    @case("examples: files are there")
    def over_all(self):
        """No file is written over."""
        self.writes("new")
        self.ends([self.examples, "new"], 1, "", is_there("a.img"))

    @case("examples: they are as they were")
    def as_before(self):
        """The files are those of before."""
        self.writes("new")
        before = rooms.bytes_of(self.room / "new")
        self.ran([self.examples, "new"])
        self.is_as_before("new", before)

    @case("examples: the last file is there")
    def over_last(self):
        """Whether a file is there is known before one is written."""
        self.ends([self.examples, "some"], 1, "", is_there("c.img"))

    @case("examples: it is as it was")
    def last_as_before(self):
        """The file is that of before."""
        self.ran([self.examples, "some"])
        self.is_text("mine\n", (self.room / "some/c.img").read_bytes())

    @case("examples: no other was written")
    def none_before_last(self):
        """The first of the images is not there."""
        self.ran([self.examples, "some"])
        self.assertFalse(os.path.lexists(self.room / "some/a.img"))

    @case("examples: a link to nothing is there")
    def over_link(self):
        """A link counts as a file, wherever it leads."""
        self.ends([self.examples, "linked"], 1, "", is_there("b.img"))

    @case("examples: nothing was written through it")
    def not_through_link(self):
        """The file to which the link leads is not there."""
        self.ran([self.examples, "linked"])
        self.assertFalse(os.path.lexists(self.room / "missing.img"))

    @rows(
        ("examples: no such folder", ["missing"], CANNOT_WRITE),
        ("examples: the folder is a file", ["short.img"], CANNOT_WRITE),
        ("examples: no words", [], USAGE),
        ("examples: two words", ["new", "some"], USAGE),
    )
    def has_no_folder(self, words, said):
        """Where no folder is named nothing is written."""
        self.ends([self.examples, *words], 1, "", said)

    @rows(
        ("examples: standard output is closed", "closed", CLOSED),
        ("examples: standard output is full", "full", FULL),
    )
    def output_fails(self, folder, stdout):
        """The status tells that the names were not said."""
        self.ends([self.examples, folder], 1, "", TALK_FAULT, stdout=stdout)

    @case("examples: what was written then is whole")
    def whole_where_closed(self):
        """An image is written whole before its name is said."""
        self.ran([self.examples, "closed"], stdout=CLOSED)
        self.is_image("closed/a.img")

    @case("examples: standard input is closed")
    def input_closed(self):
        """Nothing is heard."""
        self.writes("heard", stdin=CLOSED)

    @case("examples: a folder that may not be written")
    def barred(self):
        """The system gives no permission."""
        if os.geteuid() == 0:
            self.skipTest("root may write it")
        (self.room / "barred").chmod(0o555)
        self.ends([self.examples, "barred"], 1, "", CANNOT_WRITE)


class GroupOfExamples(Case):
    """The group that the images of the examples hold."""

    needs = (needs.a_program,)

    @classmethod
    def furnish(cls):
        rooms.copy_group(cls.first, cls.room / "new")

    @case("the group of the examples")
    def checks(self):
        """All three are at one sequence."""
        said = "image 0 sequence 7\nimage 1 sequence 7\nimage 2 sequence 7\nok: editable\n"
        self.ends(self.ldm("check on", *rooms.group("new")), 0, said)

    @case("the examples, in another order, and one missing")
    def maps(self):
        """A sector that lies on the missing disk has its place all the same."""
        command = self.ldm("map Stripe1 200 1 on", *rooms.group("new", "ba"))
        self.ends(command, 0, "200 copy 0 Disk3 72 missing\n")
