"""What the program tells of itself, and what it explains and tells on a terminal."""
import pathlib
import re

from . import needs, rooms, terminals
from .edits import EDITED, Edited
from .harness import Case, case, rows
from .running import taken_late

TOP = pathlib.Path(__file__).resolve().parents[2]
MANUAL = TOP / "docs/ldm.1"
TEXTS = TOP / "crates/ldm_edge/src/text.rt"
WAITING = "ldm: waiting for the lines of a script on the terminal; Ctrl-D ends them\n"
WRONG_SCRIPT = b"delete Volum1\n\ndelete Nope\r\n"
WRONG_LINES = (
    "ldm: line 1: no volume is called Volum1; the nearest is Volume1\n"
    "ldm: line 2: it is blank, and a script has no blank lines\n"
    "ldm: line 3: it ends in CR, as lines of Windows do: tr -d '\\r' takes it away\n"
)


def help_of_sources():
    """The help, as the sources have it."""
    return re.search(r'(?ms)^usage: ldm .*?\n(?=";$)', TEXTS.read_text(encoding="utf-8"))[0]


class Texts(Case):
    """The help and the version."""

    needs = (needs.a_program,)

    @case("--version, and the manual page says the same")
    def version(self):
        """The version stands at the top of the manual page."""
        heading = re.search(r'(?m)^\.TH LDM 1 "" "(.*?)"', MANUAL.read_text(encoding="utf-8"))
        self.ends(self.ldm("--version"), 0, heading[1] + "\n")

    @case("--help")
    def help(self):
        """The help is that of the sources."""
        self.ends(self.ldm("--help"), 0, help_of_sources())

    @rows(("-h says the same", "-h"), ("help says the same", "help"))
    def other_words(self, words):
        """The help goes by other words too."""
        self.ends(self.ldm(words), 0, self.ran(self.ldm("--help")).out)

    @case("the help of a job has its form")
    def form_of_job(self):
        """The form stands in a line of its own."""
        said = self.ran(self.ldm("help map")).out.decode()
        self.assertIn("usage: ldm map VOLUME FIRST COUNT on IMAGE...", said.splitlines())

    @case("and is what the job says of itself")
    def help_of_job(self):
        """The help of a job goes by two forms."""
        self.ends(self.ldm("map --help"), 0, self.ran(self.ldm("help map")).out)


class Waiting(Edited):
    """Jobs that hear a script, where the input is a terminal."""

    needs = (needs.a_program, needs.a_terminal)

    @rows(*((f"{job}: a script is waited for on a terminal", job) for job in ("try", "edit")))
    def waits(self, job):
        """Who types is told how to end."""
        self.is_ending(terminals.waited_for(self.ldm(job, *EDITED), self.room), 0, "", WAITING)

    @case("check waits for none")
    def waits_for_none(self):
        """A job that hears nothing tells nothing."""
        self.is_ending(terminals.waited_for(self.ldm("check", *EDITED), self.room), 0, "", "")


class Explained(Edited):
    """What is explained where standard error is a terminal."""

    needs = (needs.a_program, needs.a_terminal)

    @rows(*((f"{job}: refused lines are explained on a terminal", job) for job in ("try", "edit")))
    def lines(self, job):
        """What is wrong of each line is told, with its number."""
        told = terminals.explained(self.ldm(job, *EDITED), self.room, WRONG_SCRIPT)
        self.is_text(WRONG_LINES, told)

    @rows(*((f"{job}: and nowhere else", job) for job in ("try", "edit")))
    def lines_elsewhere(self, job):
        """A file gets no explanations."""
        self.is_text("", self.ran(self.ldm(job, *EDITED), stdin=WRONG_SCRIPT).err)

    @rows(
        (
            "dump: a section behind the end is explained on a terminal",
            "dump Stripe1 1020 5",
            "ldm: Stripe1 has 1024 sectors, and 5 from sector 1020 on end behind them\n",
        ),
        (
            "table: that a volume has none is explained on a terminal",
            "table Stripe1",
            "ldm: sector 128 of Stripe1 lies on Disk3 (33333333-3333-3333-3333-333333333333), "
            "which is absent: name its image\n",
        ),
    )
    def refusals(self, job, told):
        """Why a job is refused is told in words of the volume."""
        command = self.ldm(f"{job} on", *rooms.group("edited", "ba"))
        self.is_text(told, terminals.explained(command, self.room))


class Progress(Edited):
    """How far a dump has come, of which the output is taken late."""

    needs = (needs.a_program, needs.a_terminal)
    size = 524288

    def prepare(self):
        super().prepare()
        self.command = self.ldm("dump Stripe1", *EDITED)

    @case("dump tells on a terminal how far it has come")
    def tells(self):
        """The last that it tells is all that it said."""
        taken, told = terminals.told_late(self.command, self.room)
        self.assertEqual(self.size, taken)
        last = re.escape(f"\r{self.size} bytes (524 kB, 512 KiB) said, ")
        self.assertRegex(told, rf"\A(\r\d+ bytes [^\r\n]*)*{last}[0-9]+ s, [0-9.]+ kB/s   \n\Z")

    @case("and nowhere else")
    def tells_elsewhere(self):
        """A file is told nothing."""
        taken, ending = taken_late(self.command, self.room)
        self.assertEqual(self.size, taken)
        self.is_ending(ending, 0)
