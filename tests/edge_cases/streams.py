"""Standard streams that are closed, full, or for reading alone."""
import itertools

from . import needs, rooms
from .harness import NO_OUTPUT, NO_SPACE, Case, case, rows
from .images import LABEL
from .running import CLOSED, FULL, reading

JOBS = ("disk on a.img", "records on empty.img", "check on a.img a.img", "--help", "--version")
UNREADABLE = reading("/dev/null")
STREAMS = ("stdin", "stdout", "stderr")
SETS_OF_STREAMS = [it for count in (1, 2, 3) for it in itertools.combinations(STREAMS, count)]


def of_jobs(text):
    """A row for each job: the name of its case begins with a text."""
    return [(f"{text}: {job}", job) for job in JOBS]


class Streams(Case):
    """Jobs that read, whose standard streams are closed, full or for reading alone."""

    needs = (needs.a_program,)

    @classmethod
    def furnish(cls):
        rooms.lay_images(cls.first, cls.room)

    @rows(*of_jobs("standard output is closed"))
    def output_closed(self, job):
        """Standard error says it."""
        self.unsaid(self.ldm(job), NO_OUTPUT, stdout=CLOSED)

    @rows(*of_jobs("standard output is full"))
    def output_full(self, job):
        """Standard error says it."""
        self.unsaid(self.ldm(job), NO_SPACE, stdout=FULL)

    @rows(*of_jobs("standard output is for reading"))
    def output_for_reading(self, job):
        """It fails as where it is closed."""
        self.unsaid(self.ldm(job), NO_OUTPUT, stdout=UNREADABLE)

    @rows(*of_jobs("all are closed"))
    def all_closed(self, job):
        """The status tells it, and nothing else can."""
        self.ends(self.ldm(job), 5, stdin=CLOSED, stdout=CLOSED, stderr=CLOSED)

    @rows(
        ("standard input is closed", {"stdin": CLOSED}),
        ("standard error is closed", {"stderr": CLOSED}),
        ("standard input and error are closed", {"stdin": CLOSED, "stderr": CLOSED}),
    )
    def is_not_minded(self, streams):
        """A stream that a job doesn't need may be closed."""
        self.ends(self.ldm("disk on a.img"), 0, LABEL, **streams)

    @case("standard input and output are closed")
    def input_and_output_closed(self):
        """What fails is the output."""
        self.unsaid(self.ldm("disk on a.img"), NO_OUTPUT, stdin=CLOSED, stdout=CLOSED)

    @case("standard output and error are closed")
    def output_and_error_closed(self):
        """The status tells it alone."""
        self.ends(self.ldm("disk on a.img"), 5, stdout=CLOSED, stderr=CLOSED)

    @rows(
        ("standard error is closed, and an image does not open", CLOSED),
        ("standard error is full", FULL),
    )
    def error_not_told(self, stderr):
        """The status stays where standard error takes nothing."""
        self.ends(self.ldm("disk on folder"), 3, stderr=stderr)

    @case("the image after all these")
    def image_after(self):
        """Nothing is said into an image, whichever streams are closed."""
        spoiled = [{"stdout": FULL}, {"stdout": UNREADABLE}, {"stderr": FULL}]
        spoiled += [dict.fromkeys(closed, CLOSED) for closed in SETS_OF_STREAMS]
        for job, streams in itertools.product((*JOBS, "disk on folder"), spoiled):
            self.ran(self.ldm(job), **streams)
        self.is_image("a.img")
