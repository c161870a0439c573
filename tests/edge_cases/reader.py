"""The smaller program, which has the jobs that look at disks and groups."""
from . import needs, rooms
from .harness import NO_OUTPUT, Case, case, rows
from .images import LABEL
from .running import CLOSED

GUID = "aaaaaaaa-aaaa-aaaa-aaaa-aaaaaaaaaaaa"
LOOKS = (
    "disk on short.img",
    "records on a.img",
    "records on missing.img",
    "show on first/a.img first/b.img first/c.img",
    "show on a.img pipe",
    "check on first/c.img first/a.img",
    "check on a.img a.img",
    "map Mirror1 0 9 on first/a.img first/b.img",
    "map Mirror1 0 on a.img",
)
JOBS = "disk, records, scan, show, check and map"
OTHERS = (
    "dump V on a.img",
    "scrub V on a.img",
    "table V on a.img",
    "try on a.img",
    "edit on a.img",
    f"init G {GUID} {GUID} bbbbbbbb-bbbb-bbbb-bbbb-bbbbbbbbbbbb on a.img a.img",
    "sample 0",
    "delete V on a.img",
)


class Reader(Case):
    """Its jobs, on images that hold a group and on some that don't, and the jobs that it hasn't."""

    needs = (needs.a_program, needs.a_reader)

    @classmethod
    def furnish(cls):
        rooms.lay_images(cls.first, cls.room)
        rooms.copy_group(cls.first, cls.room / "first")

    @case("reader: a label")
    def label(self):
        """The label is that of the whole program."""
        self.ends([self.reader, "disk", "on", "a.img"], 0, LABEL)

    @rows(*((f"reader: {job}", job) for job in LOOKS))
    def reads_alike(self, job):
        """It ends as the whole program does, with all that is said."""
        self.ends([self.reader, *job.split()], *self.ran(self.ldm(job)))

    @case("reader: standard output is closed")
    def output_closed(self):
        """Standard error says it."""
        self.unsaid([self.reader, "disk", "on", "a.img"], NO_OUTPUT, stdout=CLOSED)

    @rows(*((f"reader: {words.split()[0]}", words) for words in OTHERS))
    def has_no_such_job(self, words):
        """A job that it hasn't has no reading, and its own jobs are named."""
        job = words.split()[0]
        why = f'"{job}" is no job of this program, which has {JOBS}'
        self.misread([self.reader, *words.split()], why)
