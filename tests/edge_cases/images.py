"""What an image may be, and how it is opened."""
import os
import re

from . import needs, rooms, tracing
from .harness import Case, case, rows
from .running import empty_pipe, reading

LABEL = """disk 11111111-1111-1111-1111-111111111111 version 2.11 data 63+6081 database 6144+2048
area 17+1481 log 1498+224
"""
MISSING = "there is no such file"
NOT_UTF8 = os.fsdecode(b"a\xff.img")


def not_disk(kind):
    """Why a file of another kind is no image."""
    return f"it is {kind}, and neither a regular file nor a block device"


class Images(Case):
    """Files, links and what else a path may lead to, as images."""

    needs = (needs.a_program,)

    @classmethod
    def furnish(cls):
        rooms.lay_images(cls.first, cls.room)
        (cls.room / NOT_UTF8).symlink_to("a.img")
        (cls.room / "plain.img").symlink_to(NOT_UTF8)

    @rows(
        ("a file", "a.img"),
        ("a path with a slash and a blank", "./of disk/a.img"),
        ("a link to a file", "link.img"),
        ("a link to a link", "link2.img"),
        ("a file of a part of a sector more", "odd.img"),
        ("a sparse file of 5 GiB", "large.img"),
        ("a link to such a path", "plain.img"),
        ("a file that may not be written", "readonly.img"),
    )
    def has_label(self, path):
        """The label of an image is said."""
        self.ends(self.ldm("disk on", path), 0, LABEL)

    @rows(("an empty file", "empty.img"), ("a file of 511 bytes", "short.img"))
    def too_short(self, path):
        """A file that holds no sector is refused."""
        self.ends(self.ldm("disk on", path), 1, "refused: image 0: too short\n")

    @rows(
        ("a link to nothing", "dangling.img", MISSING),
        ("no such file", "missing.img", MISSING),
        ("an empty path", "", MISSING),
        ("a directory", "folder", not_disk("a directory")),
        ("a named pipe with no writer", "pipe", not_disk("a pipe")),
        ("a link to a named pipe", "pipe.img", not_disk("a pipe")),
        ("/dev/null", "/dev/null", not_disk("a character device")),
        ("/dev/zero", "/dev/zero", not_disk("a character device")),
        ("a socket", "socket", not_disk("a socket")),
        ("a file of the kernel that has no end", "/proc/version", "Invalid argument (os error 22)"),
    )
    def is_no_image(self, path, why):
        """What can't be an image doesn't open, and nobody is waited for."""
        self.unopened(self.ldm("disk on", path), 0, path, why)

    @case("a file that may not be read")
    def may_not_be_read(self):
        """The system gives no permission."""
        if os.geteuid() == 0:
            self.skipTest("root may read it")
        self.unopened(self.ldm("disk on secret.img"), 0, "secret.img", "no permission")

    @case("/dev/stdin, a file")
    def input_that_is_a_file(self):
        """Standard input can be the image where it is a file."""
        self.ends(self.ldm("disk on /dev/stdin"), 0, LABEL, stdin=reading("a.img"))

    @case("/dev/stdin, a pipe")
    def input_that_is_a_pipe(self):
        """A pipe is no image under this name either."""
        with empty_pipe() as pipe:
            command, why = self.ldm("disk on /dev/stdin"), not_disk("a pipe")
            self.unopened(command, 0, "/dev/stdin", why, stdin=pipe)

    @case("the second image is a directory")
    def another_image(self):
        """Images are counted from 0."""
        self.unopened(self.ldm("check on a.img folder"), 1, "folder", not_disk("a directory"))

    @case("too many open files")
    def few_files(self):
        """As many files as a process may have open are open already."""
        few = ["sh", "-c", 'ulimit -n 5 && exec "$@"', "sh"]
        why = "Too many open files (os error 24)"
        self.unopened([*few, *self.ldm("check on a.img a.img a.img")], 2, "a.img", why)

    @rows(
        (
            "words before images: a wrong job on a named pipe",
            "shaw on pipe",
            '"shaw" is no job; the nearest is "show"',
        ),
        ("no words", "", "there is no job"),
        ("no image", "disk on", 'no image is named behind "on"'),
        ("no on", "disk a.img", '"on" is missing between disk and its images'),
        (
            "a GUID with a digit gone",
            "create V 999999999-0000-0000-0000-00000000001 span Disk1=10 on pipe",
            '"999999999-0000-0000-0000-00000000001" is no GUID, '
            "which is 8-4-4-4-12 hexadecimal digits as uuidgen makes them",
        ),
    )
    def has_no_reading(self, words, why):
        """Words are read before an image is opened."""
        self.misread(self.ldm(words), why)

    @case("a path that is not UTF-8")
    def path_not_utf8(self):
        """A word that is not UTF-8 has no reading."""
        why = "a word is not UTF-8; an image whose path isn't can be named by a link to it"
        self.misread(self.ldm("disk on", NOT_UTF8), why)


LINE = "image {} group Dg0 aaaaaaaa-aaaa-aaaa-aaaa-aaaaaaaaaaaa disk Disk1 11111111-1111-1111-1111-111111111111 sequence 7\n"
# A regular file that is shorter than the system says, so that a read of it fails.
UNREAD = "/sys/kernel/uevent_seqnum"


class Scans(Case):
    """Images that don't open or can't be read, beside others that a scan looks at."""

    needs = (needs.a_program,)

    @classmethod
    def furnish(cls):
        rooms.lay_images(cls.first, cls.room)

    @rows(
        ("scan goes on past a missing file", "missing.img", MISSING),
        ("scan goes on past a directory", "folder", not_disk("a directory")),
        ("scan goes on past a named pipe with no writer", "pipe", not_disk("a pipe")),
    )
    def goes_on(self, path, why):
        """What doesn't open has its line, and so have the images before it and behind it."""
        said = LINE.format(0) + f"image 1 cannot open: {why}\n" + LINE.format(2)
        self.ends(self.ldm("scan on a.img", path, "a.img"), 0, said)

    @case("scan has no image that opens")
    def none_opens(self):
        """Nothing is left to look at, and that is no fault."""
        said = "".join(f"image {number} cannot open: {MISSING}\n" for number in range(2))
        self.ends(self.ldm("scan on missing.img dangling.img"), 0, said)

    @case("scan goes on past an image that can't be read")
    def unread(self):
        """The line says that it can't be read, and standard error which read failed."""
        if not os.path.exists(UNREAD):
            self.skipTest(f"no {UNREAD}")
        ending = self.ran(self.ldm("scan on missing.img", UNREAD, "a.img"))
        told = ending.err.decode()
        self.is_ending(ending._replace(err=b""), 0, f"image 0 cannot open: {MISSING}\nimage 1 cannot read\n" + LINE.format(2))
        front = f"ldm: disk fault: image 1 ({UNREAD}): read of sectors "
        self.judge([] if told.startswith(front) else [f"standard error was {told!r}"])


# The forms of the jobs that read images, as the help says them.
FORMS = (
    "disk on IMAGE",
    "records on IMAGE",
    "scan on IMAGE...",
    "show on IMAGE...",
    "check on IMAGE...",
    "map VOLUME FIRST COUNT on IMAGE...",
    "dump VOLUME on IMAGE...",
    "dump VOLUME FIRST COUNT on IMAGE...",
    "scrub VOLUME on IMAGE...",
    "table VOLUME on IMAGE...",
    "table on IMAGE...",
    "try on IMAGE...",
)


def row_of_form(form):
    """The case of a job that reads: its name, the words, and how many images they name."""
    form = form.replace("VOLUME", "Mirror1").replace("FIRST COUNT", "0 1")
    job, _, images = form.partition(" on ")
    if images == "IMAGE":
        return f"{job} opens its image for reading alone", f"{job} on a.img", 1
    group = " ".join(rooms.group("first"))
    return f"{job} opens its images for reading alone", f"{job} on {group}", 3


class Opening(Case):
    """How jobs that read open their images, by the calls of the system."""

    needs = (needs.a_program, needs.strace)

    @classmethod
    def furnish(cls):
        rooms.lay_images(cls.first, cls.room)
        rooms.copy_group(cls.first, cls.room / "first")

    @rows(*map(row_of_form, FORMS), ("sample opens no image", "sample 1", 0))
    def opens_for_reading(self, words, images):
        """A job opens each of its images for reading alone, changes none and takes no lock."""
        calls = (*tracing.OPENING, *tracing.CHANGING, *tracing.LOCKING)
        ending, lines = tracing.traced(self.ldm(words), self.room, calls, "-f", "-y")
        self.judge(tracing.not_read_alone(lines, images))
        self.is_ending(ending._replace(out=b""), 0)

    @case("the help has jobs that read")
    def forms_of_help(self):
        """The jobs that the help says to read are just those that are tried here."""
        text = self.ran(self.ldm("--help")).out.decode()
        part = text[text.index("\nThese jobs read:\n") : text.index("\nThese write")]
        forms = re.findall(r"(?m)^  (.* on IMAGE\.*) ", part)
        self.is_text("\n".join(FORMS), "\n".join(form.strip() for form in forms), "the forms")

    @case("no image is opened on a standard stream")
    def opens_apart(self):
        """No image gets the descriptor of a standard stream, where all of these are closed."""
        closed = ["sh", "-c", 'exec "$@" <&- >&- 2>&-', "sh", *self.ldm("check on a.img empty.img")]
        _, lines = tracing.traced(closed, self.room, ("open", "openat"), "-f")
        opened = [re.search(r'"(?:a|empty)\.img".* = (\d+)$', line) for line in lines]
        descriptors = [int(it[1]) for it in opened if it]
        self.assertEqual(2, len(descriptors), lines)
        self.assertTrue(all(it > 2 for it in descriptors), descriptors)
