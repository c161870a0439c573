"""Cases that have names, how they are judged, and how that is said."""
import difflib
import functools
import itertools
import os
import pathlib
import tempfile
import traceback
import unittest

from . import rooms, running

NO_OUTPUT = "standard output: Bad file descriptor (os error 9)"
NO_SPACE = "standard output: No space left on device (os error 28)"
UNWRITTEN = "ldm: nothing was written\n"
SHOWN_LINES = 60
SHOWN_COLUMNS = 400


def rows(*table):
    """Makes a method a case for each row of a table: a name, and what the method is passed."""

    def mark(method):
        method.table = table
        return method

    return mark


def case(name):
    """Makes a method the case of this name."""
    return rows((name,))


def as_bytes(text):
    """A text as a program says it."""
    return text if isinstance(text, bytes) else text.encode()


def as_lines(text):
    """The lines of a text as they are shown: none is long, and all of it can be printed."""
    lines = as_bytes(text).decode(errors="backslashreplace").split("\n")
    last = lines.pop()
    shown = [f"{plain(line)}\n" for line in lines]
    return shown if last == "" else [*shown, f"{plain(last)} (and no end of the line)\n"]


def plain(line):
    """A line without what can't be printed."""
    return "".join(it if it.isprintable() else repr(it)[1:-1] for it in line[:SHOWN_COLUMNS])


def difference(what, wanted, came):
    """How a text differs from the one that is wanted, as a unified diff: empty where it doesn't."""
    if as_bytes(wanted) == as_bytes(came):
        return ""
    titles = f"{what}, wanted", f"{what}, had"
    lines = difflib.unified_diff(as_lines(wanted), as_lines(came), *titles)
    return "".join(itertools.islice(lines, SHOWN_LINES))


class Case(unittest.TestCase):
    """The cases of a theme: methods that `case` or `rows` names.

    They share the folder `room`, which `furnish` fills. Each of `needs` is asked before a case, and
    says why it can't be tried, or None.
    """

    needs = ()
    names = ()
    program = examples = reader = first = base = room = None

    def __init_subclass__(cls, **options):
        super().__init_subclass__(**options)
        marked = [(it, row) for it in vars(cls).values() for row in getattr(it, "table", ())]
        for method, (name, *passed) in marked:
            if hasattr(cls, name):
                raise ValueError(f"{cls.__name__} has {name} twice")
            setattr(cls, name, functools.partialmethod(method, *passed))
        cls.names = tuple(name for _, (name, *_) in marked)

    @classmethod
    def why_not(cls, needed):
        """Why what needs all these can't be tried, or None."""
        return next(filter(None, (need(cls) for need in needed)), None)

    @classmethod
    def furnish(cls):
        """Puts into the folder what the cases find there."""

    @classmethod
    def setUpClass(cls):
        cls.room = pathlib.Path(tempfile.mkdtemp(prefix=cls.__name__, dir=cls.base))
        cls.addClassCleanup(rooms.remove, cls.room)
        if cls.why_not(cls.needs) is None:
            cls.furnish()

    def setUp(self):
        self.skip_without(*self.needs)
        self.prepare()

    def prepare(self):
        """Makes the folder ready for one case."""

    def skip_without(self, *needed):
        """Skips a case that needs all these, where one can't be had."""
        why = self.why_not(needed)
        if why is not None:
            self.skipTest(why)

    def __str__(self):
        return self._testMethodName

    # ---- running

    def ldm(self, words, *more):
        """The words that call the program: those of a text, and more."""
        return [self.program, *words.split(), *more]

    def ran(self, command, seconds=running.SECONDS, **streams):
        """How a command ends in the folder."""
        return running.run(command, self.room, seconds, **streams)

    # ---- judging

    def judge(self, faults):
        """Fails with all of these texts that aren't empty."""
        faults = "".join(faults)
        if faults:
            raise self.failureException(faults)

    def is_text(self, wanted, came, what="the text"):
        """A text is just the one that is wanted."""
        self.judge([difference(what, wanted, came)])

    def is_bytes(self, wanted, came, what="the bytes"):
        """Bytes are just those that are wanted."""
        if wanted != came:
            place = len(os.path.commonprefix([wanted, came]))
            self.fail(f"{what} differ at {place}: {len(wanted)} are wanted, {len(came)} were had")

    def is_image(self, path, name="a.img"):
        """A file in the folder is this image of the examples."""
        wanted, came = (self.first / name).read_bytes(), (self.room / path).read_bytes()
        self.is_bytes(wanted, came, f"the bytes of {path}")

    def is_group(self, folder):
        """The images in a folder are those of the examples."""
        for name in rooms.GROUP:
            self.is_image(f"{folder}/{name}", name)

    def is_as_before(self, folder, before):
        """The images in a folder have these bytes still."""
        for name, wanted, came in zip(rooms.GROUP, before, rooms.bytes_of(self.room / folder)):
            self.is_bytes(wanted, came, f"the bytes of {folder}/{name}")

    def is_ending(self, ending, status, out="", err=""):
        """A program ended with this status, and said this and nothing else."""
        other = "" if ending.status == status else f"wanted status {status}, had {ending.status}\n"
        self.judge(
            [
                other,
                difference("standard output", out, ending.out),
                difference("standard error", err, ending.err),
            ]
        )

    def ends(self, command, status, out="", err="", **streams):
        """A command ends with this status, and says this and nothing else."""
        self.is_ending(self.ran(command, **streams), status, out, err)

    def unopened(self, command, image, path, why, **streams):
        """A command ends since it can't have the image of this number and path, for this reason."""
        self.ends(command, 3, "", f"ldm: cannot open: image {image} ({path}): {why}\n", **streams)

    def misread(self, command, why):
        """The words of a command have no reading, for this reason."""
        lines = ("usage: ldm JOB on IMAGE...", why, "ldm --help says more")
        self.ends(command, 2, "", "".join(f"ldm: {line}\n" for line in lines))

    def unsaid(self, command, why, more="", **streams):
        """The talk fails for this reason before anything was said; `more` is what is told of it."""
        self.ends(command, 5, "", f"ldm: talk fault: {why}\n{more}", **streams)


class Result(unittest.TestResult):
    """Says each case when it is over, those that are well only where that is asked for."""

    def __init__(self, talkative):
        super().__init__()
        self.talkative = talkative
        self.judged = self.failed = self.left_out = 0

    def _say(self, word, text, more=""):
        lines = [f"{word:<9}{text}", *(f"  {line}" for line in more.splitlines())]
        print("\n".join(lines), flush=True)

    def _fail(self, test, text):
        self.judged += 1
        self.failed += 1
        self._say("FAILED", str(test), text)

    def addSuccess(self, test):
        super().addSuccess(test)
        self.judged += 1
        if self.talkative:
            self._say("ok", str(test))

    def addFailure(self, test, err):
        super().addFailure(test, err)
        self._fail(test, str(err[1]))

    def addError(self, test, err):
        super().addError(test, err)
        self._fail(test, "".join(traceback.format_exception(*err)))

    def addSkip(self, test, reason):
        super().addSkip(test, reason)
        self.left_out += 1
        self._say("skipped", f"{test}: {reason}")

    def summary(self):
        """The last line of a run."""
        return f"{self.judged} cases, {self.failed} failures, {self.left_out} skipped"


def is_built(path):
    """Whether a program is there."""
    return os.path.isfile(path) and os.access(path, os.X_OK)
