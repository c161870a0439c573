"""Edits that are stopped, or whose calls of the system fail."""
import re

from . import needs, rooms, tracing
from .edits import EDITED, SCRIPT, Edited
from .groups import INIT
from .harness import UNWRITTEN, case, rows
from .running import writing

# The first byte of a config area, which is taken away before the area changes and put back later.
GATE = 3154432
WRITES, SYNCS = 24, 21
# How an edit ends that is killed, and one whose disk fails.
KILLED, DISK_FAULT = -9, 3
EDIT_AGAIN = "ldm: 1 line was answered; the next may be done: run check, then edit again\n"
INIT_AGAIN = (
    "ldm: the new group may be there in part: run check; if it refuses the disks, "
    'zero them as README says under "A new group", then run init again\n'
)
FAILED = "Input/output error (os error 5)"
FULL_DEVICE = "No space left on device (os error 28)"


def calls_of_line(blocks):
    """The calls of a line that is done, and changes three blocks in a row from a place on."""
    for name in "abc":
        yield f'pwrite64 {name} "\\0" 1 {GATE}'
        yield f"fsync {name}"
        yield f"pwrite64 {name} header 511 {GATE + 1}"
        yield f"pwrite64 {name} blocks 384 {blocks}"
        yield f"fsync {name}"
        yield f'pwrite64 {name} "V" 1 {GATE}'
        yield f"fsync {name}"


# The calls of SCRIPT: first the output is tried and the images synced; a line is done and answered.
CALLS = (
    'write said "" 0',
    "fsync a",
    "fsync b",
    "fsync c",
    *calls_of_line(3157504),
    'write said "1 ok 8\\n" 7',
    *calls_of_line(3155456),
    'write said "2 ok 9\\n" 7',
)


class Stops(Edited):
    """An edit of two lines that is killed, or fails, at each of its calls."""

    needs = (needs.a_program, needs.strace)

    @case("edit: just these system calls")
    def calls(self):
        """An edit makes just these calls that may change a file."""
        command = self.ldm("edit", *EDITED)
        said = writing("said")
        _, lines = tracing.traced(
            command, self.room, tracing.CHANGING, "-f", "-y", stdin=SCRIPT, stdout=said
        )
        wanted = "".join(f"{call}\n" for call in CALLS)
        self.is_text(wanted, tracing.plain_calls(lines), "the calls")

    @rows(
        ("edit: killed at each write", "pwrite64", WRITES, "signal=KILL", KILLED),
        ("edit: killed at each sync", "fsync", SYNCS, "signal=KILL", KILLED),
        ("edit: each write fails", "pwrite64", WRITES, "error=EIO", DISK_FAULT),
        ("edit: each sync fails", "fsync", SYNCS, "error=EIO", DISK_FAULT),
        ("edit: a full device at each write", "pwrite64", WRITES, "error=ENOSPC", DISK_FAULT),
    )
    def stops(self, call, count, effect, status):
        """What a stop leaves opens with the lines that were answered, or one more.

        The next edit makes all copies equal.
        """
        for at in range(1, count + 1):
            self.renew()
            command = self.ldm("edit", *EDITED)
            ending, _ = tracing.disturbed(command, self.room, call, effect, at, stdin=SCRIPT)
            self.assertEqual(status, ending.status, f"at call {at} of {call}")
            fault = self.fault_of_stop(ending.out.count(b"\n"))
            if fault:
                self.fail(f"at call {at} of {call}: {fault}")

    def fault_of_stop(self, answered):
        """What is wrong of the group that a stop left behind so many answers, or None."""
        shown = self.ran(self.ldm("show", *EDITED))
        if shown.status != 0:
            return f"show ends so: {shown}"
        sequence = re.match(rb".* sequence (\d+)", shown.out)
        if sequence is None or int(sequence[1]) not in (7 + answered, 8 + answered):
            return f"{answered} lines were answered, and show begins with {shown.out[:80]}"
        healed = self.edit(b"")
        if healed.status != 0:
            return f"the next edit ends so: {healed}"
        said = self.ran(self.ldm("check", *EDITED)).out
        if sum(line.endswith(b"sequence " + sequence[1]) for line in said.splitlines()) != 3:
            return f"check says then: {said.decode()}"
        return None


class Faults(Edited):
    """What is said of a call that fails."""

    needs = (needs.a_program, needs.strace)

    @rows(
        (
            "edit: what is said of a write that fails",
            ("pwrite64", "ENOSPC", 18),
            "1 ok 8\n",
            f"image 1 (edited/b.img): write of sectors 6161+1: {FULL_DEVICE}\n{EDIT_AGAIN}",
        ),
        (
            "edit: what is said of a sync that fails",
            ("fsync", "EIO", 3),
            "",
            f"image 2 (edited/c.img): sync: {FAILED}\n{UNWRITTEN}",
        ),
    )
    def edit_fails(self, fault, said, told):
        """The image, the sectors and the reason are told, and how far the edit has come."""
        ending, _ = tracing.fails(self.ldm("edit", *EDITED), self.room, *fault, stdin=SCRIPT)
        self.is_ending(ending, 3, said, f"ldm: disk fault: {told}")

    @case("show: what is said of a read that fails")
    def show_fails(self):
        """The image, the sectors and the reason are told."""
        of_a = tracing.with_path(self.room / "edited/a.img")
        ending, _ = tracing.fails(self.ldm("show", *EDITED), self.room, "pread64", "EIO", 1, *of_a)
        told = f"ldm: disk fault: image 0 (edited/a.img): read of sectors 0+1: {FAILED}\n"
        self.is_ending(ending, 3, "", told)

    def init_fails(self, call, told, *options):
        """A new group fails at the first of these calls, and this is told."""
        rooms.empty(self.room)
        (self.room / "fresh").mkdir()
        images = ["fresh/1.img", "fresh/2.img"]
        for path in images:
            rooms.make_sparse(self.room / path, rooms.SIZE)
        ending, _ = tracing.fails(self.ldm(INIT, *images), self.room, call, "EIO", 1, *options)
        self.is_ending(ending, 3, "", f"ldm: disk fault: image 0 (fresh/1.img): {told}")

    @case("init: what is said of a read that fails")
    def init_read(self):
        """Nothing is written before all disks were read."""
        of_first = tracing.with_path(self.room / "fresh/1.img")
        self.init_fails("pread64", f"read of sectors 0+63: {FAILED}\n{UNWRITTEN}", *of_first)

    @case("init: what is said of a write that fails")
    def init_write(self):
        """A new group may be there in part."""
        self.init_fails("pwrite64", f"write of sectors 0+1: {FAILED}\n{INIT_AGAIN}")
