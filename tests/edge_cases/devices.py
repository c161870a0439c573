"""Block devices as images, those that are used or not to be written too, and a root without any."""
import os
import re
import shutil
import subprocess

from . import needs, rooms, system
from .edits import EDITED, Edited, checked
from .harness import NO_OUTPUT, Case, case, rows
from .images import LABEL, not_disk
from .running import CLOSED

STREAM = "a standard stream is closed, and the image would take its place"
READ_ONLY = "read-only"
MOUNTED = "it or a partition of it is mounted"
SWAPPED = "it or a partition of it is used as swap"
STANDS = "another device stands on it or on a partition of it, as of md or dm"


class Devices(Case):
    """Jobs that read, on loop devices over two images of one disk, and over an empty file."""

    needs = (needs.a_program, needs.root)

    @classmethod
    def furnish(cls):
        (cls.room / "folder").mkdir()

    def prepare(self):
        for name in ("a.img", "b.img"):
            shutil.copyfile(self.first / "a.img", self.room / name)
        (self.room / "empty.img").write_bytes(b"")
        self.one, self.other, self.empty = (
            system.loop(self, str(self.room / name)) for name in ("a.img", "b.img", "empty.img")
        )

    def label(self):
        """The label is that of the image."""
        self.ends(self.ldm("disk on", self.one), 0, LABEL)

    def through_a_link(self):
        """A link to a device is followed."""
        link = self.room / "device.img"
        link.unlink(missing_ok=True)
        link.symlink_to(self.one)
        self.ends(self.ldm("disk on device.img"), 0, LABEL)

    def beside_a_folder(self):
        """What is no image is told, beside a device."""
        command = self.ldm("check on", self.one, "folder")
        self.unopened(command, 1, "folder", not_disk("a directory"))

    def without_output(self):
        """Nothing is said into a device."""
        self.unsaid(self.ldm("disk on", self.one), NO_OUTPUT, stdout=CLOSED)

    def of_one_disk(self):
        """Two devices that hold one disk are no group."""
        command = self.ldm("show on", self.one, self.other)
        self.ends(command, 1, "refused: images 0 and 1 are one disk\n")

    jobs = (
        ("a block device", label),
        ("a block device through a link", through_a_link),
        ("a block device and a directory", beside_a_folder),
        ("a block device, and standard output is closed", without_output),
        ("two block devices", of_one_disk),
    )

    @rows(*jobs)
    def reads(self, job):
        """A job that reads ends as on files."""
        job(self)

    @case("the images behind the block devices")
    def images_behind(self):
        """No job that reads changes a byte of a device."""
        for _, job in self.jobs:
            job(self)
        self.is_image("a.img")
        self.is_image("b.img")

    @case("an empty block device")
    def empty_device(self):
        """A device of no bytes is refused as a file is."""
        self.ends(self.ldm("disk on", self.empty), 1, "refused: image 0: too short\n")


class NoNullDevice(Case):
    """The program in a root of its own, with the libraries that it loads and no device."""

    needs = (needs.a_program, needs.root)
    command = ("chroot", "jail", "/ldm", "disk", "on", "a.img")

    @classmethod
    def furnish(cls):
        jail = cls.room / "jail"
        jail.mkdir()
        shutil.copy(cls.program, jail / "ldm")
        shutil.copy(cls.first / "a.img", jail)
        listed = subprocess.run(["ldd", cls.program], capture_output=True, text=True, check=False)
        for library in re.findall(r"/[^ \n]*", listed.stdout):
            copy = jail / library.lstrip("/")
            copy.parent.mkdir(parents=True, exist_ok=True)
            shutil.copy(library, copy)

    def prepare(self):
        if self.ran(self.command).status != 0:
            self.skipTest("it needs a folder in which the program runs")

    @case("no null device: no stream is closed")
    def none_closed(self):
        """No null device is needed then."""
        self.ends(self.command, 0, LABEL)

    @rows(
        ("no null device: standard input is closed", "stdin"),
        ("no null device: standard output is closed", "stdout"),
    )
    def one_closed(self, stream):
        """An image would get the descriptor of the stream, so none is opened."""
        self.unopened(self.command, 0, "a.img", STREAM, **{stream: CLOSED})

    @case("no null device: the image after these")
    def image_after(self):
        """Nothing is said into the image."""
        for streams in ({}, {"stdin": CLOSED}, {"stdout": CLOSED}):
            self.ran(self.command, **streams)
        self.is_image("jail/a.img")


class EditedDevices(Edited):
    """Edits of loop devices over the images of a group."""

    needs = (needs.a_program, needs.root)

    def prepare(self):
        super().prepare()
        self.devices = [system.loop(self, str(self.room / path)) for path in rooms.group("edited")]

    def edit_devices(self):
        """Deletes a volume on the devices."""
        self.ends(self.ldm("delete Volume1 on", *self.devices), 0, "1 ok 8\n")

    @case("edit: block devices")
    def devices_edited(self):
        """An edit of devices ends as one of files."""
        self.edit_devices()

    @case("edit: files with loop devices over them that nothing uses")
    def files_below(self):
        """A loop device alone is no use of a file."""
        self.edit_devices()
        self.is_ending(self.edit(b""), 0)

    @case("edit: the images behind them")
    def images_behind(self):
        """The files are the group that was edited."""
        self.edit_devices()
        self.is_ending(self.edit(b""), 0)
        self.ends(self.ldm("check", *EDITED), 0, checked(8))


class DevicesForReading(EditedDevices):
    """A loop device for reading alone, beside two that may be written."""

    def prepare(self):
        super().prepare()
        shutil.copyfile(self.first / "a.img", self.room / "barred.img")
        self.barred = system.loop(self, str(self.room / "barred.img"), "-r")

    def edit_barred(self):
        """An edit that can't write one of its devices."""
        command = self.ldm("delete Stripe1 on", *self.devices[1:], self.barred)
        self.unopened(command, 2, self.barred, READ_ONLY)

    @case("edit: a block device for reading alone")
    def barred_device(self):
        """It is told before an edit begins."""
        self.edit_barred()

    @case("a job that reads, on a block device for reading alone")
    def barred_is_read(self):
        """A job that reads needs no more."""
        self.ends(self.ldm("disk on", self.barred), 0, LABEL)

    @case("edit: the others were not written")
    def others(self):
        """The group is that of the edit before."""
        self.edit_devices()
        self.edit_barred()
        self.ends(self.ldm("check", *EDITED), 0, checked(8))


class DevicesBelow(EditedDevices):
    """A device that another stands on.

    The system tells it by a folder. Where neither md nor dm is to be had, one that tells of another
    device is put in its place, for the program alone.
    """

    in_place = 'mount --bind "$1" "$2" && shift 2 && exec "$@"'

    @classmethod
    def furnish(cls):
        (cls.room / "holders/dm-0").mkdir(parents=True)

    def prepare(self):
        super().prepare()
        self.below = system.folder_of_holders(self.devices[1])
        if not system.succeeds(*self.beside_holders(["true"])):
            self.skipTest("no folder of the system can be put in the place of another here")

    def beside_holders(self, command):
        """The words that run a command where the folder stands in that place."""
        holders = str(self.room / "holders")
        return ["unshare", "-m", "sh", "-c", self.in_place, "sh", holders, self.below, *command]

    @case("edit: a device that another stands on")
    def device_below(self):
        """The device below isn't written."""
        command = self.ldm("delete V on", *self.devices[:2])
        self.unopened(self.beside_holders(command), 1, self.devices[1], STANDS)

    @case("edit: a file, and a device stands on a loop device over it")
    def file_below(self):
        """Nor is the file below the device."""
        command = self.ldm("delete V on", *rooms.group("edited", "ab"))
        why = f"another device stands on a loop device over it ({self.devices[1]}), as of md or dm"
        self.unopened(self.beside_holders(command), 1, "edited/b.img", why)


class UsedDevices(Edited):
    """An edit that is passed a device, or the file below it, which the system uses."""

    needs = (needs.a_program, needs.root)

    @classmethod
    def furnish(cls):
        (cls.room / "mounted").mkdir()

    def prepare(self):
        super().prepare()
        self.device = None
        self.first_device = system.loop(self, str(self.room / "edited/a.img"))

    def file(self, name):
        """A new file of 4 MiB."""
        path = self.room / name
        path.unlink(missing_ok=True)
        rooms.make_sparse(path, rooms.SIZE)
        return str(path)

    def refuses_device(self, why):
        """The device is told, as the second image."""
        command = self.ldm("delete V on", self.first_device, self.device)
        self.unopened(command, 1, self.device, why)

    def refuses_file(self, name, use):
        """The file below it is told, with the device."""
        command = self.ldm("delete V on edited/a.img", name)
        self.unopened(command, 1, name, f"a loop device over it ({self.device}) is {use}")

    def mount(self, *options):
        """Mounts a loop device over files.img, with an option for each of the two or none."""
        path = self.file("files.img")
        if not system.succeeds("mkfs.ext2", "-q", path):
            self.skipTest("no mkfs.ext2")
        self.device = system.loop(self, path, *options[:1])
        system.mount(self, self.device, self.room / "mounted", *options[1:])

    @case("edit: a device that is mounted")
    def device_mounted(self):
        """What is mounted may be written to by others."""
        self.mount()
        self.refuses_device(MOUNTED)

    @case("edit: a file whose loop device is mounted")
    def file_mounted(self):
        """So may the file below it."""
        self.mount()
        self.refuses_file("files.img", "mounted")

    @case("edit: another name of such a file")
    def other_name_mounted(self):
        """A file goes by what it is, and not by its name."""
        self.mount()
        name = self.room / "same.img"
        name.unlink(missing_ok=True)
        os.link(self.room / "files.img", name)
        self.refuses_file("same.img", "mounted")

    @case("edit: a file whose loop device is mounted, and is for reading alone")
    def file_mounted_to_read(self):
        """Nobody writes to it by that device, so the edit goes on, and finds no disk of a group."""
        self.mount("-r", "-oro")
        command = self.ldm("delete V on files.img edited/a.img")
        self.ends(command, 1, "refused: image 0: no signature\n")

    def swap(self):
        """Has the system swap to a loop device over swap.img."""
        path = self.file("swap.img")
        if not system.succeeds("mkswap", "-q", path):
            self.skipTest("no mkswap")
        self.device = system.loop(self, path)
        system.swap(self, self.device)

    @case("edit: a device that is swapped to")
    def device_swapped(self):
        """The system writes to it."""
        self.swap()
        self.refuses_device(SWAPPED)

    @case("edit: a file whose loop device is swapped to")
    def file_swapped(self):
        """It writes to the file below it too."""
        self.swap()
        self.refuses_file("swap.img", "used as swap")

    @case("edit: a partition of a device is for reading alone")
    def partition_barred(self):
        """Each partition of a device has to be one that may be written."""
        self.device = system.loop(self, self.file("parts.img"), "-P")
        added = system.succeeds("addpart", self.device, "1", "2048", "4096")
        if not (added and system.succeeds("blockdev", "--setro", f"{self.device}p1")):
            self.skipTest("a loop device has no partitions here")
        self.refuses_device(READ_ONLY)
