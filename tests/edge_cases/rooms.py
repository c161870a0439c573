"""Folders for cases, and the images in them."""
import contextlib
import os
import pathlib
import shutil
import stat

SECTOR = 512
GROUP = ("a.img", "b.img", "c.img")
SIZE = 8192 * SECTOR


def group(folder, names="abc"):
    """The paths of images of the group in a folder, by their letters."""
    return [f"{folder}/{name}.img" for name in names]


def copy_group(source, folder):
    """Puts the images of a group into a folder, over those that are there."""
    folder = pathlib.Path(folder)
    folder.mkdir(exist_ok=True)
    for name in GROUP:
        copy_one(source, folder, name)


def copy_one(source, folder, name):
    """Puts one of these images into a folder, over the one that is there."""
    shutil.copyfile(os.path.join(source, name), os.path.join(folder, name))


def bytes_of(folder):
    """The bytes of the images of the group in a folder."""
    return [pathlib.Path(folder, name).read_bytes() for name in GROUP]


def put_in(path, place, data):
    """Writes bytes into a file at a place."""
    with open(path, "r+b") as file:
        file.seek(place)
        file.write(data)


def cut_out(path, first, count):
    """So many sectors of an image, from one on."""
    with open(path, "rb") as file:
        file.seek(first * SECTOR)
        return file.read(count * SECTOR)


def make_sparse(path, size):
    """A file of zeros that takes no room."""
    with open(path, "ab") as file:
        file.truncate(size)


def lay_images(first, room):
    """Puts files into a folder that may be passed as images: some hold one, and others none."""
    room, image = pathlib.Path(room), pathlib.Path(first, "a.img").read_bytes()
    (room / "of disk").mkdir()
    (room / "folder").mkdir()
    for name in ("a.img", "large.img", "secret.img", "readonly.img", "of disk/a.img"):
        (room / name).write_bytes(image)
    make_sparse(room / "large.img", 5 << 30)
    (room / "secret.img").chmod(0)
    (room / "readonly.img").chmod(0o444)
    (room / "odd.img").write_bytes(image + b"more")
    (room / "empty.img").write_bytes(b"")
    (room / "short.img").write_bytes(image[:511])
    os.mkfifo(room / "pipe")
    os.mknod(room / "socket", stat.S_IFSOCK | 0o600)
    (room / "link.img").symlink_to("a.img")
    (room / "link2.img").symlink_to("link.img")
    (room / "dangling.img").symlink_to("missing.img")
    (room / "pipe.img").symlink_to("pipe")


def empty(room):
    """Removes all that is in a folder."""
    remove(room)
    os.mkdir(room)


def remove(room):
    """Removes a folder and all that is in it, folders that may not be written among them."""
    for path, _, _ in os.walk(room):
        with contextlib.suppress(OSError):
            os.chmod(path, 0o700)
    shutil.rmtree(room)
