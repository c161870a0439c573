"""What is taken of the system, and given back at the end of a case, at the latest of the run."""
import contextlib
import os
import signal
import subprocess

STOPS = (signal.SIGINT, signal.SIGTERM, signal.SIGHUP)
_owed = []


@contextlib.contextmanager
def uninterrupted():
    """Holds off what would stop the run between taking a thing and noting how it is given back."""
    before = signal.pthread_sigmask(signal.SIG_BLOCK, STOPS)
    try:
        yield
    finally:
        signal.pthread_sigmask(signal.SIG_SETMASK, before)


def interrupt(number, _):
    """Ends the run where it stands, so that all is given back that it took."""
    raise KeyboardInterrupt(number)


def heed_stops():
    """Has each signal end the run that isn't ignored already."""
    for number in STOPS:
        if signal.getsignal(number) != signal.SIG_IGN:
            signal.signal(number, interrupt)


def ignore_stops():
    """Has no signal disturb how things are given back."""
    for number in STOPS:
        signal.signal(number, signal.SIG_IGN)


def take(words, undoing):
    """What a command says that takes a thing of the system, or None where it fails.

    `undoing` makes of what is said the words of a command, which is owed from then on.
    """
    with uninterrupted():
        try:
            taken = subprocess.run(words, capture_output=True, text=True, check=False)
        except OSError:
            return None
        if taken.returncode != 0:
            return None
        said = taken.stdout.strip()
        _owed.append(undoing(said))
    return said


def give_back(words):
    """Does what is owed, where it is owed still."""
    with uninterrupted():
        if words in _owed:
            _owed.remove(words)
            subprocess.run(words, capture_output=True, check=True)


def give_all_back():
    """Does all that is owed, the last first, and says what failed."""
    while _owed:
        try:
            give_back(_owed[-1])
        except (OSError, subprocess.CalledProcessError) as error:
            print(f"FAILED   {error}", flush=True)


def succeeds(*words):
    """Whether a command is there, and ends well."""
    try:
        ended = subprocess.run(words, capture_output=True, stdin=subprocess.DEVNULL, check=False)
    except OSError:
        return False
    return ended.returncode == 0


def detach(device):
    """The words that give a loop device back."""
    return ["losetup", "-d", device]


def loop(case, path, *options):
    """A loop device over a file until the case is over, which is skipped where there is none."""
    device = take(["losetup", "-f", "--show", *options, path], detach)
    if device is None:
        case.skipTest("no loop device is to be had")
    case.addCleanup(give_back, detach(device))
    return device


def mount(case, device, folder, *options):
    """Mounts a device until the case is over, which is skipped where that can't be."""
    words = ["umount", str(folder)]
    if take(["mount", *options, device, str(folder)], lambda _: words) is None:
        case.skipTest("it can not be mounted here")
    case.addCleanup(give_back, words)


def swap(case, device):
    """Swaps to a device until the case is over, which is skipped where that can't be."""
    words = ["swapoff", device]
    if take(["swapon", device], lambda _: words) is None:
        case.skipTest("no swap is to be had here")
    case.addCleanup(give_back, words)


def folder_of_holders(device):
    """The folder by which the system tells which devices stand on one."""
    number = os.stat(device).st_rdev
    return f"/sys/dev/block/{os.major(number)}:{os.minor(number)}/holders"
