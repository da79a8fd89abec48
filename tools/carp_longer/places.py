"""The certificate that a run works on, its lock, and the new certificates beside it."""
import contextlib
import fcntl
import os
import re
import shutil
import stat
from collections.abc import Iterator

from carp_run import Refusal

# `carp` writes a file as NAME.0.new first; the longest name that this leaves room for, with a process and a job in it.
LONGEST_NAME = 200


def refused(path: str, error: OSError) -> Refusal:
    """Returns the refusal for a file that cannot be written."""
    return Refusal(f"{path} cannot be written: {error.strerror}", 7)


def trial(target: str, job: int) -> str:
    """Returns the name of the new certificate of a job of this process."""
    return f"{target}.{os.getpid()}-{job}.longer"


def remove_trials(target: str) -> None:
    """Removes the new certificates that runs left which are dead; whoever holds the lock may call this."""
    folder, name = os.path.split(target)
    left = re.compile(re.escape(name) + r"\.\d+-\d+\.longer(\.\d+\.new)?")
    for other in filter(left.fullmatch, os.listdir(folder)):
        path = os.path.join(folder, other)
        if os.path.isfile(path) and not os.path.islink(path):
            with contextlib.suppress(OSError):
                os.remove(path)


def take(new: str, target: str) -> None:
    """Lets a new certificate take the place of the old one, with the permissions of the old one."""
    try:
        if os.path.exists(target):
            shutil.copymode(target, new)
        os.replace(new, target)
    except OSError as error:
        raise refused(target, error) from error


def is_at(path: str, file: int) -> bool:
    """Tells if an open file is the one at a path."""
    with contextlib.suppress(FileNotFoundError):
        return os.path.samestat(os.fstat(file), os.lstat(path))
    return False


def opened(path: str) -> int:
    """Opens a lock file, which is empty; a file that is none is left alone."""
    try:
        file = os.open(path, os.O_RDWR | os.O_CREAT | os.O_NOFOLLOW | os.O_NONBLOCK, 0o666)
    except OSError as error:
        raise refused(path, error) from error
    found = os.fstat(file)
    if stat.S_ISREG(found.st_mode) and not found.st_size:
        return file
    os.close(file)
    raise Refusal(f"{path} is there and is no lock of tools/longer", 7)


def held_lock(path: str) -> int:
    """Returns the open lock file, held; a run that ended meanwhile may have removed the one that was opened."""
    while True:
        file = opened(path)
        try:
            fcntl.flock(file, fcntl.LOCK_EX | fcntl.LOCK_NB)
        except OSError as error:
            os.close(file)
            raise Refusal(f"another run of tools/longer holds {path}", 7) from error
        if is_at(path, file):
            return file
        os.close(file)


@contextlib.contextmanager
def locked(certificate: str) -> Iterator[str]:
    """Holds the lock of a certificate, and gives the path that is written; nothing is left beside it at the end."""
    target = os.path.realpath(certificate)
    if len(os.fsencode(os.path.basename(target))) > LONGEST_NAME:
        raise Refusal(f"{certificate} cannot be written: its name has more than {LONGEST_NAME} bytes", 7)
    if os.path.exists(target) and not (os.stat(target).st_mode & 0o222 and os.access(target, os.W_OK)):
        raise Refusal(f"{certificate} cannot be written: it is locked by its permissions", 7)
    path = f"{target}.lock"
    file = held_lock(path)
    try:
        remove_trials(target)
        yield target
    finally:
        remove_trials(target)
        if is_at(path, file):
            os.remove(path)
        os.close(file)
