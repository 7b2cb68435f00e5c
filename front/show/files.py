"""Files that are written whole or not at all."""
import io
import os
import stat
import tempfile
from contextlib import contextmanager


class CannotWrite(Exception):
    """A file or a stream could not be written; which, and why."""


@contextmanager
def written(name):
    """A stream for the text of a file, which takes the place of an older one when all of it is there.

    What isn't a plain file, such as a device, is written straight away.
    """
    try:
        target = os.path.realpath(name)
        if os.path.exists(target) and not os.path.isfile(target):
            with open(target, "w", encoding="utf-8", newline="") as out:
                yield out
        else:
            with _beside(target) as out:
                yield out
    except OSError as fault:
        raise CannotWrite(f"{name}: {fault.strerror or fault}") from fault


@contextmanager
def _beside(target):
    """A stream for a new file in the same folder, which is renamed at the end, and removed where that fails."""
    handle, path = tempfile.mkstemp(prefix=".pochvean-", dir=os.path.dirname(target))
    try:
        with io.open(handle, "w", encoding="utf-8", newline="") as out:
            yield out
        os.chmod(path, _mode(target))
        os.replace(path, target)
    except BaseException:
        os.unlink(path)
        raise


def _mode(target):
    """The permissions of the file that is replaced, or those of any new one."""
    try:
        return stat.S_IMODE(os.stat(target).st_mode)
    except FileNotFoundError:
        mask = os.umask(0)
        os.umask(mask)
        return 0o666 & ~mask
