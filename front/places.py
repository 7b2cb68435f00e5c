"""Where things lie: the checkout, the crate of the program, and the folders in which builds are kept."""
import os
import stat

ROOT = os.path.dirname(os.path.dirname(os.path.abspath(__file__)))
CRATE = os.path.join(ROOT, "crates", "bs_program")
OUT = os.path.join(CRATE, "out")
# The proved executable, where `rt` puts it.
PROVED = os.path.join(OUT, "bs_program")


def cache_folder():
    """The user's cache folder for builds, made if need be, or None where there is none to be trusted.

    It holds files that are executed. So it has to belong to the user, and nobody else may write to it.
    """
    base = os.environ.get("XDG_CACHE_HOME", "")
    if not os.path.isabs(base):
        home = os.environ.get("HOME", "")
        base = os.path.join(home, ".cache") if os.path.isabs(home) else None
    if base is None:
        return None
    return own_folder(os.path.join(base, "pochvean"))


def own_folder(path):
    """The folder, made if need be, where it is the user's own and can be written to; or else None."""
    try:
        os.makedirs(path, mode=0o700, exist_ok=True)
        found = os.stat(path)
    except OSError:
        return None
    is_own = stat.S_ISDIR(found.st_mode) and found.st_uid == os.geteuid() and not found.st_mode & 0o022
    return path if is_own and os.access(path, os.W_OK | os.X_OK) else None


def out_folder():
    """The folder `out` of the program's crate, made if need be, or None where it can't be written to."""
    try:
        os.makedirs(OUT, exist_ok=True)
    except OSError:
        return None
    return OUT if os.access(OUT, os.W_OK | os.X_OK) else None
