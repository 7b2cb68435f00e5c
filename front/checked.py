"""Making a checked build: the sources built without their proofs, once, and kept.

`rt try` builds such an executable and runs it, and keeps nothing. What is relied on here: while it runs, the
executable lies as a file whose name begins with `program` somewhere below the folder that `TMPDIR` names, also while
it is linked. It is held open as soon as it is seen, and copied when `rt try` has ended well. A copy is kept only where
it then answers as the crate's own files say that it must. Where any of this isn't so, the words are run by `rt try`
itself (`tried.py`).
"""
import contextlib
import fcntl
import os
import shutil
import signal
import subprocess
import tempfile
import time

from front import build, places
from front.build import Build, NoBuild
from front.telling import Progress, tell

PROGRAM = "program"
# How often the folder is looked at, in seconds. The executable may lie there for a twentieth of a second.
LOOK = 0.01
# How many checked builds of other sources stay.
MOST_KEPT = 4
NO_RT = (
    "there is no build of the program, and no 'rt' to make one: install the Rattle toolchain, and put its 'rt' on the "
    "PATH"
)


def tool():
    """The command `rt`. Raises NoBuild where there is none."""
    found = shutil.which("rt")
    if found is None:
        raise NoBuild(NO_RT)
    return found


def own_words():
    """The words that the crate's own run is given."""
    with open(os.path.join(places.CRATE, "args"), encoding="utf-8") as file:
        return file.read().splitlines()


def own_data():
    """The folder of the files that lie where the crate's own run takes place."""
    return os.path.join(places.CRATE, "data")


def make(of_sources) -> Build:
    """Makes a checked build of the sources and keeps it. Two calls at once make it once.

    The path of the build is None where it couldn't be kept. Raises NoBuild where it couldn't be made.
    """
    folder = places.cache_folder() or places.out_folder()
    if folder is None:
        tool()
        tell("a build can't be kept: neither the cache folder nor crates/bs_program/out can be written to")
        return Build(None, False)
    with turn(folder):
        found = build.find(of_sources)
        if found is not None:
            return found
        path = os.path.join(folder, build.checked_name(of_sources))
        return Build(path if build_to(path) else None, False)


@contextlib.contextmanager
def turn(folder):
    """Waits while another call builds. Where the folder has no locks there is no waiting."""
    try:
        lock = open(os.path.join(folder, "lock"), "w", encoding="ascii")
    except OSError:
        lock = None
    with lock or contextlib.nullcontext():
        if lock is not None:
            wait_for(lock)
        yield


def wait_for(lock):
    """Takes a lock as soon as nobody else has it."""
    progress = None
    while True:
        try:
            fcntl.flock(lock, fcntl.LOCK_EX | fcntl.LOCK_NB)
            break
        except BlockingIOError:
            if progress is None:
                tell("another call is building the program; waiting for it")
                progress = Progress("waiting for the build of another call")
            progress.step()
            time.sleep(0.2)
        except OSError:
            break
    if progress is not None:
        progress.end()


def build_to(path):
    """Builds the program and keeps it under this path. Returns whether it could be kept."""
    tell("there is no build of these sources yet. One without proofs is made once, in one to three minutes")
    room = tempfile.mkdtemp(prefix="pochvean-")
    held = []
    try:
        held = caught(room)
        for file in reversed(held):
            if keep(file, path):
                sweep(path)
                return True
        tell("the build couldn't be kept, so each call builds anew")
        return False
    finally:
        for file in held:
            file.close()
        shutil.rmtree(room, ignore_errors=True)


def caught(room):
    """Has `rt try` build the program and run it in this folder, and returns the executables that were seen, open."""
    words = [tool(), "try"]
    if os.path.isdir(own_data()):
        for name in sorted(os.listdir(own_data())):
            words += ["--data", f"{name}={os.path.join(own_data(), name)}"]
    words += ["--", *own_words()]
    said = os.path.join(room, "said")
    seen, progress = {}, Progress("building")
    with open(said, "wb") as file:
        how = {"cwd": places.CRATE, "stdin": subprocess.DEVNULL, "stdout": file, "stderr": file}
        process = subprocess.Popen(words, env={**os.environ, "TMPDIR": room}, start_new_session=True, **how)
    try:
        while process.poll() is None:
            hold(room, seen)
            progress.step()
            time.sleep(LOOK)
    finally:
        end(process)
        progress.end()
    if process.returncode != 0:
        for file in seen.values():
            file.close()
        status = process.returncode
        raise NoBuild(f"the program couldn't be built: 'rt try' ended with status {status}\n{tail_of(said)}")
    return list(seen.values())


def hold(room, seen):
    """Opens each executable that lies below the folder and isn't held yet."""
    for at, _, names in os.walk(room):
        for path in (os.path.join(at, name) for name in names if name.startswith(PROGRAM)):
            try:
                found = os.stat(path)
                mark = (found.st_dev, found.st_ino)
                if found.st_mode & 0o100 and mark not in seen:
                    seen[mark] = open(path, "rb")
            except OSError:
                # (removed meanwhile)
                continue


def end(process):
    """Ends `rt` where it still runs. It removes its own files and ends what it started."""
    if process.poll() is None:
        process.terminate()
        try:
            process.wait(10)
        except subprocess.TimeoutExpired:
            with contextlib.suppress(OSError):
                os.killpg(process.pid, signal.SIGKILL)
            process.wait()


def tail_of(path, lines=20):
    """The last lines of a file."""
    with open(path, "rb") as file:
        return "\n".join(file.read().decode("utf-8", "replace").splitlines()[-lines:])


def keep(file, path):
    """Copies an executable beside the path, tries it, and renames it to the path. Returns whether all went well."""
    beside = None
    try:
        handle, beside = tempfile.mkstemp(prefix=".new-", dir=os.path.dirname(path))
        with os.fdopen(handle, "wb") as copy:
            file.seek(0)
            shutil.copyfileobj(file, copy, 1 << 20)
            copy.flush()
            os.fchmod(copy.fileno(), 0o700)
            os.fsync(copy.fileno())
        if not answers_well(beside):
            return False
        os.replace(beside, path)
        beside = None
        return True
    except OSError as error:
        tell(f"the build can't be written to {os.path.dirname(path)}: {error.strerror}")
        return False
    finally:
        if beside is not None:
            with contextlib.suppress(OSError):
                os.unlink(beside)


def answers_well(path):
    """Whether an executable answers the crate's own words as the crate's own files say."""
    try:
        with open(os.path.join(places.CRATE, "stdout"), "rb") as file:
            wanted = file.read()
        how = {"stdin": subprocess.DEVNULL, "stdout": subprocess.PIPE, "stderr": subprocess.PIPE, "timeout": 60}
        ran = subprocess.run([path, *own_words()], cwd=own_data(), **how)
    except (OSError, subprocess.TimeoutExpired):
        return False
    return ran.returncode == 0 and ran.stdout == wanted and not ran.stderr


def sweep(path):
    """Removes the oldest checked builds of other sources, and what calls that were killed left beside them."""
    folder = os.path.dirname(path)
    old = time.time() - 86_400
    found = []
    with contextlib.suppress(OSError):
        for entry in os.scandir(folder):
            with contextlib.suppress(OSError):
                when = entry.stat().st_mtime
                if entry.name.startswith("checked-") and entry.path != path:
                    found.append((when, entry.path))
                elif entry.name.startswith(".new-") and when < old:
                    os.unlink(entry.path)
    for _, other in sorted(found)[:-MOST_KEPT]:
        with contextlib.suppress(OSError):
            os.unlink(other)
