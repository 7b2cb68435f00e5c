"""A checksum of all sources that a build is made from.

A build counts as fresh where its checksum is that of the sources as they stand. File times don't decide.
"""
import hashlib
import os
import tempfile
import time

from front import places

PARTS = ("src", "specs", "proofs")
SUFFIXES = (".rt", ".antt")
TOPS = ("HANDLES", "crates.txt")
# How long the times of a file must lie back before they are taken for an answer: a second change within the
# clock of the file system could leave them as they are.
SETTLED_NS = 3_000_000_000


def source_files(root=places.ROOT):
    """The paths of all sources below the root, in order."""
    found = [name for name in TOPS if os.path.isfile(os.path.join(root, name))]
    crates = os.path.join(root, "crates")
    names = os.listdir(crates) if os.path.isdir(crates) else []
    waiting = [f"crates/{name}/{part}" for name in names for part in PARTS]
    while waiting:
        at = waiting.pop()
        try:
            entries = list(os.scandir(os.path.join(root, at)))
        except (FileNotFoundError, NotADirectoryError):
            continue
        for entry in entries:
            if entry.is_dir(follow_symlinks=False):
                waiting.append(f"{at}/{entry.name}")
            elif entry.name.endswith(SUFFIXES):
                found.append(f"{at}/{entry.name}")
    return sorted(found)


def sum_of_texts(root, files):
    """The checksum of the names and the contents of the files, in hexadecimal."""
    whole = hashlib.sha256()
    for name in files:
        with open(os.path.join(root, name), "rb") as file:
            text = file.read()
        whole.update(f"{len(name)} {name} {len(text)} ".encode("utf-8", "surrogateescape"))
        whole.update(text)
    return whole.hexdigest()


def sum_of_marks(root, files):
    """A checksum of what tells that a file was touched, and the time of the last touch.

    A file that is written to has another time of change, which no user can set back.
    """
    whole, latest = hashlib.sha256(), 0
    for name in files:
        found = os.stat(os.path.join(root, name))
        latest = max(latest, found.st_mtime_ns, found.st_ctime_ns)
        mark = (name, found.st_dev, found.st_ino, found.st_size, found.st_mtime_ns, found.st_ctime_ns)
        whole.update(repr(mark).encode("utf-8", "surrogateescape"))
    return whole.hexdigest(), latest


def checksum(root=places.ROOT, folder=None):
    """The checksum of the sources. What was found for untouched files before is taken from the folder."""
    files = source_files(root)
    if folder is None:
        return sum_of_texts(root, files)
    marks, latest = sum_of_marks(root, files)
    kept = os.path.join(folder, "sum-" + hashlib.sha256(os.fsencode(os.path.realpath(root))).hexdigest()[:16])
    before = read_words(kept)
    if len(before) == 2 and before[0] == marks:
        return before[1]
    found = sum_of_texts(root, files)
    is_settled = time.time_ns() - latest > SETTLED_NS
    if is_settled and sum_of_marks(root, files)[0] == marks:
        write_whole(kept, f"{marks} {found}\n".encode())
    return found


def read_words(path):
    """The words of a small file, or none where it can't be read."""
    try:
        with open(path, encoding="ascii") as file:
            return file.read().split()
    except (OSError, ValueError):
        return []


def write_whole(path, text):
    """Writes a small file beside its place and renames it, so that nobody reads half of it. It may fail in silence."""
    beside = None
    try:
        handle, beside = tempfile.mkstemp(prefix=".new-", dir=os.path.dirname(path))
        with os.fdopen(handle, "wb") as file:
            file.write(text)
        os.replace(beside, path)
    except OSError:
        if beside and os.path.exists(beside):
            os.unlink(beside)
