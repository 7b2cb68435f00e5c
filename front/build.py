"""Which build of the program is run: the proved one where it is fresh, or else a checked one that is kept.

A *proved* build is the executable that `rt` leaves behind a proof of all crates. Beside it stands a record: the
checksum of the sources that were proved, and that of the executable. A *checked* build is made of the same
sources without their proofs, and tests itself as it runs. It is kept under a name that holds the checksum of the
sources. So no build of other sources is ever taken for a fresh one.
"""
import hashlib
import os
from typing import NamedTuple

from front import places, sources
from front.telling import tell

RECORD = os.path.join(places.OUT, "pochvean.record")
# As many hexadecimal digits of a checksum as stand in the name of a kept build.
DIGITS = 24
NOT_PROVED = "this build isn't the proved one: './pochvean --prove' makes that"


class Build(NamedTuple):
    """An executable of the program, and whether it was proved."""

    path: str
    is_proved: bool


class NoBuild(Exception):
    """There is no build, and none could be made; the text says why and what to do."""


def sum_now():
    """The checksum of the sources as they stand."""
    return sources.checksum(folder=places.cache_folder())


def sum_of_file(path):
    """The checksum of a file, or None where it can't be read."""
    try:
        with open(path, "rb") as file:
            return hashlib.sha256(file.read()).hexdigest()
    except OSError:
        return None


def record_proved(of_sources):
    """Notes that the proved executable was made of the sources with this checksum."""
    sources.write_whole(RECORD, f"{of_sources} {sum_of_file(places.PROVED)}\n".encode())


def is_proved_build_fresh(of_sources):
    """Whether the proved executable is there as it was recorded, and made of these sources."""
    before = sources.read_words(RECORD)
    if len(before) != 2 or before[0] != of_sources or not os.access(places.PROVED, os.X_OK):
        return False
    return before[1] == sum_of_file(places.PROVED)


def checked_name(of_sources):
    """The name of the checked build of the sources with this checksum."""
    return f"checked-{of_sources[:DIGITS]}"


def find(of_sources=None):
    """The build to run, or None where there is none that is fresh."""
    of_sources = of_sources or sum_now()
    if is_proved_build_fresh(of_sources):
        return Build(places.PROVED, True)
    for folder in (places.cache_folder(), places.OUT):
        path = folder and os.path.join(folder, checked_name(of_sources))
        if path and os.path.isfile(path) and os.access(path, os.X_OK):
            return Build(path, False)
    return None


def ready(is_quiet=False):
    """The build to run, which is made where there is none. Raises NoBuild where that can't be done."""
    of_sources = sum_now()
    found = find(of_sources)
    if found is None:
        from front import checked

        found = checked.make(of_sources)
    if not found.is_proved and not is_quiet:
        tell(NOT_PROVED)
    return found
