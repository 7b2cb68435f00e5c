"""What a run of the program answers."""
from typing import NamedTuple


class Answer(NamedTuple):
    """The exit code (below 0 for a signal), and what was written to the two streams, as far as that was kept."""

    code: int
    out: bytes
    err: bytes
