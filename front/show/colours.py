"""Colours for chares or statements. Most colour-blind readers can tell them apart (from Okabe and Ito's set)."""

PALETTE = ["#0072b2", "#e69f00", "#009e73", "#cc79a7", "#56b4e9", "#d55e00", "#4d4d4d"]

TERMINAL = [25, 214, 36, 175, 74, 166, 245]
"""The nearest of a terminal's 256 colours."""

_DARK = {"#0072b2", "#009e73", "#d55e00", "#4d4d4d"}


def ink(colour):
    """The colour of a text that is read on this one."""
    return "#ffffff" if colour in _DARK else "#222222"


class Keys:
    """What the colours of blocks stand for: chares or statements. There are few colours, so they come round."""

    def __init__(self, report, by):
        self.by = by
        self.of_blocks = report.chares if by == "chare" else report.stmts
        self.shown = sorted(set(self.of_blocks))
        self._places = {key: place % len(PALETTE) for place, key in enumerate(self.shown)}

    def places(self):
        """The place in the palette of each block's colour."""
        return [self._places[key] for key in self.of_blocks]

    def comes_round(self):
        """Whether two keys have one colour."""
        return len(self.shown) > len(PALETTE)

    def legend(self):
        """The names of the colours in the order of the palette, where each stands for one key."""
        return [] if self.comes_round() else [f"{self.by} {key}" for key in self.shown]

    def note(self):
        """How colours are to be read where they come round."""
        return f"colours go by {self.by}, and come round after {len(PALETTE)}" if self.comes_round() else ""
