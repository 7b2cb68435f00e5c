"""Bars for many blocks: one path for all bars of a colour, so that a browser can still open the picture."""
from collections import defaultdict

from front.show.colours import PALETTE
from front.show.grid import busy_grid, level

_LEVELS = 4


def joined_bars(picture, cells):
    """Blocks at least as wide as a cell as they are; the others joined to cells, with the colour of the widest one."""
    report, span = picture.report, picture.report.span
    bars, cell_busy = defaultdict(list), [{} for _ in picture.names]
    cell_best = [{} for _ in picture.names]
    for proc, start, end, place in zip(report.procs, report.starts, report.ends, picture.keys.places()):
        lane = picture.lane_of[proc]
        if (end - start) * cells >= span:
            bars[place, _LEVELS].append((lane, start * cells / span, end * cells / span))
        else:
            for cell, inside in _cells(start * cells, end * cells, span):
                cell_busy[lane][cell] = cell_busy[lane].get(cell, 0) + inside
                cell_best[lane][cell] = max(cell_best[lane].get(cell, (0, 0)), (inside, place))
    for lane, busy in enumerate(cell_busy):
        shades = {cell: (cell_best[lane][cell][1], level(inside, span, _LEVELS)) for cell, inside in busy.items()}
        for key, first, last in _runs(shades):
            bars[key].append((lane, first, last))
    for (place, shade), list_of_bars in sorted(bars.items()):
        opacity = "" if shade == _LEVELS else f' fill-opacity="{0.25 + 0.65 * shade / _LEVELS:.2f}"'
        yield f'<path fill="{PALETTE[place]}"{opacity} d="{_path(picture, cells, list_of_bars)}"/>'


def shaded_bars(picture, cells, shades):
    """For groups of processors: cells with shades of the mean time that is busy."""
    grid = busy_grid(picture.report, picture.groups, cells)
    bars = defaultdict(list)
    for line in range(len(picture.groups)):
        whole = picture.report.span * len(picture.groups.members(line))
        levels = {cell: level(busy, whole, len(shades)) for cell, busy in enumerate(grid.line(line)) if busy}
        for shade, first, last in _runs(levels):
            bars[shade].append((line, first, last))
    for shade, list_of_bars in sorted(bars.items()):
        yield f'<path fill="{shades[shade - 1]}" d="{_path(picture, cells, list_of_bars)}"/>'


def _cells(start, end, span):
    """The cells that a block narrower than a cell touches, one or two, and how much of it is in each."""
    first, last = start // span, (end - 1) // span
    if first == last:
        return [(first, end - start)]
    return [(first, last * span - start), (last, end - last * span)]


def _runs(shades):
    """Neighbouring cells of one shade, each as (shade, first cell, the cell behind the last)."""
    runs = []
    for cell in sorted(shades):
        if runs and runs[-1][2] == cell and runs[-1][0] == shades[cell]:
            runs[-1][2] = cell + 1
        else:
            runs.append([shades[cell], cell, cell + 1])
    return runs


def _path(picture, cells, bars):
    """A path with a rectangle for each bar, whose ends are in cells."""
    inset = (picture.pitch - picture.bar) / 2
    pieces = []
    for line, first, last in bars:
        left = round(picture.left + first * picture.plot / cells, 1)
        width = round(picture.left + last * picture.plot / cells - left, 1)
        pieces.append(f"M{left:g} {picture.y(line) + inset:g}h{width:g}v{picture.bar}h-{width:g}z")
    return "".join(pieces)
