"""Tables of the processors and of the statements of a run.

Times are in ticks. What is divided is rounded down.
"""
from front.show.grid import percent
from front.show.text import totals


class Sums:
    """What the blocks of a processor or of a statement come to."""

    def __init__(self):
        self.blocks = self.busy = self.gaps = self.waiting = 0
        self.messages = self.sizes = self.latency = self.greatest = 0

    def add_block(self, busy, gap, waiting):
        self.blocks += 1
        self.busy += busy
        self.gaps += gap
        self.waiting += waiting

    def add_message(self, size, latency):
        self.messages += 1
        self.sizes += size
        self.latency += latency
        self.greatest = max(self.greatest, latency)

    def messages_told(self):
        """The columns on messages that its blocks send."""
        mean = ratio(self.latency, self.messages) if self.messages else "-"
        return [self.messages, self.sizes, mean, self.greatest if self.messages else "-"]


def tables(run, title):
    """The lines of the summary."""
    report = run.report
    processors, stmts, shares = _summed(run)
    yield title
    yield totals(report)
    if not report.processors:
        return
    whole = _total(processors.values())
    imbalance = _imbalance([sums.busy for sums in processors.values()])
    yield f"imbalance {imbalance}, the greatest busy time of a processor by the mean"
    yield ""
    yield from _processor_table(report, processors, whole)
    yield ""
    yield from _stmt_table(stmts, shares, whole)


def _summed(run):
    """The sums of each processor and each statement, and the busy time of each statement on each processor."""
    report, trace, log = run.report, run.trace, run.log
    processors = {processor.number: Sums() for processor in report.processors}
    stmts = {stmt: Sums() for stmt in sorted(set(report.stmts))}
    shares = {stmt: {} for stmt in stmts}
    gaps = _gaps(report)
    for block, (proc, stmt) in enumerate(zip(report.procs, report.stmts)):
        busy = report.ends[block] - report.starts[block]
        waiting = report.starts[block] - trace.readies[block]
        for sums in (processors[proc], stmts[stmt]):
            sums.add_block(busy, gaps[block], waiting)
        shares[stmt][proc] = shares[stmt].get(proc, 0) + busy
    for place, row in enumerate(log.senders):
        latency = trace.cames[place] - trace.lefts[place]
        for sums in (processors[report.procs[row - 1]], stmts[report.stmts[row - 1]]):
            sums.add_message(log.sizes[place], latency)
    return processors, stmts, shares


def _gaps(report):
    """For each block how long its processor was idle right before it."""
    gaps, free = [0] * len(report.starts), {}
    for block in sorted(range(len(report.starts)), key=report.starts.__getitem__):
        proc = report.procs[block]
        gaps[block] = report.starts[block] - free.get(proc, 0)
        free[proc] = report.ends[block]
    return gaps


def _total(all_sums):
    whole = Sums()
    for sums in all_sums:
        for name, value in vars(sums).items():
            add = max if name == "greatest" else int.__add__
            setattr(whole, name, add(getattr(whole, name), value))
    return whole


def _processor_table(report, processors, whole):
    span = report.span
    head = ["proc", "blocks", "busy", "idle", "use %", "waiting", "sent", "bytes", "mean latency", "greatest"]
    lines = [
        [processor.number, sums.blocks, sums.busy, span - sums.busy, percent(processor.use), sums.waiting]
        + sums.messages_told()
        for processor, sums in zip(report.processors, processors.values())
    ]
    idle = span * len(processors) - whole.busy
    use = percent(report.mean_use())
    lines.append(["all", whole.blocks, whole.busy, idle, use, whole.waiting, *whole.messages_told()])
    return aligned(head, lines)


def _stmt_table(stmts, shares, whole):
    head = ["stmt", "blocks", "busy", "idle before", "waiting"]
    head += ["sent", "bytes", "mean latency", "greatest", "imbalance"]
    lines = [
        [stmt, sums.blocks, sums.busy, sums.gaps, sums.waiting, *sums.messages_told()]
        + [_imbalance(shares[stmt].values())]
        for stmt, sums in stmts.items()
    ]
    lines.append(["all", whole.blocks, whole.busy, whole.gaps, whole.waiting, *whole.messages_told(), ""])
    return aligned(head, lines)


def _imbalance(busy):
    """The greatest by the mean."""
    return ratio(max(busy) * len(busy), sum(busy))


def ratio(part, whole):
    """A quotient with two decimals."""
    return percent(100 * part // whole)


def aligned(head, lines):
    """The lines of a table, each column as wide as it needs, and flush right."""
    table = [[str(field) for field in line] for line in [head, *lines]]
    widths = [max(map(len, column)) for column in zip(*table)]
    for line in table:
        yield "  ".join(field.rjust(width) for field, width in zip(line, widths)).rstrip()
