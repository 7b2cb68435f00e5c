"""A timeline as comma-separated values: one table, with a line for each block and one for each message.

The first column says which a line is. A column that says nothing of it is empty.
"""
import csv

COLUMNS = [
    "kind", "row", "send", "chare", "stmt", "proc", "depth", "cost", "ready", "start", "end", "after", "mail",
    "to_chare", "to_proc", "entry", "ref", "bytes", "offset", "left", "came", "taken_by",
]  # fmt: skip


def write(run, out):
    """Writes the table, with lines that end as RFC 4180 says."""
    lines = csv.writer(out)
    lines.writerow(COLUMNS)
    lines.writerows(_blocks(run))
    lines.writerows(_messages(run))


def _blocks(run):
    report, trace, log = run.report, run.trace, run.log
    rest = [None] * (len(COLUMNS) - 13)
    for block in range(len(report.starts)):
        after = " ".join(map(str, log.afters[block]))
        mail = " ".join(f"{row}#{send}" for row, send in log.mails[block])
        who = [block + 1, None, report.chares[block], report.stmts[block], report.procs[block]]
        when = [trace.readies[block], report.starts[block], report.ends[block]]
        yield ["block", *who, log.depths[block], log.costs[block], *when, after, mail, *rest]


def _messages(run):
    report, trace, log = run.report, run.trace, run.log
    homes = dict(zip(report.chares, report.procs))
    takers = log.takers()
    for place, row in enumerate(log.senders):
        block = row - 1
        send = place - log.firsts[block] + 1
        who = [row, send, report.chares[block], report.stmts[block], report.procs[block]]
        target = log.targets[place]
        what = [target, homes.get(target), log.entries[place], log.references[place], log.sizes[place]]
        when = [log.offsets[place], trace.lefts[place], trace.cames[place]]
        yield ["message", *who, *[None] * 7, *what, *when, " ".join(map(str, takers[place]))]
