"""A timeline as Trace Event JSON, which ui.perfetto.dev and chrome://tracing open.

A processor is a thread, a block a complete slice on it, and a message that a row names as its cause a flow from
the sender's slice to that row's. A tick is told as a microsecond.
"""
import json

_PROCESS = 100_000
"""Above the number of each thread: viewers take a thread of its process's number for the main one."""

_EXACT = 2**40
"""Below this a thousandth of a tick can be told in the numbers of a viewer."""


def write(run, title, out):
    """Writes the trace, an event a line, one after the other."""
    about = {"title": title, "unit": "1 tick is told as 1 microsecond", "span": run.report.span}
    out.write(f'{{"displayTimeUnit": "ns", "otherData": {_json(about)}, "traceEvents": [\n')
    comma = ""
    for event in _events(run, title):
        out.write(comma + event)
        comma = ",\n"
    out.write("\n]}\n")


def _events(run, title):
    yield _json({"ph": "M", "pid": _PROCESS, "name": "process_name", "args": {"name": title}})
    for processor in run.report.processors:
        number = processor.number
        head = {"ph": "M", "pid": _PROCESS, "tid": _thread(number)}
        yield _json({**head, "name": "thread_name", "args": {"name": f"proc {number}"}})
        yield _json({**head, "name": "thread_sort_index", "args": {"sort_index": number}})
    yield from _slices(run)
    yield from _flows(run)


def _thread(processor):
    """The number of a processor's thread: 0 is that of the idle one to viewers."""
    return processor + 1


def _slices(run):
    report, trace, log = run.report, run.trace, run.log
    for block, (proc, start) in enumerate(zip(report.procs, report.starts)):
        after = ",".join(map(str, log.afters[block]))
        mails = ",".join(_cause(run, *mail) for mail in log.mails[block])
        yield (
            f'{{"ph":"X","pid":{_PROCESS},"tid":{_thread(proc)},"ts":{start},"dur":{report.ends[block] - start},'
            f'"name":"chare {report.chares[block]} stmt {report.stmts[block]}","cat":"block","args":{{'
            f'"row":{block + 1},"chare":{report.chares[block]},"stmt":{report.stmts[block]},'
            f'"ready":{trace.readies[block]},"depth":{log.depths[block]},"cost":{log.costs[block]},'
            f'"after":[{after}],"mail":[{mails}]}}}}'
        )


def _cause(run, row, send):
    return f'"row {row} send {send} came {run.trace.cames[run.log.message(row, send)]}"'


def _flows(run):
    """Two events for each message and each row that names it. They lie inside the slices that they belong to."""
    report, trace, log = run.report, run.trace, run.log
    flow = 0
    for taker, mails in enumerate(log.mails):
        for row, send in mails:
            flow += 1
            place = log.message(row, send)
            left = _inside(trace.lefts[place], report.ends[row - 1])
            name = f'"name":"entry {log.entries[place]} ref {log.references[place]}","cat":"message","id":{flow}'
            about = f'"bytes":{log.sizes[place]},"left":{trace.lefts[place]},"came":{trace.cames[place]}'
            sender, receiver = _thread(report.procs[row - 1]), _thread(report.procs[taker])
            yield f'{{"ph":"s","pid":{_PROCESS},"tid":{sender},"ts":{left},{name},"args":{{{about}}}}}'
            yield f'{{"ph":"f","bp":"e","pid":{_PROCESS},"tid":{receiver},"ts":{report.starts[taker]},{name}}}'


def _inside(left, end):
    """When a message left, but before the end of its block, which doesn't belong to the slice."""
    if left < end:
        return str(left)
    return f"{end - 1}.999" if end < _EXACT else str(end - 1)


def _json(value):
    return json.dumps(value)
