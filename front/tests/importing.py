"""Small traces made by hand, and what an import makes of them."""
import contextlib
import io
import os
import re
import subprocess
import tempfile

from front.importing import main

ROOT = os.path.dirname(os.path.dirname(os.path.dirname(os.path.abspath(__file__))))
OPTIONS = ("tracing/smpi/internals:yes", "tracing/smpi/computing:yes", "tracing/smpi/display-sizes:yes",
           "tracing/precision:12")
RECORDS = (
    ("DefineContainerType", "Alias Type Name"), ("DefineVariableType", "Alias Type Name Color"),
    ("DefineStateType", "Alias Type Name"), ("DefineEventType", "Alias Type Name"),
    ("DefineLinkType", "Alias Type StartContainerType EndContainerType Name"),
    ("DefineEntityValue", "Alias Type Name Color"), ("CreateContainer", "Time Alias Type Container Name"),
    ("DestroyContainer", "Time Type Name"), ("SetVariable", "Time Type Container Value"),
    ("AddVariable", "Time Type Container Value"), ("SubVariable", "Time Type Container Value"),
    ("SetState", "Time Type Container Value"), ("PushState", "Time Type Container Value Size"),
    ("PopState", "Time Type Container"), ("ResetState", "Time Type Container"),
    ("StartLink", "Time Type Container Value StartContainer Key Size"),
    ("EndLink", "Time Type Container Value EndContainer Key"), ("NewEvent", "Time Type Container Value"),
)


class Trace:
    """A Paje trace as SMPI 3.32 writes it. Times are in nanoseconds, ranks count from 0."""

    def __init__(self, ranks, options=OPTIONS, version="3.32.0", located=False):
        self.lines = [f"#This file was generated using SimGrid-{version}",
                      "#[./a.out " + " ".join(f"--cfg={option}" for option in options) + " p.xml ]"]
        for number, (name, fields) in enumerate(RECORDS):
            if located and name == "PushState":
                fields += " Fname Lnumber"
            self.lines += [f"%EventDef Paje{name} {number}", *(f"%       {field} any" for field in fields.split()),
                           "%EndEventDef"]
        self.lines += ["0 1 0 MPI", "2 2 1 MPI_STATE", "4 3 0 1 1 MPI_LINK"]
        self.lines += [f"6 0.000000000000 {rank + 1} 1 0 \"rank-{rank}\"" for rank in range(ranks)]
        self.ranks = ranks
        self.time = 0
        self.values = {}
        self.links = 0

    def at(self, time):
        self.time = time
        return self

    def stamp(self):
        return f"{self.time // 10 ** 9}.{self.time % 10 ** 9:09d}000"

    def add(self, line):
        self.lines.append(line)
        return self

    def push(self, rank, name, place=""):
        if name not in self.values:
            self.values[name] = 6 + len(self.values)
            self.add(f"5 {self.values[name]} 2 {name} \"0 1 0\"")
        return self.add(f"12 {self.stamp()} 2 {rank + 1} {self.values[name]} NA{place}")

    def pop(self, rank):
        return self.add(f"13 {self.stamp()} 2 {rank + 1} ")

    def start(self, source, target, tag, size=8):
        self.links += 1
        return self.add(f"15 {self.stamp()} 3 0 PTP {source + 1} {source + 1}_{target + 1}_{tag}_{self.links} {size}")

    def end(self, target, source, tag):
        self.links += 1
        return self.add(f"16 {self.stamp()} 3 0 PTP {target + 1} {source + 1}_{target + 1}_{tag}_{self.links}")

    def works(self, rank, begin, end):
        return self.at(begin).push(rank, "computing").at(end).pop(rank)

    def sends(self, source, target, tag, size=8):
        return self.push(source, "PMPI_Send").start(source, target, tag, size).pop(source)

    def receives(self, target, source, tag):
        return self.push(target, "PMPI_Recv").end(target, source, tag).pop(target)

    def finish(self):
        for rank in range(self.ranks):
            self.push(rank, "PMPI_Finalize").pop(rank).add(f"7 {self.stamp()} 1 {rank + 1}")
        return self

    def bytes(self):
        return ("\n".join(self.lines) + "\n").encode()


class Imported:
    """What an import of these bytes gave: its code, its texts, and the log's lines, or None where there is none."""

    def __init__(self, trace, *words):
        if isinstance(trace, Trace):
            trace = trace.bytes()
        with tempfile.TemporaryDirectory(prefix="pochvean-test-") as room:
            path, log = os.path.join(room, "trace"), os.path.join(room, "log")
            with open(path, "wb") as file:
                file.write(trace)
            self.code, self.out, self.error = run(path, log, *words)
            # (where reading takes long, lines say how far it is)
            lines = self.error.splitlines(True)
            self.error = "".join(line for line in lines if not re.fullmatch(r"import: \d+ MiB read, \d+ lines\n", line))
            self.error = self.error.replace(path, "TRACE").replace(log, "LOG")
            self.log = None
            if os.path.exists(log):
                with open(log, encoding="ascii") as file:
                    self.log = file.read().splitlines()
            self.left = sorted(set(os.listdir(room)) - {"trace", "log"})


def run(*words):
    out, error = io.StringIO(), io.StringIO()
    with contextlib.redirect_stdout(out), contextlib.redirect_stderr(error):
        code = main(list(words))
    return code, out.getvalue(), error.getvalue()


def program():
    """The path of the program, or None where there is no build."""
    places = [os.environ.get("POCHVEAN_PROGRAM"), os.path.join(ROOT, "crates", "bs_program", "out", "bs_program")]
    for place in places:
        if place and os.access(place, os.X_OK):
            return place
    try:
        from front.tests import support
        return support.program()
    except (ImportError, RuntimeError):
        return None


def predicted(log, machine):
    """The lines that the program's predict prints for a log."""
    ran = subprocess.run([program(), "predict", log, machine], stdout=subprocess.PIPE, stderr=subprocess.PIPE)
    return ran.returncode, ran.stdout.decode().splitlines(), ran.stderr.decode()
