"""Running the program with the words as they are, in the user's folder and with the user's streams."""
import os
import select
import signal
import subprocess
import time

from front import build, codes, tried
from front.answer import Answer
from front.telling import tell, write_all

# When a run of a checked build is told to take long, in seconds.
LONG = 5
TAKES_LONG = "this build tests itself as it runs, and takes some hundred times as long as the proved one"
# The most of the program's own lines on standard error that are kept for pointing, in bytes.
MOST_KEPT = 65_536
PASSED_ON = (signal.SIGTERM, signal.SIGHUP, signal.SIGINT)


def environment(found):
    """The environment of the program. A checked build ends with a code of its own where it stops itself."""
    if found.is_proved:
        return None
    options = os.environ.get("ASAN_OPTIONS", "")
    return {**os.environ, "ASAN_OPTIONS": f"{options}:exitcode={codes.CHECK_STOPPED}"}


def ask(words) -> Answer:
    """Runs the program with words, without input, and captures what it writes. Raises NoBuild where there is none."""
    found = build.ready(is_quiet=True)
    if found.path is None:
        return tried.ask(words)
    how = {"stdin": subprocess.DEVNULL, "stdout": subprocess.PIPE, "stderr": subprocess.PIPE}
    with running([found.path, *words], env=environment(found), **how) as process:
        out, err = process.communicate()
    return Answer(process.returncode, out, err)


def run(words, found, closed=()) -> Answer:
    """Runs a build with words. It reads and writes the user's own streams, but for its lines on standard error,
    which pass through here; on a terminal so does standard output, since nothing is lost by it there. Streams that
    the user has closed are closed for it too."""
    if found.path is None:
        return tried.run(words)
    is_seen = is_terminal(1)
    how = {"env": environment(found)}
    if 2 not in closed:
        how["stderr"] = subprocess.PIPE
    if is_seen:
        how["stdout"] = subprocess.PIPE
    if closed:
        how["preexec_fn"] = lambda: [os.close(it) for it in closed]
    with running([found.path, *words], **how) as process:
        streams = {it.fileno(): number for it, number in ((process.stdout, 1), (process.stderr, 2)) if it is not None}
        kept, is_whole = pass_on(streams, None if found.is_proved else LONG)
        process.wait()
    # (what the program could not have written itself is its write fault)
    code = process.returncode if is_whole or process.returncode < 0 else codes.WRITE_FAULT
    return Answer(code, kept[1], kept[2][:MOST_KEPT])


def start_of(path, error):
    """Why a build can't be started."""
    return build.NoBuild(f"{path} can't be started: {error.strerror}. Remove it, and it is made anew")


def is_terminal(descriptor):
    """Whether a descriptor is a terminal."""
    try:
        return os.isatty(descriptor)
    except OSError:
        return False


def pass_on(streams, patience):
    """Passes on what comes from the descriptors to those that they stand for, until all have ended. Returns what came,
    and whether all of it could be written. Where nothing has come after a while, a line says why it takes long."""
    kept, is_whole = {1: b"", 2: b""}, True
    pieces = {1: [], 2: []}
    deadline = None if patience is None else time.monotonic() + patience
    streams = dict(streams)
    while streams:
        left = None if deadline is None else max(0, deadline - time.monotonic())
        ready = select.select(list(streams), [], [], left)[0]
        if not ready:
            deadline = None
            tell(TAKES_LONG)
            continue
        for one in ready:
            data = os.read(one, 1 << 20)
            if not data:
                del streams[one]
                continue
            pieces[streams[one]].append(data)
            is_whole = write_all(streams[one], data) and is_whole
    for number, found in pieces.items():
        kept[number] = b"".join(found)
    return kept, is_whole


class running:  # (named as it is used, in a `with`)
    """A process that gets the signals that this one gets, and that never outlives it unseen."""

    def __init__(self, words, **how):
        self.words, self.how, self.process, self.before, self.early = words, how, None, {}, []

    def __enter__(self):
        for number in PASSED_ON:
            if signal.getsignal(number) != signal.SIG_IGN:
                self.before[number] = signal.signal(number, self.pass_signal)
        try:
            self.process = subprocess.Popen(self.words, **self.how)
        except OSError as error:
            self.give_back()
            raise start_of(self.words[0], error) from error
        for number in self.early:
            self.process.send_signal(number)
        return self.process

    def pass_signal(self, number, _):
        """Sends the signal on to the process, or keeps it until the process is known."""
        if self.process is None:
            self.early.append(number)
        elif self.process.poll() is None:
            self.process.send_signal(number)

    def give_back(self):
        """Puts the former handlers back."""
        for number, handler in self.before.items():
            signal.signal(number, handler)

    def __exit__(self, *_):
        if self.process.poll() is None:
            self.process.kill()
        self.process.wait()
        for stream in (self.process.stdout, self.process.stderr):
            if stream is not None:
                stream.close()
        self.give_back()
