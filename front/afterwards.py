"""What is added on standard error behind a run: where a slip stands, and why a code came that says nothing itself."""
import os
import stat

from front import codes, pointing, usage
from front.program import ask
from front.words import read

LOG_BEGINS = b"bslog 1\n"
JOURNAL_BEGINS = b"wave "


def before(words):
    """The lines to be told before a run: a file that is about to be replaced, and isn't what it looks like."""
    found = read(words)
    kind, begins = ("log", LOG_BEGINS) if found.command == "emulate" else ("journal", JOURNAL_BEGINS)
    replaced = [it for it in found.writes() if holds_other(it, begins)]
    return [f"note: {it} is no {kind}, and is about to be replaced" for it in replaced]


def holds_other(path, begins):
    """Whether a plain file holds something that begins otherwise."""
    try:
        if not stat.S_ISREG(os.stat(path).st_mode):
            return False
        with open(path, "rb") as file:
            front = file.read(len(begins))
    except (OSError, ValueError):
        return False
    return bool(front) and front != begins


def behind(words, answer):
    """The lines to be told behind a run."""
    found = read(words)
    line = last_line(answer.err)
    program, log = found.program(), found.log()
    if answer.code == codes.BAD_WORDS:
        return usage.behind_bad_words(words)
    if answer.code == codes.BAD_PROGRAM and program:
        return pointing.bad_program(line, program)
    if answer.code == codes.CHECK_FAILED and program:
        return pointing.check_failed(line, program)
    if answer.code == codes.AMBIGUOUS and program:
        return pointing.ambiguous(line, program)
    if answer.code == codes.BAD_MACHINE:
        return bad_machine(found, line)
    if answer.code == codes.BAD_LOG and log:
        return pointing.bad_log(line, log)
    if answer.code in (codes.DEADLOCK, codes.TRAPPED):
        return ends(found, answer)
    special = SILENT.get(answer.code)
    return [f"pochvean: {it}" for it in special(found, words)] if special else []


def bad_machine(found, line):
    """Which machine is refused, where there are several, and the key of its file that is at fault."""
    files = found.machines()
    if len(files) < 2:
        return pointing.bad_machine(line, files[0]) if files else []
    refused = next((it for it in files if ask([found.command, found.names[0], it]).code == codes.BAD_MACHINE), None)
    return [f"{refused}: this machine is refused", *pointing.bad_machine(line, refused)] if refused else []


def last_line(data):
    """The last line of what came on standard error."""
    lines = data.decode("utf-8", "replace").splitlines()
    return lines[-1] if lines else ""


def ends(found, answer):
    """A line for each trap and wait of a report that was seen on the terminal, or of a log that was written."""
    if not found.program():
        return []
    if found.command == "emulate" and len(found.names) > 1:
        text = pointing.read_file(found.names[1])
        return pointing.explain_ends(pointing.ends_of(text, pointing.LOG_END), found.program()) if text else []
    return pointing.explain_ends(pointing.ends_of(answer.out), found.program())


def why_unreadable(path):
    """Why a file can't be opened or read, or None where it can."""
    try:
        with open(path, "rb") as file:
            if stat.S_ISREG(os.fstat(file.fileno()).st_mode):
                file.read(1)
    except IsADirectoryError:
        return f"{path} is a folder, and a file is wanted"
    except NotADirectoryError:
        return f"{path} lies below a file that is no folder"
    except PermissionError:
        return f"{path} may not be read by this user"
    except (OSError, ValueError) as error:
        return f"{path} can't be read: {getattr(error, 'strerror', None) or error}"
    return None


def unreadable(found, _):
    """Which file can't be read."""
    reasons = [it for it in map(why_unreadable, found.reads()) if it]
    return reasons[:1] or [f"a file couldn't be read: {' or '.join(found.reads())}"]


def missing(found, _):
    """Which file isn't there, and which one with a like name is."""
    for path in found.reads():
        if not os.path.lexists(path):
            return [f"there is no file {path}{like(path)}{no_machine(found, path)}"]
        if not os.path.exists(path):
            return [f"{path} is a link to a file that isn't there"]
    return [f"a file isn't there: {' or '.join(found.reads())}"]


def like(path):
    """A hint at a file of a like name in the same folder."""
    import difflib

    folder, name = os.path.split(path)
    try:
        names = os.listdir(folder or ".")
    except OSError:
        return f", and no folder {folder}" if folder else ""
    close = difflib.get_close_matches(name, names, 1, 0.7)
    return f" (is it {os.path.join(folder, close[0])}?)" if close else ""


def no_machine(found, path):
    """A hint at flat machines, where the machine's file isn't there."""
    return "; a flat machine is flat:P:L" if path == found.machine() and "flat" in path.lower() else ""


def not_written(found, _):
    """Which text couldn't be written."""
    reasons = [it for it in map(why_unwritable, found.writes()) if it]
    if reasons:
        return reasons[:1]
    if found.command == "emulate":
        return [f"the log couldn't be written whole to {' '.join(found.writes())}"]
    for path in found.writes():
        if not os.path.isfile(path):
            return [f"the journal couldn't be written whole to {path}, or standard output is closed or full"]
        if not is_whole_journal(path):
            return [f"the journal couldn't be written whole to {path}"]
    return [
        "what was to be printed couldn't be written whole: standard output is closed or full, or its reader went away"
    ]


def is_whole_journal(path):
    """Whether a plain file ends like a journal."""
    try:
        with open(path, "rb") as file:
            file.seek(max(0, os.path.getsize(path) - 64))
            lines = file.read().split(b"\n")
    except OSError:
        return False
    return len(lines) > 1 and lines[-1] == b"" and lines[-2].startswith((b"settled ", b"spent "))


def why_unwritable(path):
    """Why a file can't be made or written to, or None where that isn't seen."""
    folder = os.path.dirname(os.path.abspath(path))
    if os.path.isdir(path):
        return f"{path} is a folder, so no file of that name can be written"
    if os.path.exists(folder) and not os.path.isdir(folder):
        return f"{path} lies below a file that is no folder"
    if not os.path.isdir(folder):
        return f"{path} can't be written: there is no folder {folder}"
    is_there = os.path.exists(path)
    if not os.access(path if is_there else folder, os.W_OK):
        return f"{path} may not be written by this user"
    try:
        room = os.statvfs(folder)
        is_full = room.f_bavail == 0
    except OSError:
        is_full = False
    return f"{path} couldn't be written whole: the disk is full" if is_full else None


def too_big(found, _):
    """Which file is too big."""
    for path in found.reads():
        most = 67_108_864 if path == found.log() else 1_048_576
        if os.path.isfile(path) and os.path.getsize(path) > most:
            return [f"{path} has {os.path.getsize(path)} bytes"]
    return []


def no_memory(found, _):
    """What to do where memory was wanting."""
    what = "memory was wanting: close other programs, or raise the limit that 'ulimit -v' shows"
    if found.command == "predict" and found.writes():
        what += ". A journal is made whole in memory, and --waves N makes a shorter one"
    return [what]


def no_text(_, words):
    """Which word is no text."""
    for number, word in enumerate(words, 1):
        try:
            word.encode("utf-8")
        except UnicodeEncodeError:
            return [f"word {number} isn't UTF-8: give the file another name, or name it by way of a link"]
    return ["the words couldn't be read as texts"]


def stopped(_, __):
    """A checked build met something that the proofs exclude."""
    return ["the build stopped at one of its own checks, which proofs show never to fail: please report this"]


SILENT = {
    codes.NO_TEXT: no_text,
    codes.READ_FAULT: unreadable,
    codes.WRITE_FAULT: not_written,
    codes.NO_FILE: missing,
    codes.NO_MEMORY: no_memory,
    codes.TOO_BIG: too_big,
    codes.CHECK_STOPPED: stopped,
}
