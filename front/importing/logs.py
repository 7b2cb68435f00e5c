"""The text of a log, written beside its place and then renamed."""
import os

from .faults import NO_OUTPUT, Refusal


def log_lines(chare_count, rows):
    yield "bslog 1\n"
    yield f"chares {chare_count} entries 1 rows {len(rows)}\n"
    for row in rows:
        yield f"row {row.chare} {row.statement} {row.depth} {row.cost}\n"
        for number in sorted({after.number for after in row.afters}):
            yield f"after {number}\n"
        for number, index in sorted((receive.send.row.number, receive.send.index) for receive in row.receives):
            yield f"mail {number} {index}\n"
        for send in row.sends:
            yield f"send {send.target} 0 {send.reference} {send.size} {send.offset}\n"
    yield "end\n"


def write_log(path, chare_count, rows):
    """Writes the log to the file, which is made or replaced; where that fails the file is as it was."""
    place = os.path.realpath(path)
    if os.path.exists(place) and not os.path.isfile(place):
        raise Refusal(NO_OUTPUT, f"{path} is no plain file; name one for the log")
    beside = os.path.join(os.path.dirname(place), f".{os.path.basename(place)}.{os.getpid()}.part")
    made = False
    try:
        with open(beside, "x", encoding="ascii", newline="\n") as file:
            made = True
            file.writelines(log_lines(chare_count, rows))
        os.replace(beside, place)
    except OSError as error:
        if made:
            remove(beside)
        raise Refusal(NO_OUTPUT, f"{path} can't be written: {error.strerror or error}") from None
    except BaseException:
        if made:
            remove(beside)
        raise


def remove(path):
    try:
        os.remove(path)
    except OSError:
        pass
