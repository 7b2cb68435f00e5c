"""Running words by `rt try`, where no build could be kept. It builds anew each time, and it has limits of its own:
a run of 60 seconds, and 1 MiB of output."""
import os
import re
import subprocess
import tempfile

from front import codes, places
from front.answer import Answer
from front.checked import tool
from front.telling import tell, write_all
from front.words import read

ENDED = re.compile(rb"^run=ended status=(\d+) .*\n\Z", re.M)
ITS_OWN = re.compile(rb"^(?:checked|interpreter|races|run|rt): ?.*\n|^run=.*\n", re.M)


def for_rt(words):
    """The words and flags for `rt try`: it runs in a folder of its own, so each file that is read goes along under a
    plain name, and a file that is written is named from the root."""
    found = read(words)
    reads = {it for it in found.reads() if os.path.isfile(it)}
    writes = set(found.writes())
    flags, given = [], []
    for number, word in enumerate(words):
        if word in writes and word not in reads:
            given.append(os.path.abspath(word))
        elif word in reads and word not in writes:
            flags += ["--data", f"file{number}={os.path.abspath(word)}"]
            given.append(f"file{number}")
        elif word in reads:
            given.append(os.path.abspath(word))
        else:
            given.append(word)
    return flags, given


def run(words):
    """Runs words by `rt try`, and returns the code, and what came on the two streams."""
    answer = ask(words, takes_input=True)
    is_whole = write_all(1, answer.out) and write_all(2, answer.err)
    return answer if is_whole else answer._replace(code=codes.WRITE_FAULT)


def ask(words, takes_input=False):
    """Runs words by `rt try`, and returns what it answers."""
    flags, given = for_rt(words)
    with tempfile.TemporaryFile() as said:
        how = {"cwd": places.CRATE, "stdout": subprocess.PIPE, "stderr": said}
        how["stdin"] = None if takes_input else subprocess.DEVNULL
        ran = subprocess.run([tool(), "try", *flags, "--", *given], **how)
        said.seek(0)
        err = said.read()
    ended = ENDED.search(err)
    if not ended:
        tell("'rt try' gave no answer: it stops a run at 60 seconds and at 1 MiB of output")
        return Answer(codes.NO_BUILD, ran.stdout, err)
    return Answer(int(ended[1]), ran.stdout, ITS_OWN.sub(b"", err))
