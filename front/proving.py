"""`--prove` and `--install`: the proved build, and where it goes."""
import contextlib
import os
import re
import shutil
import subprocess
import tempfile

from front import build, codes, places
from front.checked import own_data, own_words, tool, tail_of, end
from front.telling import Progress, tell, tell_as_is

# What a check of a crate may take, in bytes.
MEMORY = 3_000_000_000
FAILED = re.compile(r"^(\w+): (?!ok$)(failed|not run).*$", re.M)


def names_of_crates():
    """The names of all crates, in the order of crates.txt."""
    with open(os.path.join(places.ROOT, "crates.txt"), encoding="utf-8") as file:
        lines = [it.split("#")[0] for it in file]
    return [it.split(":")[0].split()[0] for it in lines if it.strip()]


def free_memory():
    """The free memory, in bytes, or a plain amount where that isn't told."""
    with contextlib.suppress(OSError, ValueError):
        with open("/proc/meminfo", encoding="ascii") as file:
            for line in file:
                if line.startswith("MemAvailable:"):
                    return int(line.split()[1]) * 1024
    return MEMORY


def jobs():
    """How many crates are proved at a time: one a processor, as far as the memory goes."""
    return max(1, min(len(os.sched_getaffinity(0)), 8, free_memory() // MEMORY))


def prove():
    """Proves all crates, builds the program of what was proved, and records that. Returns the exit code."""
    rt, crates, at_once = tool(), names_of_crates(), jobs()
    before = build.sum_now()
    if build.is_proved_build_fresh(before):
        tell("the proved build of these sources is there already")
        return codes.SETTLED
    tell(
        f"this proves {len(crates)} crates, {at_once} at a time. From nothing it takes about two hours of processor "
        "time (half an hour on four processors), 3 GB of memory for each crate at a time, and 6 GB of disk. "
        "What was proved before is taken over, and Ctrl-C loses only the crates at work"
    )
    handle, said = tempfile.mkstemp(prefix="pochvean-prove-", suffix=".log")
    os.close(handle)
    progress = Progress(f"0 of {len(crates)} crates proved")
    words = [rt, "all", "check", "--jobs", str(at_once)]
    status = followed(words, places.ROOT, said, progress, lambda text: proved_so_far(text, crates))
    if status == 0:
        progress.what = "building the program of what was proved"
        words = [rt, "run", "--", *own_run()]
        status = followed(words, places.CRATE, said, progress, None)
    progress.end()
    if status != 0:
        return refused(said, status)
    os.unlink(said)
    if build.sum_now() != before:
        tell("a source was changed meanwhile, so the build isn't of the sources as they stand: run this again")
        return codes.NO_BUILD
    build.record_proved(before)
    tell(f"proved, and kept as crates/bs_program/out/bs_program, in {spelled(progress)}")
    return codes.SETTLED


def spelled(progress):
    """The time that something took."""
    from front.telling import spell_time

    return spell_time(progress.elapsed())


def own_run():
    """The words of the crate's own run, with its files named from the crate's folder."""
    there = set(os.listdir(own_data())) if os.path.isdir(own_data()) else set()
    return [os.path.join("data", it) if it in there else it for it in own_words()]


def followed(words, folder, said, progress, tells):
    """Runs a command whose output goes to a file, shows how far it is, and returns its status."""
    with open(said, "ab") as file:
        how = {"cwd": folder, "stdin": subprocess.DEVNULL, "stdout": file, "stderr": file}
        process = subprocess.Popen(words, start_new_session=True, **how)
    try:
        while True:
            try:
                return process.wait(1)
            except subprocess.TimeoutExpired:
                if tells is not None:
                    with open(said, encoding="utf-8", errors="replace") as file:
                        progress.what = tells(file.read())
                progress.step()
    finally:
        end(process)


def proved_so_far(text, crates):
    """How many crates are proved, by the headings that `rt all` prints when a crate is done."""
    done = [it for it in re.findall(r"^== (\w+)$", text, re.M) if it in crates]
    last = f" (last {done[-1]})" if done else ""
    return f"{len(set(done))} of {len(crates)} crates proved{last}"


def refused(said, status):
    """Says that a proof or a build failed."""
    with open(said, encoding="utf-8", errors="replace") as file:
        failed = [it.group() for it in FAILED.finditer(file.read())]
    tell(f"the program wasn't proved: 'rt' ended with status {status}. All that it said is in {said}")
    tell_as_is("\n".join(failed) if failed else tail_of(said))
    return codes.NO_BUILD


def install(folder):
    """Copies the proved program to a folder as `pochvean`. Returns the exit code."""
    if not build.is_proved_build_fresh(build.sum_now()):
        tell("there is no proved build of these sources to install: './pochvean --prove' makes it")
        return codes.NO_BUILD
    if not os.path.isdir(folder):
        tell(f"{folder} is no folder")
        return codes.NOT_WRITTEN
    to, beside = os.path.join(folder, "pochvean"), None
    try:
        if os.path.isdir(to):
            raise IsADirectoryError(0, "it is a folder")
        handle, beside = tempfile.mkstemp(prefix=".pochvean-", dir=folder)
        os.close(handle)
        shutil.copyfile(places.PROVED, beside)
        os.chmod(beside, 0o755)
        os.replace(beside, to)
    except OSError as error:
        tell(f"{to} couldn't be written: {error.strerror}")
        if beside is not None:
            with contextlib.suppress(OSError):
                os.unlink(beside)
        return codes.NOT_WRITTEN
    tell(f"the proved program is {to}")
    return codes.SETTLED
