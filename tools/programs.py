"""The two programs that `./hyper` can run, where they lie, and which of them are those of the sources.

The proved one is made by tools/prove, and by the gate. The checked one is the same sources compiled without a proof:
overflows, bounds and failed unwraps are tested while it runs, and contracts are not."""
import contextlib
import fcntl
import os
import subprocess
import sys
import time

TOP = os.path.dirname(os.path.dirname(os.path.realpath(__file__)))
OUT = f"{TOP}/crates/hy_hyper/out"
PROVED, CHECKED = f"{OUT}/hy_hyper", f"{OUT}/checked/hy_hyper"
# What a program that was built from a proof says of the logic in which it was proved.
MARK = b"rattle logic="
BUILDING = ("building the checked program, in some {minutes} minutes: overflows, bounds and failed unwraps are tested while it"
            " runs, and nothing of it is proved; tools/prove proves it, in some {long} minutes on 4 processors")


def say(text):
    print(f"hyper: {text}", file=sys.stderr, flush=True)


def sources():
    """Each file that the programs are made of."""
    yield f"{TOP}/crates.txt"
    for crate in os.scandir(f"{TOP}/crates"):
        for part in ("src", "specs", "proofs"):
            for here, _, names in os.walk(f"{crate.path}/{part}"):
                yield from (f"{here}/{it}" for it in names if it.endswith((".rt", ".antt")))


def is_fresh(program):
    """Whether a program is there and no source is newer."""
    if not os.access(program, os.X_OK):
        return False
    made = os.stat(program).st_mtime
    return all(os.stat(it).st_mtime <= made for it in sources())


def is_proved(program):
    """Whether a program is there that was built from a proof."""
    if not os.access(program, os.X_OK):
        return False
    with open(program, "rb") as it:
        return MARK in it.read()


def is_proved_fresh():
    """Whether the proved program is there, and no source is newer."""
    return is_fresh(PROVED) and is_proved(PROVED)


@contextlib.contextmanager
def alone(name):
    """Waits until nobody else builds what has this name. What was made then has the time at which this began, by `dated`."""
    os.makedirs(OUT, exist_ok=True)
    with open(f"{OUT}/{name}", "w", encoding="utf-8") as lock:
        try:
            fcntl.flock(lock, fcntl.LOCK_EX | fcntl.LOCK_NB)
        except BlockingIOError:
            say("waiting for another build")
            fcntl.flock(lock, fcntl.LOCK_EX)
        yield


def dated(program, began):
    """Gives a program the time at which its build began, so that a source which changed meanwhile is newer."""
    os.utime(program, (began, began))


def proved(program=None):
    """The path of the proved program, from tools/prove, which proves it where that wasn't done; or of the one that is named,
    where it was built from a proof."""
    if program:
        return os.path.abspath(program) if is_proved(program) else sys.exit(f"{program} was not built from a proof")
    made = subprocess.run([f"{TOP}/tools/prove"], stdout=subprocess.PIPE, text=True, check=False)
    return made.stdout.strip() if made.returncode == 0 else sys.exit(made.returncode)


def checked():
    """The path of the checked program, which is built where it isn't there, or a source is newer."""
    if is_fresh(CHECKED):
        return CHECKED
    with alone("checking"):
        if not is_fresh(CHECKED):
            say(BUILDING.format(minutes=3, long=30))
            began = time.time()
            os.makedirs(os.path.dirname(CHECKED), exist_ok=True)
            made = subprocess.run([f"{TOP}/tools/unproved_program", f"{CHECKED}.new"], stdin=subprocess.DEVNULL,
                                  stdout=subprocess.DEVNULL, check=False)
            if made.returncode:
                sys.exit("hyper: the checked program could not be built")
            dated(f"{CHECKED}.new", began)
            os.replace(f"{CHECKED}.new", CHECKED)
    return CHECKED
