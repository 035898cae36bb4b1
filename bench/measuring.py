"""What scripts of this folder share: the programs that they build, and what a run of a program costs."""
import os
import resource
import subprocess
import sys

HERE = os.path.dirname(os.path.realpath(__file__))
CRATE = os.path.join(HERE, "..", "crates", "hy_bench")


def build_bench(script, *words):
    """Builds hy_bench by a run of no round. It is built only where it is proved, so each index in it is in range."""
    command = ["rt", "run", "--", *words]
    ran = subprocess.run(command, cwd=CRATE, stdin=subprocess.DEVNULL, stdout=subprocess.PIPE, stderr=subprocess.STDOUT)
    if ran.returncode:
        sys.exit(ran.stdout.decode(errors="replace")[-4000:] + f"bench/{script}: hy_bench was not built")
    return os.path.join(CRATE, "out", "hy_bench")


def build_limit(folder, name):
    """Builds the plain program of a name in a folder."""
    program = os.path.join(folder, name)
    source = os.path.join(HERE, name + ".rs")
    subprocess.run(["rustc", "--edition", "2021", "-O", "-o", program, source], check=True)
    return program


def processor_time():
    """The processor time of the programs that were run and have ended, in nanoseconds."""
    used = resource.getrusage(resource.RUSAGE_CHILDREN)
    return 1e9 * (used.ru_utime + used.ru_stime)
