"""What the benchmarks share: where the program and their data are, and the time and memory of a run."""
import os
import sys

HERE = os.path.dirname(os.path.abspath(__file__))
PROGRAM = os.path.join(HERE, "..", "crates", "unitex", "out", "unitex")
DATA = os.path.join(HERE, "data")
OUT = os.path.join(DATA, "out.txt")
RUNS = 3


def prepare():
    """Makes the folder of the data, and ends where the program isn't built."""
    if not os.access(PROGRAM, os.X_OK):
        sys.exit("build the program first: make build")
    os.makedirs(DATA, exist_ok=True)


def apart(make, *arguments):
    """Makes data in a process of its own, so that the measured ones don't begin with the memory that it takes."""
    child = os.fork()
    if child == 0:
        make(*arguments)
        os._exit(0)
    if os.waitstatus_to_exitcode(os.waitpid(child, 0)[1]) != 0:
        sys.exit("the data could not be written")


def run(arguments, output=OUT, environment=None, wanted=0):
    """The seconds of a processor, and the peak of resident memory in bytes, of one run. Its output goes to a file, since
    grep stops at its first match where it is thrown away. No program here has a second thread, so these seconds are
    those that a user waits where nothing else runs. A run that is to be refused says so in a line that isn't shown.

    The peak is never below this script's own, which the new process begins with.
    """
    child = os.fork()
    if child == 0:
        os.dup2(os.open(output, os.O_WRONLY | os.O_CREAT | os.O_TRUNC, 0o644), 1)
        if wanted:
            os.dup2(os.open(os.devnull, os.O_WRONLY), 2)
        os.execvpe(arguments[0], arguments, environment or os.environ)
    _, status, usage = os.wait4(child, 0)
    if os.waitstatus_to_exitcode(status) != wanted:
        sys.exit(f"{arguments[0]} ended with {os.waitstatus_to_exitcode(status)}")
    return usage.ru_utime + usage.ru_stime, usage.ru_maxrss * 1024


def best(arguments, output=OUT, environment=None):
    """The least time and the greatest memory of three runs, one after the other."""
    return least([run(arguments, output, environment) for _ in range(RUNS)])


def least(runs):
    """The least time and the greatest memory of the runs."""
    return min(seconds for seconds, _ in runs), max(memory for _, memory in runs)
