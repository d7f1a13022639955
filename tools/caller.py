"""Commands that end with whoever called: by a signal, or by a closed pipe. No process and no temporary file stays."""
import contextlib
import ctypes
import os
import select
import signal
import subprocess
import sys
import time
from pathlib import Path

SIGNALS = (signal.SIGINT, signal.SIGTERM, signal.SIGHUP)
# Of prctl(2).
SET_DEATH_SIGNAL, SET_SUBREAPER = 1, 36
# So many seconds a command has to end by itself.
PATIENCE = 10


class Following:
    """Whether this process has nothing else to do than what its caller waits for."""

    is_on = False


def prctl(option, value):
    ctypes.CDLL(None).prctl(option, value, 0, 0, 0)


def write(text):
    """Writes on standard error, where there is one."""
    if sys.stderr is not None:
        with contextlib.suppress(OSError, ValueError):
            print(text, end="", file=sys.stderr, flush=True)


def say(text):
    """Says a line on standard error."""
    write(f"cec: {text}\n")


def follow():
    """From here on a signal leaves by SystemExit, so that what is held is given back. One that the caller ignores stays ignored."""

    def leave(number, _):
        for it in (*SIGNALS, signal.SIGPIPE):
            signal.signal(it, signal.SIG_IGN)
        sys.exit(128 + number)

    for it in SIGNALS:
        if signal.getsignal(it) is not signal.SIG_IGN:
            signal.signal(it, leave)
    # (Python begins by ignoring it)
    signal.signal(signal.SIGPIPE, leave)
    # What a command leaves when it is killed becomes a child of this process.
    prctl(SET_SUBREAPER, 1)
    Following.is_on = True


def become(program, words):
    """Runs the program in place of this process, which has no child any longer, with the signals as they came."""
    signal.signal(signal.SIGPIPE, signal.SIG_DFL)
    prctl(SET_SUBREAPER, 0)
    os.execv(program, words)


def stop_if_gone():
    """Leaves where nobody reads standard output or standard error any longer."""
    ends = select.poll()
    for number in (1, 2):
        ends.register(number, 0)
    if any(event & (select.POLLERR | select.POLLHUP) for _, event in ends.poll(0)):
        sys.exit(128 + signal.SIGPIPE)


def children():
    """The processes that this one has to wait for."""
    found = []
    for stat in Path("/proc").glob("[0-9]*/stat"):
        with contextlib.suppress(OSError, ValueError):
            if int(stat.read_text().rpartition(")")[2].split()[1]) == os.getpid():
                found.append(int(stat.parent.name))
    return found


def end(process):
    """Ends a command, which ends what it started itself."""
    process.terminate()
    with contextlib.suppress(subprocess.TimeoutExpired):
        process.wait(PATIENCE)
    process.kill()
    process.wait()


def end_all():
    """Ends what commands that were killed have left, where this process follows its caller."""
    while Following.is_on and (left := children()):
        for number in left:
            with contextlib.suppress(OSError):
                os.kill(number, signal.SIGKILL)
        with contextlib.suppress(OSError):
            os.waitpid(-1, 0)


@contextlib.contextmanager
def started(words, **how):
    """A command that ends at the end of this block; and, where this process follows its caller, when this process is killed."""
    if Following.is_on:
        how["preexec_fn"] = lambda: prctl(SET_DEATH_SIGNAL, signal.SIGTERM)
    process = subprocess.Popen(words, stdin=subprocess.DEVNULL, start_new_session=True, **how)
    try:
        yield process
    finally:
        end(process)


def waited(words, **how):
    """The status of a command. The caller is looked for meanwhile."""
    with started(words, **how) as process:
        while process.poll() is None:
            stop_if_gone()
            time.sleep(0.05)
        return process.returncode
