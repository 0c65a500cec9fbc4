"""Waits whose limits don't depend on how busy the machine is.

A limit is in calm seconds: those in which no process of the machine waits for a processor, and a
twentieth of the others. So on a quiet machine a limit is what it says, and a hang ends there;
beside many other processes it lasts up to twenty times as long, and what only takes its turn isn't
judged too slow. Linux says in /proc/pressure/cpu how long processes waited; without that file every
second is calm."""
import atexit
import contextlib
import os
import pathlib
import re
import socket
import subprocess
import time

PRESSURE = pathlib.Path("/proc/pressure/cpu")
# How long one look at a wait takes, and what part of a second counts in which a process waits.
LOOK, BUSY = 1, 0.05
# The servers that a test began, to be ended with it, and the process that began each.
running: list[tuple[int, subprocess.Popen[bytes]]] = []


def calm():
    """Returns the calm seconds since some moment."""
    try:
        found = re.search(r"^some .*total=(\d+)", PRESSURE.read_text(encoding="ascii"), re.M)
    except OSError:
        found = None
    stalled = int(found[1]) / 1e6 if found else 0
    return time.monotonic() - (1 - BUSY) * stalled


class Limit:
    """A limit in calm seconds that begins with the first look that found nothing."""

    def __init__(self, seconds):
        self.seconds, self.end = seconds, None

    def is_over(self):
        """Returns whether these seconds are over."""
        if self.end is None:
            self.end = calm() + self.seconds - LOOK
        return calm() > self.end


def delay(*processes):
    """Returns for how many seconds this process and others, by their numbers, were ready to run and
    had no processor."""
    total = 0
    for process in ("self", *processes):
        for path in pathlib.Path(f"/proc/{process}/task").glob("*/schedstat"):
            with contextlib.suppress(OSError):
                total += int(path.read_text(encoding="ascii").split()[1])
    return total / 1e9


def server(words, **more):
    """Begins a server, which end_all ends if its test doesn't."""
    process = subprocess.Popen(words, **more)
    running.append((os.getpid(), process))
    return process


@atexit.register
def end_all():
    """Kills the servers of this process that still run."""
    while running:
        owner, process = running.pop()
        if owner == os.getpid():
            process.kill()
            process.wait()


def communicate(process, timeout, text=None):
    """Returns what a process wrote until its end, for which it has these calm seconds; after them
    it is killed, and subprocess.TimeoutExpired is raised."""
    limit = Limit(timeout)
    while True:
        try:
            return process.communicate(text, timeout=LOOK)
        except subprocess.TimeoutExpired:
            text = None
            if limit.is_over():
                process.kill()
                process.communicate()
                raise


def ended(process, timeout):
    """Waits until a process has ended, for which it has these calm seconds."""
    limit = Limit(timeout)
    while True:
        try:
            return process.wait(LOOK)
        except subprocess.TimeoutExpired:
            if limit.is_over():
                raise


def run(words, *, timeout, check=False, capture_output=False, **more):
    """Runs words as subprocess.run does, with a limit in calm seconds."""
    if capture_output:
        more |= {"stdout": subprocess.PIPE, "stderr": subprocess.PIPE}
    text = more.pop("input", None)
    if text is not None:
        more["stdin"] = subprocess.PIPE
    with subprocess.Popen(words, **more) as process:
        try:
            out, errors = communicate(process, timeout, text)
        except BaseException:
            process.kill()
            raise
    done = subprocess.CompletedProcess(words, process.returncode, out, errors)
    if check:
        done.check_returncode()
    return done


def takes(path):
    """Whether a socket of this path takes connections; it is there a moment before."""
    with contextlib.suppress(OSError), socket.socket(socket.AF_UNIX) as one:
        one.connect(str(path))
        return True
    return False


class Connection(socket.socket):
    """A connection to an address of this machine, whose reads and writes have a limit in calm
    seconds."""

    def __init__(self, address, limit):
        super().__init__()
        self.limit = limit
        self.settimeout(LOOK)
        self.retried(self.connect, address)

    def retried(self, act, *given):
        """Returns what an action returns that may be tried again after a timeout."""
        limit = Limit(self.limit)
        while True:
            try:
                return act(*given)
            except TimeoutError:
                if limit.is_over():
                    raise

    def recv(self, size, flags=0):
        """Returns bytes as soon as some are there."""
        return self.retried(super().recv, size, flags)

    def sendall(self, data, flags=0):
        """Sends all bytes; the limit is for each part that is taken."""
        left = memoryview(data)
        while left:
            left = left[self.retried(super().send, left, flags):]
