"""Runs of the program on one input after another, each with a limit of time."""

import os
import signal
import time

MIB = 1 << 20
MOST_HELD = 64 * MIB

# The words of each job of card_switch, and of network_view.
SWITCH = {
    "check": ("check",),
    "make": ("make",),
    "replay": ("replay",),
    "run": ("run",),
    "decode": ("decode",),
    "frames": ("decode", "--frames"),
}
VIEW = {
    "card": ("card", "4111111111111111"),
    "card_object": ("card", "--json", "4111111111111111"),
    "refusals": ("refusals",),
    "refusal_objects": ("refusals", "--json"),
    "picture": ("picture",),
    "graph": ("picture", "--dot"),
    "trace": ("trace",),
}
WORDS = {**SWITCH, **VIEW}


class TooSlow(Exception):
    """A run did not end in time."""


def on_alarm(_number, _frame):
    raise TooSlow


def status_of(waited):
    """The exit status, or the negative number of the signal that ended the program."""
    return os.waitstatus_to_exitcode(waited)


class Runner:
    """Runs a program with files in memory as its input and outputs."""

    def __init__(self, program, seconds):
        self.program = program
        self.seconds = seconds
        self.files = [os.memfd_create(name) for name in ("in", "out", "err")]
        signal.signal(signal.SIGALRM, on_alarm)

    def fill(self, data):
        for file in self.files:
            os.ftruncate(file, 0)
            os.lseek(file, 0, os.SEEK_SET)
        view = memoryview(data)
        while view:
            view = view[os.write(self.files[0], view) :]
        os.lseek(self.files[0], 0, os.SEEK_SET)

    def held(self, file):
        """What was written, or its first and last MiB."""
        size = os.fstat(file).st_size
        if size <= MOST_HELD:
            return os.pread(file, size, 0)
        return os.pread(file, MIB, 0) + os.pread(file, MIB, size - MIB)

    def wait(self, child):
        signal.setitimer(signal.ITIMER_REAL, self.seconds)
        try:
            _, waited = os.waitpid(child, 0)
        except TooSlow:
            os.kill(child, signal.SIGKILL)
            os.waitpid(child, 0)
            raise
        finally:
            signal.setitimer(signal.ITIMER_REAL, 0)
        return status_of(waited)

    def run(self, words, data):
        """The status, the output, the words on standard error, and the seconds. Raises TooSlow."""
        self.fill(data)
        start = time.monotonic()
        actions = [(os.POSIX_SPAWN_DUP2, file, number) for number, file in enumerate(self.files)]
        child = os.posix_spawn(self.program, [self.program, *words], {}, file_actions=actions)
        status = self.wait(child)
        seconds = time.monotonic() - start
        return status, self.held(self.files[1]), self.held(self.files[2]), seconds
