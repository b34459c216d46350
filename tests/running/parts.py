"""The other tests that ./test runs: scripts below tests/, each with the programs of the release."""

import re
import shutil
import subprocess
from pathlib import Path

TOP = Path(__file__).resolve().parent.parent.parent
COUNTED = re.compile(r"([0-9]+) passed, [0-9]+ failed")


class Part:
    """A script with its words, what it needs beside the release, and what would install that."""

    def __init__(self, name, words, needs=(), installs=""):
        self.name, self.words, self.needs, self.installs = name, words, needs, installs

    def lacking(self):
        """What the part needs and isn't here."""
        return [need for need in self.needs if not is_there(need)]

    def run(self):
        """Whether it passed, how many tests passed by its last count, and what it printed."""
        command = [TOP / self.words[0], *self.words[1:]]
        try:
            done = subprocess.run(command, cwd=TOP, capture_output=True, text=True, errors="replace", check=False)
        except OSError as error:
            return False, 0, str(error)
        printed = done.stdout + done.stderr
        counted = COUNTED.findall(printed)
        return done.returncode == 0, int(counted[-1]) if counted else 1, printed


def is_there(need):
    """Whether a command is on the path, or a module of Python can be found, as `python:NAME`."""
    if need.startswith("python:"):
        import importlib.util

        return importlib.util.find_spec(need.removeprefix("python:")) is not None
    return shutil.which(need) is not None


def parts(programs, is_long):
    """The parts, those that take longest first. Of never_stale and hostile it is a share, but for a long run."""
    card_switch, network_view = str(programs / "card_switch"), str(programs / "network_view")
    library = str(programs / "libcard_switch.so.1")
    yield Part("hostile", ["tests/hostile", *(["--all"] if is_long else []), card_switch, network_view])
    yield Part("embedded", ["tests/embedded", card_switch], ["cc", "c++", "nm"], "gcc, g++ and binutils")
    yield Part("never_stale", ["tests/never_stale", *([] if is_long else ["quick"])], ["git"], "git")
    yield Part("codec", ["tests/codec", library])
    yield Part("calls", ["tests/calls", library])
    yield Part("installed", ["tests/installed"])
    yield Part("record", ["tests/recorded"])
    yield Part("pages", ["tests/pages"])
    yield Part("examples", ["tests/examples", card_switch, network_view])
    yield Part("pipeline", ["tests/pipeline", str(programs)])
    yield Part("schema", ["tests/schema"], ["python:tomllib", "python:jsonschema"], "Python 3.11 or later and its package jsonschema")
    yield Part("rows_in_order", ["tests/rows_in_order", card_switch])
    yield Part("made_ranks", ["tests/made_ranks", card_switch, network_view])
    if is_long:
        yield Part("all of hostile", ["bench/hostile"])
        yield Part("all of soak", ["bench/soak", card_switch])
