#!/usr/bin/env python3
"""Does a job of card_switch on standard input by the library, and prints what the program would print, with its exit status.

usage: jobs.py check|make|replay|decode [--frames]"""

import sys
from pathlib import Path

sys.path.insert(0, str(Path(__file__).resolve().parent.parent.parent / "python"))  # Where the package is installed, this isn't needed.
sys.dont_write_bytecode = True

import card_switch

JOBS = {
    ("check",): card_switch.check,
    ("make",): card_switch.make,
    ("replay",): card_switch.replay,
    ("decode",): card_switch.decode,
    ("decode", "--frames"): lambda data: card_switch.decode(data, frames=True),
}


def main():
    job = JOBS.get(tuple(sys.argv[1:]))
    if job is None:
        print(__doc__, file=sys.stderr)
        return 2
    status, text = job(sys.stdin.buffer.read(card_switch.CS_MOST_INPUT + 1))
    sys.stdout.buffer.write(text)
    return status


if __name__ == "__main__":
    sys.exit(main())
