#!/usr/bin/env python3
"""Measures `run`: answers a second over three nodes to 64, with good links and with bad ones.

PROGRAM is the built program, as release/card_switch. Acquirers enter requests for cards of all homes, four at each node where nothing else
is said. A line of the table has the sessions, the requests, the seconds of the fastest of N runs (default: 3), whole process included,
answers a second, processor seconds and the most memory. What it takes to read the same bundle and to start its threads, with one request a
session, stands in the last column. With --processors the program runs on so many alone, and with --busy so many loops that do nothing else
run beside it. A SHAPE is the beginning of a line's name; without one all are measured.
"""

import argparse
import os
import random
import subprocess
import sys
from pathlib import Path

sys.path.insert(0, str(Path(__file__).resolve().parent / "soak_parts"))
sys.dont_write_bytecode = True

import networks
import running

LIMIT = 600
# Name, stars, nodes of each, sessions (None: of all acquirers), requests of a session, turns between ticks, whether links are bad. With 256
# sessions a ring may be full. What it loses is answered where clocks tick, and otherwise its session ends without an answer.
SHAPES = (
    ("3 nodes", 1, 3, 4, 5000, 0, False),
    ("4 nodes", 1, 4, None, 6000, 0, False),
    ("4 nodes, ticks", 1, 4, None, 6000, 100, False),
    ("4 nodes, bad links", 1, 4, None, 1000, 20, True),
    ("16 nodes", 2, 8, None, 1000, 0, False),
    ("64 nodes", 8, 8, None, 400, 0, False),
    ("64 nodes, ticks", 8, 8, None, 400, 100, False),
    ("64 nodes, bad links", 8, 8, None, 200, 20, True),
)


def fastest(options, shape, messages):
    _, stars, size, some, _, tick_every, bad = shape
    network = networks.Network(stars, size)
    rng = random.Random(1)
    faults = networks.bad_links(network, rng) if bad else []
    plan = networks.plan(network, rng, 4_000_000_000, tick_every, faults, messages, some)
    data = networks.bundle(network, 40, plan)
    sessions = some or len(network.acquirers())
    processors = None if options.processors is None else sorted(os.sched_getaffinity(0))[: options.processors]
    reports = [
        running.Report(options.program, data, sessions, messages, LIMIT, processors) for _ in range(options.runs)
    ]
    for report in reports:
        if report.linked != "yes":
            raise running.Wrong(f"linked is {report.linked}")
    return sessions, min(reports, key=lambda report: report.seconds)


def measure(options, shape):
    name, messages = shape[0], shape[4]
    _, few = fastest(options, shape, 1)
    sessions, best = fastest(options, shape, messages)
    print(
        f"{name:<20} {sessions:4d} sessions {sessions * messages:7d} requests {best.seconds:7.2f} s"
        f" {best.answers / best.seconds:9.0f} answers/s {best.processor:7.2f} processor s {best.memory >> 20:5d} MiB"
        f" {few.seconds:6.2f} s to begin",
        flush=True,
    )


def main():
    words = argparse.ArgumentParser(description=__doc__, formatter_class=argparse.RawDescriptionHelpFormatter)
    words.add_argument("program", type=lambda word: str(Path(word).resolve()))
    words.add_argument("--runs", type=int, default=3)
    words.add_argument("--processors", type=int)
    words.add_argument("--busy", type=int, default=0)
    words.add_argument("shapes", nargs="*", default=[""])
    options = words.parse_intermixed_args()
    busy = [subprocess.Popen([sys.executable, "-c", "while True: pass"]) for _ in range(options.busy)]
    try:
        for shape in SHAPES:
            if any(shape[0].startswith(word) for word in options.shapes):
                measure(options, shape)
    finally:
        for loop in busy:
            loop.kill()


if __name__ == "__main__":
    main()
