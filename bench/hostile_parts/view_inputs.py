"""Hostile inputs of network_view."""

import itertools
import random

import answers
import changes
import judging
import system
from running import VIEW

MOST = answers.MOST_BYTES
OF_BUNDLES = [job for job in VIEW if job != "trace"]
TRACED = changes.tables_and_ranks(changes.FIRST) + changes.LINE
SCRIPT_AND_TRACE = changes.LINE.join(changes.text_of(changes.FIRST / name) for name in ("script.txt", "printed.txt"))


def changed_bundles(share, count):
    """For each job but trace: one of so many fronts of a bundle, at each place so many other bytes, and at each digit and letter another."""
    bundle = changes.tables_and_ranks(changes.SHARED)
    for number, job in enumerate(OF_BUNDLES):
        rng = random.Random(number)
        fronts = itertools.islice(changes.fronts(bundle), number % share, None, share)
        for data in itertools.chain(fronts, changes.some_bytes(bundle, rng, count), changes.near_bytes(bundle)):
            yield job, data, judging.problem_of


def changed_traces(share, count):
    """The same of a script and its printed trace, behind tables and ranks."""
    rng = random.Random(1)
    fronts = itertools.islice(changes.fronts(SCRIPT_AND_TRACE), 0, None, share)
    others = itertools.chain(fronts, changes.some_bytes(SCRIPT_AND_TRACE, rng, count), changes.near_bytes(SCRIPT_AND_TRACE))
    for data in others:
        yield "trace", TRACED + data, judging.problem_of


def is_whole(job, status, data, out, err):
    """An input of the most bytes is answered with status 0, and one that is longer with its fault."""
    problem = judging.problem_of(job, status, data, out, err)
    return problem if problem or len(data) > MOST or status == 0 else f"status {status}: {out[:60]}"


def longest():
    """The longest inputs that are read, and those of a byte more: tables with a long comment."""
    for size in (MOST, MOST + 1):
        for job in OF_BUNDLES:
            yield job, system.long_bundle(size), is_whole
        end = changes.LINE + b"1 A\n"
        yield "trace", system.long_bundle(size - len(end)) + end, is_whole


def long_table(job, status, data, out, err):
    """Of a long table only the status, its beginning and its end are looked at."""
    if len(out) <= 1 << 20:
        return judging.problem_of(job, status, data, out, err)
    return None if (status, err) == (0, b"") and out.startswith(b"line ") and out.endswith(b"\n") else f"status {status}: {out[:60]}"


def long_cases(seed):
    """Pieces that fill the longest input and one of a byte more, and traces of very many lines."""
    noise = random.Random(seed).randbytes(MOST + 1)
    for size in (MOST, MOST + 1):
        for piece in (b"\x00", b"[", b"%%\n", b"\r\n", b"[[node]]\n", noise):
            for job in ("card", "refusal_objects", "graph", "trace"):
                yield job, (piece * (size // len(piece) + 1))[:size], judging.problem_of
    answer = b"  answer 01100000000002000000Z9\n"
    for line in (b"1 A\n", b"1 A\n" + answer, b"1 A\n  put AH 1 GACK000000010010000000001\n"):
        yield "trace", TRACED + line * ((MOST - len(TRACED)) // len(line)), long_table
    script = b"tick A\n" * 500000
    yield "trace", TRACED + script + changes.LINE + b"".join(b"%d A\n" % number for number in range(1, 500001)), long_table


def random_inputs(seed):
    """Random changes of the bundles and the traces of all examples."""
    rng = random.Random(seed)
    folders = sorted(path.parent for path in changes.EXAMPLES.glob("*/printed.txt"))
    while True:
        folder, job = rng.choice(folders), rng.choice(list(VIEW))
        data = changes.tables_and_ranks(folder)
        if job == "trace":
            names = [name for name in ("script.txt", "printed.txt") if (folder / name).exists()]
            data = changes.LINE.join([data, *(changes.text_of(folder / name) for name in names)])
        for _ in range(rng.randrange(1, 5)):
            data = rng.choice(changes.CHANGES)(rng, data) if data else data
        yield job, data, judging.problem_of
