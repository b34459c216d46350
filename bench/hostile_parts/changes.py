"""Inputs that are changed: fronts, each byte, and random changes."""

import itertools
import random
import re
from pathlib import Path

EXAMPLES = Path(__file__).resolve().parents[2] / "examples"
FIRST = EXAMPLES / "first"
SHARED = EXAMPLES / "shared_limits"
LINE = b"%%\n"

# A request of 83 bytes with 7 elements, as in docs/FORMATS.md.
REQUEST = b"01007220000100008000164111111111111111000000000000001000031409153000000106400001840"
FRAME = len(REQUEST).to_bytes(2, "big") + REQUEST

# Behind the tables and ranks of the shared limits: a script and a plan with each kind of line. A request is answered, and entered again.
SCRIPT = b"""enter A %b
take AH H 1
tick A
date H 0315
host H 1 00
take AH A 1
up AH A
lend A B 4111111111111111 0314 1
down AH A
""" % REQUEST
PLAN = b"""PLAN 1
turns 2000
tick_every 10
host H 1000
lose AH 1
delay AH 2 3
repeat AH 1
lend A B 4111111111111111 0314 1
session 400001
send %b
END
""" % REQUEST

TOKENS = [
    b"%%\n", b"\n", b"\r\n", b" ", b"\t", b"\x00", b"\xff", b"\xef\xbb\xbf", b"\"", b"'''", b"\"\"\"", b"[", b"]", b"[[", b"{", b"}",
    b"=", b".", b"#", b"\\u0000", b"-1", b"0", b"00", b"1e400", b"inf", b"nan", b"true", b"1979-05-27", b"65535", b"65536",
    b"4294967296", b"9223372036854775807", b"9223372036854775808", b"18446744073709551616", b"999999999999", b"1000000000000",
    b"RANKS 1\n", b"END\n", b"PLAN 1\n", b"tick A\n", b"take AH H 1\n", b"up AH A\n", b"date A 9999\n", b"lend A H 4111111111111111 0314 1\n",
    b"host H 4294967295 00\n", b"enter A \n", b"0420", b"0130", b"GRNT", b"GACK",
]


def fronts(data):
    for end in range(len(data)):
        yield data[:end]


def each_byte(data):
    for place, byte in enumerate(data):
        for other in range(256):
            if other != byte:
                yield data[:place] + bytes([other]) + data[place + 1 :]


def some_bytes(data, rng, count):
    """At each place so many other bytes."""
    for place, byte in enumerate(data):
        for other in rng.sample([other for other in range(256) if other != byte], count):
            yield data[:place] + bytes([other]) + data[place + 1 :]


def near_bytes(data):
    """At each place with a digit the next digit, at each with a letter the next letter, and so on: 0 follows 9, and A follows Z."""
    after = bytes.maketrans(b"0123456789ABCDEFGHIJKLMNOPQRSTUVWXYZabcdefghijklmnopqrstuvwxyz", b"1234567890BCDEFGHIJKLMNOPQRSTUVWXYZAbcdefghijklmnopqrstuvwxyza")
    for place, byte in enumerate(data.translate(after)):
        if byte != data[place]:
            yield data[:place] + bytes([byte]) + data[place + 1 :]


def share(inputs, step):
    """One of so many inputs."""
    return itertools.islice(inputs, 0, None, step)


def changed_at(data, others, share=1):
    """At each place, or one in so many, the byte changed to each of the others."""
    for place in range(0, len(data), share):
        for other in others:
            yield data[:place] + bytes([other]) + data[place + 1 :]


def changed_scripts():
    """Each front of the script with each kind of line, and at each place bytes that mean something there."""
    bundle = tables_and_ranks(SHARED) + LINE
    return (bundle + script for script in (*fronts(SCRIPT), SCRIPT, *changed_at(SCRIPT, b"\x00\n %0179AHn\xff")))


def changed_plans(share=1):
    """The same of the plan, or one place in so many, with few turns, so that each run ends soon."""
    bundle = tables_and_ranks(SHARED) + LINE
    plans = (*list(fronts(PLAN))[::share], PLAN, *changed_at(PLAN, b"\n1H", share))
    return (bundle + few_turns(plan) for plan in plans)


def text_of(path):
    return path.read_bytes()


def tables_and_ranks(folder):
    return text_of(folder / "tables.toml") + LINE + text_of(folder / "ranks.txt")


def few_turns(data):
    """The same plan with at most 2,000 turns, so that it ends soon whatever its packets do."""

    def cut(match):
        turns = match.group(2)
        return match.group(1) + (turns if len(turns) < 4 or (len(turns) == 4 and turns <= b"2000") else b"2000")

    return re.sub(rb"(?m)^(turns 0*)([0-9]+)", cut, data)


def short_plan(sends):
    """The plan of examples/repeats with its first messages only, and few turns."""
    lines = text_of(EXAMPLES / "repeats" / "plan.txt").splitlines(keepends=True)
    head = [line for line in lines if not line.startswith((b"send ", b"END"))]
    sent = [line for line in lines if line.startswith(b"send ")][:sends]
    return few_turns(b"".join([*head, *sent, b"END\n"]))


def example_inputs():
    """Pairs of a job and an input, of all examples that are printed."""
    inputs = []
    for folder in sorted(path.parent for path in EXAMPLES.glob("*/printed.txt")):
        bundle = tables_and_ranks(folder)
        inputs.append(("check", bundle))
        inputs.append(("make", text_of(folder / "tables.toml")))
        if (folder / "script.txt").exists():
            inputs.append(("replay", bundle + LINE + text_of(folder / "script.txt")))
        else:
            plan = b"".join(text_of(folder / "plan.txt").splitlines(keepends=True)[:12])
            inputs.append(("run", bundle + LINE + few_turns(plan) + b"END\n"))
        messages = messages_of(folder)
        inputs.append(("decode", b"".join(message + b"\n" for message in messages)))
        inputs.append(("frames", b"".join(len(message).to_bytes(2, "big") + message for message in messages)))
    return inputs


def messages_of(folder):
    """The messages that an example prints, or the request."""
    printed = text_of(folder / "printed.txt")
    found = re.findall(rb"(?m)^  (?:put \w+ \d+|answer|ask \d+|post) (.*)$", printed)
    return found[:4] or [REQUEST]


def change_bytes(rng, data):
    changed = bytearray(data)
    for _ in range(rng.randrange(1, 5)):
        changed[rng.randrange(len(changed))] = rng.randrange(256)
    return bytes(changed)


def insert_token(rng, data):
    place = rng.randrange(len(data) + 1)
    return data[:place] + rng.choice(TOKENS) + data[place:]


def drop_piece(rng, data):
    begin = rng.randrange(len(data))
    return data[:begin] + data[begin + rng.randrange(1, 40) :]


def repeat_piece(rng, data):
    begin = rng.randrange(len(data))
    piece = data[begin : begin + rng.randrange(1, 200)]
    return data[:begin] + piece * rng.choice((2, 3, 10, 300)) + data[begin:]


def move_line(rng, data):
    lines = data.splitlines(keepends=True)
    line = lines.pop(rng.randrange(len(lines)))
    lines.insert(rng.randrange(len(lines) + 1), line)
    return b"".join(lines)


def double_line(rng, data):
    lines = data.splitlines(keepends=True)
    lines.insert(rng.randrange(len(lines) + 1), rng.choice(lines))
    return b"".join(lines)


def other_number(rng, data):
    """A number in place of one of the input."""
    found = list(re.finditer(rb"[0-9]+", data))
    if not found:
        return data
    match = rng.choice(found)
    number = rng.choice([token for token in TOKENS if token.isdigit()] + [b"%d" % rng.randrange(100)])
    return data[: match.start()] + number + data[match.end() :]


def other_word(rng, data):
    """A word of the input in place of another."""
    found = list(re.finditer(rb"[0-9A-Za-z_]+", data))
    if not found:
        return data
    match = rng.choice(found)
    return data[: match.start()] + rng.choice(found).group() + data[match.end() :]


def splice(rng, data):
    """A front of the input, and the end of another example's."""
    other = rng.choice(INPUTS)[1]
    return data[: rng.randrange(len(data) + 1)] + other[rng.randrange(len(other)) :]


CHANGES = [change_bytes, insert_token, drop_piece, repeat_piece, move_line, double_line, other_number, other_word, splice]
INPUTS = example_inputs()


def random_input(rng):
    """A job, and an input of an example after one to four changes."""
    job, data = rng.choice(INPUTS)
    for _ in range(rng.randrange(1, 5)):
        if data:
            data = rng.choice(CHANGES)(rng, data)
    return job, few_turns(data) if job == "run" else data


def random_inputs(seed):
    rng = random.Random(seed)
    while True:
        yield random_input(rng)
