"""What the program may answer: each line that docs/FORMATS.md lists, and the status that goes with it."""

import json
import re

NAME = rb"[0-9A-Za-z]{1,8}"
NUMBER = rb"(?:0|[1-9][0-9]*)"
PREFIX = rb"[0-9]{1,12}"
TEXT = rb"[ -~]*"
TABLE = rb"(?:node|link|acquirer|issuer|route|stand_in)"
PLACE = rb"(?:(?:network|root|" + TABLE + rb") " + NUMBER + rb" [a-z_]+)"

# The numbers of what is wrong with a message, with the element where there is one.
MESSAGE_FAULT_NUMBER = rb"(?:1|2|3|[456] [1-9][0-9]{0,2}|7)"
MESSAGE_FAULT = (
    rb"(?:1 short|2 type|3 bit map|4 element [1-9][0-9]{0,2}|5 length [1-9][0-9]{0,2}|6 character [1-9][0-9]{0,2}|7 trailing)"
)

FAULTS = {
    "bundle": rb"1 parts|2 too long|3 read|4 memory",
    "tables": rb"1 not toml|2 missing field: " + PLACE + rb"|3 bad value: " + PLACE + rb"|4 unknown name: " + PLACE
    + rb"|5 twice: " + PLACE + rb"|6 too many: " + TABLE + rb"|7 not at link: " + PLACE + rb"|8 memory",
    "ranks": rb"1 header|2 line " + NUMBER + rb"|3 twice " + NUMBER + rb"|4 no end|5 after end|6 memory",
    "check": rb"9 memory",
    "script": rb"1 line " + NUMBER + rb"|2 no such packet " + NUMBER + rb"|3 step " + NUMBER
    + rb" (?:1 " + MESSAGE_FAULT_NUMBER + rb"|2|3 [1-9][0-9]{0,2}|4|5|6|7|9|10)|4 memory",
    "plan": rb"1 line " + NUMBER + rb"|2 acquirer " + NUMBER + rb"|3 no end|4 memory",
    "run": rb"1 threads|2 memory",
}

REFUSED = (
    rb"refused (?:1 no rank: node " + NAME + rb" prefix " + PREFIX
    + rb"|2 not less: node " + NAME + rb" prefix " + PREFIX + rb" link " + NAME
    + rb"|3 not named: node " + NAME + rb" prefix " + PREFIX
    + rb"|4 over ceiling: prefix " + PREFIX + rb" sum " + NUMBER + rb" ceiling " + NUMBER
    + rb"|5 no issuer: node " + NAME + rb" prefix " + PREFIX
    + rb"|6 acquirer twice: [0-9]{11}|7 node id twice: [0-9]{11}|8 timer too long: link " + NAME + rb")\n"
)

RANKS = rb"RANKS 1\n(?:" + NAME + rb" " + PREFIX + rb" [0-9]{1,5}\n)*END\n"
CIRCLE = rb"circle " + PREFIX + rb"(?: " + NAME + rb"){2,}\n"

STEP = re.compile(
    rb"(" + NUMBER + rb") " + NAME + rb"\n((?:  (?:put " + NAME + rb" [1-9][0-9]*|answer|ask [1-9][0-9]*|post) " + TEXT + rb"\n)*)"
)
MESSAGE = re.compile(
    rb"message (" + NUMBER + rb")\n(?:type 0[14][0-3][01]\n((?:[1-9][0-9]{0,2} " + TEXT + rb"\n)*)|(fault message "
    + MESSAGE_FAULT + rb")\n)"
)
BARE_FAULT = re.compile(rb"fault message " + MESSAGE_FAULT + rb"\n")

# How many parts the input of a job has; that of frames has none.
COUNTS = {"check": (2,), "make": (1,), "replay": (3,), "run": (3,), "decode": (1,), "frames": None}
PARTS_OF_JOB = {
    "check": ("bundle", "tables", "ranks", "check"),
    "make": ("bundle", "tables"),
    "replay": ("bundle", "tables", "ranks", "check", "script"),
    "run": ("bundle", "tables", "ranks", "check", "plan", "run"),
    "decode": ("bundle",),
    "frames": ("bundle",),
}


def fault_of(parts):
    choices = rb"|".join(part.encode() + rb" (?:" + FAULTS[part] + rb")" for part in parts)
    return re.compile(rb"fault (?:" + choices + rb")\n")


FAULT_OF_JOB = {job: fault_of(parts) for job, parts in PARTS_OF_JOB.items()}
REFUSED = re.compile(REFUSED)
MADE = re.compile(RANKS)
NO_RANKS = re.compile(CIRCLE + rb"|gave up\n")

MOST_BYTES = 16777216


def parts_of(data):
    """The parts of an input: one carriage return before each line feed is dropped, and lines of `%%` part them."""
    lines = data.split(b"\n")
    last = lines.pop()
    lines = [line[:-1] if line.endswith(b"\r") else line for line in lines]
    parts, part = [], []
    for line in lines:
        if line == b"%%":
            parts.append(b"\n".join(part))
            part = []
        else:
            part.append(line)
    if last == b"%%":
        return [*parts, b"\n".join(part), b""]
    return [*parts, b"\n".join([*part, last])]


def lines_in(text):
    """How many lines a part has: what stands behind its last line feed counts where it isn't empty."""
    return text.count(b"\n") + (0 if text == b"" or text.endswith(b"\n") else 1)


def counted(pattern, out):
    """The matches that make up all of the output, numbered from 1; nothing where they don't."""
    found, place = [], 0
    while place < len(out):
        match = pattern.match(out, place)
        if match is None or int(match.group(1)) != len(found) + 1:
            return None
        found.append(match)
        place = match.end()
    return found


def problem_of_trace(data, out):
    steps = counted(STEP, out)
    if steps is None:
        return "no trace"
    wanted = lines_in(parts_of(data)[-1])
    if len(steps) != wanted:
        return f"{len(steps)} steps of {wanted} lines"
    return None


def problem_of_report(data, out):
    try:
        report = json.loads(out)
    except ValueError:
        return "no JSON"
    if list(report) != ["answers", "linked", "own", "posts"]:
        return "other keys"
    if report["linked"] != "yes":
        return "traces that are no run"
    plan = parts_of(data)[-1].split(b"\n")
    sessions = [line for line in plan if line.startswith(b"session ")]
    sends = [line for line in plan if line.startswith(b"send ")]
    if len(report["answers"]) != len(sessions):
        return "another number of sessions"
    answers = [answer for session in report["answers"] for answer in session]
    if len(answers) != len(sends):
        return "another number of answers"
    for answer in answers:
        if not re.fullmatch(r"[ -~]{2}|none|refused ([1-9]|10)", answer):
            return f"an answer {answer}"
    return None


def problem_of_messages(status, data, out, framed):
    """Blocks of messages, as many as lines; of frames the last may be a fault without a block."""
    blocks = counted(MESSAGE, out)
    if blocks is None:
        return "no blocks of messages"
    if not framed:
        wanted = lines_in(parts_of(data)[0])
        if len(blocks) != wanted:
            return f"{len(blocks)} blocks of {wanted} lines"
    faults = any(block.group(3) for block in blocks)
    if status != (2 if faults else 0):
        return f"status {status}"
    for block in blocks:
        numbers = [int(line.split(b" ")[0]) for line in (block.group(2) or b"").splitlines()]
        if numbers != sorted(set(numbers)):
            return "elements in another order"
    return None


def problem_of(job, status, data, out, err):
    """What is wrong with an answer, or nothing."""
    if status not in (0, 1, 2):
        return f"status {status}"
    if err:
        return "words on standard error"
    if FAULT_OF_JOB[job].fullmatch(out):
        return problem_of_fault(COUNTS[job], status, data, out)
    if len(data) > MOST_BYTES:
        return "an input that is too long was taken"
    if job in ("decode", "frames"):
        return problem_of_messages(status, data, out, job == "frames")
    if len(parts_of(data)) not in COUNTS[job]:
        return "another number of parts was taken"
    if status == 2:
        return "status 2 and no fault"
    if status == 1:
        refused = NO_RANKS if job == "make" else REFUSED
        return None if refused.fullmatch(out) else "status 1 and no refusal"
    if job == "check":
        return None if out == b"accepted\n" else "status 0 and no verdict"
    if job == "make":
        return None if MADE.fullmatch(out) else "status 0 and no ranks"
    return problem_of_trace(data, out) if job == "replay" else problem_of_report(data, out)


def problem_of_fault(counts, status, data, out):
    """What is wrong with a fault of an input that has to have one of these numbers of parts."""
    if status != 2:
        return f"a fault with status {status}"
    if b"memory" in out or b"threads" in out or b"bundle 3" in out:
        return "a fault of the system"
    is_long = len(data) > MOST_BYTES
    if (out == b"fault bundle 2 too long\n") != is_long:
        return "a wrong length"
    if not is_long and counts and (out == b"fault bundle 1 parts\n") != (len(parts_of(data)) not in counts):
        return "a wrong number of parts"
    return None


def names_memory(out):
    """Whether the output ends in a line that names memory, which only blocks of messages may precede."""
    last = out[out.rfind(b"\n", 0, len(out) - 1) + 1 :]
    return re.fullmatch(rb"fault (?:bundle 4|tables 8|ranks 6|check 9|script 4|plan 4|run 2) memory\n", last) is not None
