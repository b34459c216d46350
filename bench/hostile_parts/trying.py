"""Parts of the trial: many runs of the program, and what they gave."""

import itertools
import multiprocessing
import time
from pathlib import Path

import answers
import changes
import judging
from running import WORDS, Runner, TooSlow

TOP = Path(__file__).resolve().parents[2]
KEPT = TOP / "target" / "hostile"
# The most seconds that a run on a short input may take, and on one of 16 MiB.
SHORT = 10
LONG = 120

runner = None


def begin_worker(program, seconds):
    global runner
    runner = Runner(program, seconds)


def made_ranks_hold(data, ranks):
    """Ranks that were made must not be what a check of them refuses."""
    if len(data) + len(ranks) + 4 > answers.MOST_BYTES:
        return None
    _, out, _, _ = runner.run(WORDS["check"], answers.parts_of(data)[0] + b"\n%%\n" + ranks)
    return None if not out.startswith((b"refused 1", b"refused 2", b"fault ranks")) else "made ranks are refused"


def tried(case):
    """Runs a case, and answers what went wrong, the status and the seconds."""
    job, data, check = case
    try:
        status, out, err, seconds = runner.run(WORDS[job], data)
        problem = check(job, status, data, out, err)
        if problem is None and job == "make" and status == 0:
            problem = made_ranks_hold(data, out)
    except TooSlow:
        return case, "not ended in time", None, runner.seconds
    return case, problem, status, seconds


class Part:
    """What the runs of one part of the trial gave."""

    def __init__(self, name):
        self.name = name
        self.runs = 0
        self.failures = 0
        self.statuses = {}
        self.slowest = 0.0
        self.start = time.monotonic()

    def add(self, problem, status=None, seconds=0.0, input_of=None, what=""):
        self.runs += 1
        self.statuses[status] = self.statuses.get(status, 0) + 1
        self.slowest = max(self.slowest, seconds)
        if problem is not None:
            self.failures += 1
            where = keep(self, input_of) if input_of is not None else ""
            print(f"FAILED {self.name}: {what} {problem} {where}", flush=True)

    def said(self):
        took = time.monotonic() - self.start
        statuses = ", ".join(f"{self.statuses[status]} with {status}" for status in sorted(s for s in self.statuses if s is not None))
        slowest = f"; slowest {self.slowest:.2f} s" if self.slowest else ""
        print(f"{self.name}: {self.runs} runs, {self.failures} failed, {took:.0f} s{slowest}{'; ' + statuses if statuses else ''}", flush=True)
        return self


def keep(part, data):
    KEPT.mkdir(parents=True, exist_ok=True)
    path = KEPT / f"{part.name.replace(' ', '_')}_{part.failures}"
    path.write_bytes(data)
    return f"(input in {path.relative_to(TOP)})"


def try_inputs(program, name, cases, limit=SHORT, until=None, workers=2):
    """Runs cases, a job, an input and what tests the answer, by two workers, until a time if one is given."""
    part = Part(name)
    with multiprocessing.Pool(workers, begin_worker, (program, limit)) as pool:
        # Long inputs are held only a few at a time, and the time is looked at after each batch.
        batch = 4 if limit == LONG else 400
        cases = iter(cases)
        while until is None or time.monotonic() < until:
            some = list(itertools.islice(cases, batch))
            if not some:
                break
            for case, problem, status, seconds in pool.imap_unordered(tried, some, chunksize=1 if limit == LONG else 50):
                part.add(problem, status, seconds, case[1], case[0])
    return part.said()


def try_system(program, name, trial):
    part = Part(name)
    for what, problem in trial(program):
        part.add(problem, what=what)
    return part.said()


def of_job(job, inputs):
    return ((job, data, judging.problem_of) for data in inputs)


def fronts_and_bytes(data):
    return itertools.chain(changes.fronts(data), changes.each_byte(data))


def tell(parts, more=""):
    """Runs all parts, prints how many runs they had, and gives the exit status."""
    parts = list(parts)
    runs, failures = sum(part.runs for part in parts), sum(part.failures for part in parts)
    print(f"hostile: {runs - failures} passed, {failures} failed{more}")
    return 1 if failures else 0
