"""Runs of a program on a plan, and what their reports say."""

import json
import os
import subprocess
import sys
import time
from collections import Counter


class Wrong(Exception):
    """A run that did not go as it has to."""


RUN = """
import resource, subprocess, sys
status = subprocess.run([sys.argv[1], 'run']).returncode
usage = resource.getrusage(resource.RUSAGE_CHILDREN)
sys.stderr.write('%f %d %d' % (usage.ru_utime + usage.ru_stime, usage.ru_maxrss, status))
"""


class Report:
    def __init__(self, program, data, sessions, messages, limit, processors=None):
        """A run on all processors of the machine, or on these alone."""
        bound = None if processors is None else lambda: os.sched_setaffinity(0, processors)
        began = time.monotonic()
        try:
            ran = subprocess.run(
                [sys.executable, "-c", RUN, program],
                input=data.encode("ascii"),
                capture_output=True,
                timeout=limit,
                check=True,
                preexec_fn=bound,
            )
        except subprocess.TimeoutExpired:
            raise Wrong(f"no end within {limit} seconds") from None
        self.seconds = time.monotonic() - began
        processor, kilobytes, status = ran.stderr.split()[-3:]
        self.processor, self.memory = float(processor), int(kilobytes) * 1024
        if int(status) != 0:
            raise Wrong(f"status {int(status)}: {ran.stdout[:200]!r}")
        self.read(ran.stdout, sessions, messages)

    def read(self, out, sessions, messages):
        try:
            report = json.loads(out)
        except ValueError:
            raise Wrong(f"no report: {out[:200]!r}") from None
        if sorted(report) != ["answers", "linked", "own", "posts"]:
            raise Wrong(f"another report: {sorted(report)}")
        self.linked, self.own, self.posts = report["linked"], report["own"], report["posts"]
        answers = report["answers"]
        if len(answers) != sessions or any(len(session) != messages for session in answers):
            raise Wrong("an answer too many or too few")
        self.codes = Counter(answer for session in answers for answer in session)
        self.answers = sum(count for code, count in self.codes.items() if len(code) == 2)
