"""What may be answered, by either program."""

import answers
import view_answers
from running import VIEW


def problem_of(job, status, data, out, err):
    """What is wrong with an answer, or nothing."""
    return (view_answers if job in VIEW else answers).problem_of(job, status, data, out, err)


def names_memory(job, out):
    """Whether the output tells that memory was refused."""
    return (view_answers if job in VIEW else answers).names_memory(out)
