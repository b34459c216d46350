"""Runs programs, and says how long they took and how much memory they had."""
import subprocess
import time


def most_memory(process):
    """The most memory that a running process has had, in bytes, and 0 once it has ended."""
    try:
        with open(f"/proc/{process.pid}/status", encoding="ascii") as file:
            peaks = [line.split()[1] for line in file if line.startswith("VmHWM")]
    except OSError:
        peaks = []
    return int(peaks[0]) * 1024 if peaks else 0


def measured(command, path, pause=0.001):
    """Seconds, the most memory and the status of a run whose input is a file, and whose memory is read again after each pause.

    The kernel counts the memory of whoever starts a process as the process's too, until it runs its own program, so what it says at the
    end would be that of the script for short inputs."""
    with open(path, "rb") as given:
        began = time.monotonic()
        process = subprocess.Popen(command, stdin=given, stdout=subprocess.DEVNULL)
        memory = 0
        while process.poll() is None:
            memory = max(memory, most_memory(process))
            time.sleep(pause)
        seconds = time.monotonic() - began
    return seconds, memory, process.returncode


def best(command, path, runs):
    """The least seconds and the most memory of some runs, each of which has to end with status 0."""
    done = [measured(command, path) for _ in range(runs)]
    if any(status != 0 for _, _, status in done):
        raise SystemExit(f"{command} of {path}: status {[status for _, _, status in done]}")
    return min(seconds for seconds, _, _ in done), max(memory for _, memory, _ in done)
