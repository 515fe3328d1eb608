"""How the bench measures: times of whole runs, and the most memory of a process."""
import os
import subprocess
import sys
import time


def timed(what, runs):
    """The time of one round of runs, in seconds, and the peak memory of a process, in bytes (never below Python's own, some 14 MB).

    A run has its words, the file that it reads on standard input, and the one that it writes on standard output.
    """
    peak = 0
    started = time.monotonic()
    for words, source, target in runs:
        with open(source, "rb") as taken, open(target, "wb") as made:
            process = subprocess.Popen(words, stdin=taken, stdout=made)
            _, status, usage = os.wait4(process.pid, 0)
        if status != 0:
            sys.exit(f"{what} failed")
        peak = max(peak, usage.ru_maxrss * 1024)
    return time.monotonic() - started, peak


def best(what, runs):
    """The least time of five rounds of runs, in seconds, and the peak memory, in bytes."""
    rounds = [timed(what, runs) for _ in range(5)]
    return min(took for took, _ in rounds), max(peak for _, peak in rounds)


def in_turns(contenders, rounds):
    """The times, in seconds, and the peak memory, in bytes, of each contender's runs by its name; the contenders run in turns."""
    times, peaks = {name: [] for name in contenders}, {name: 0 for name in contenders}
    for _ in range(rounds):
        for name, runs in contenders.items():
            took, peak = timed(name, runs)
            times[name].append(took)
            peaks[name] = max(peaks[name], peak)
    return times, peaks
