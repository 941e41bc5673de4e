#!/usr/bin/env python3
"""Runs commands and tells their processor seconds and peak memory; prints ratios against a baseline."""
import os
import statistics
import subprocess
import sys


def run(command, stdin=None, stdout=subprocess.DEVNULL):
    """Runs a command to its end: (status, processor seconds, peak memory in KiB)."""
    source = open(stdin, "rb") if stdin else subprocess.DEVNULL
    child = subprocess.Popen(command, stdin=source, stdout=stdout)
    _, status, usage = os.wait4(child.pid, 0)
    child.returncode = os.waitstatus_to_exitcode(status)
    return child.returncode, usage.ru_utime + usage.ru_stime, usage.ru_maxrss


def best(command, times=3, **how):
    """The least processor time and the least peak memory of a few runs."""
    runs = [run(command, **how) for _ in range(times)]
    for status, _, _ in runs:
        if status != 0:
            sys.exit(f"{command}: ended with {status}")
    return min(r[1] for r in runs), min(r[2] for r in runs)


def compare(title, ours, baseline, goal, times=5, **how):
    """Runs both by turns and prints the ratio of the medians of processor time, and of the least peak memory."""
    pairs = [(run(ours, **how), run(baseline, **how)) for _ in range(times)]
    for ours_run, baseline_run in pairs:
        if ours_run[0] != 0 or baseline_run[0] != 0:
            sys.exit(f"{title}: ended with {ours_run[0]} and {baseline_run[0]}")
    our_time, base_time = (statistics.median(pair[side][1] for pair in pairs) for side in (0, 1))
    our_memory, base_memory = (min(pair[side][2] for pair in pairs) for side in (0, 1))
    time = our_time / max(base_time, 0.001)
    memory = our_memory / base_memory
    print(f"{title}: time {time:.2f} (goal {goal}), peak memory {memory:.2f}", flush=True)
    return time, memory
