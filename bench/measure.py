"""For the scripts of this folder: one run of the program, and the judgement of what was measured."""

import os
import shutil
import statistics
import subprocess
import sys

TIME = shutil.which("time")
RUNS = 5


def run_once(program, source, replies, args=()):
    """The processor seconds, the peak memory in KiB and the status of one run. What other processes take doesn't count."""
    report = f"{replies}.peak"
    # A child's peak is at least that of the process that starts it, so a small one does where there
    # is one.
    words = [TIME, "-f", "%M", "-o", report] if TIME else []
    with open(source, "rb") as given, open(replies, "wb") as made:
        child = subprocess.Popen([*words, program, *args], stdin=given, stdout=made)
        _, status, usage = os.wait4(child.pid, 0)
    seconds = usage.ru_utime + usage.ru_stime
    child.returncode = os.waitstatus_to_exitcode(status)
    peak = usage.ru_maxrss
    if TIME:
        with open(report, encoding="ascii") as told:
            peak = int(told.read().split()[-1])
    return seconds, peak, child.returncode


def differs(replies, wanted):
    """What is wrong with replies that should be these."""
    with open(replies, encoding="utf-8") as given:
        return None if given.read() == wanted else "another reply"


def checked_run(program, source, replies, fault_in, args=()):
    """The processor seconds and the peak memory in KiB of one run, which ends with status 0 and replies without a fault."""
    seconds, peak, status = run_once(program, source, replies, args)
    fault = f"the program ended with status {status}" if status else fault_in(replies)
    if fault:
        sys.exit(f"FAIL  {source}: {fault}")
    return seconds, peak


def measured(program, room, sizes, write_input, faults_of, rate):
    """Measures each number of lines, prints a row with what `rate` says of it, and gives what `judge` takes.

    `write_input` says how many bytes it wrote. The sizes take turns, and of the seconds the median counts, so that
    neither a fast moment of the machine nor a slow one decides; of the peaks the least does.
    """
    sources = {lines: f"{room}/{lines}.jsonl" for lines in sizes}
    bytes_of = {lines: write_input(sources[lines], lines) for lines in sizes}
    runs = {lines: [] for lines in sizes}
    for _ in range(RUNS):
        for lines in sizes:
            run = checked_run(program, sources[lines], f"{room}/replies", lambda replies: faults_of(replies, lines))
            runs[lines].append(run)
    found = {}
    for lines in sizes:
        size = bytes_of[lines]
        seconds, peak = statistics.median(run[0] for run in runs[lines]), min(run[1] for run in runs[lines])
        told = rate(lines, size, seconds)
        print(f"{lines:>7} lines  {size:>9} bytes  {seconds:8.3f} s  {told:>16}  {peak:>8} KiB")
        found[lines] = (size, seconds, peak)
    return found


def judge(found, growth, memory_per_byte, memory_kib):
    """Prints whether time and memory stay within their limits, and ends with status 0 where they do.

    `found` has, by the number of lines, the bytes that were given, the seconds and the peak memory in
    KiB. A line may take `growth` times as long in the largest as in the smallest.
    """
    small, large = min(found), max(found)
    grown = (found[large][1] / large) / (found[small][1] / small)
    checks = [(grown <= growth, f"time per line grows {grown:.2f} times, at most {growth}")]
    for lines, (size, _, peak) in found.items():
        limit = memory_per_byte * size // 1024 + memory_kib
        checks.append((peak <= limit, f"{peak} KiB at {lines} lines, at most {limit}"))
    for holds, what in checks:
        print(f"{'PASS' if holds else 'FAIL'}  {what}")
    sys.exit(0 if all(holds for holds, _ in checks) else 1)
