"""One run of a program, and what it took."""

import os
import signal
import subprocess
import sys
from collections import namedtuple

# A program is ended that has had so many seconds of the processor.
LIMIT = 600
# One run. It has a small process of its own, since what a process took counts from what its parent had.
ONCE = """
import os, resource, subprocess, sys, time
limit = int(sys.argv[1])
resource.setrlimit(resource.RLIMIT_CORE, (0, 0))
resource.setrlimit(resource.RLIMIT_CPU, (limit, limit + 10))
with open(sys.argv[2], "rb") as given, open(sys.argv[3], "wb") as printed:
    start = time.perf_counter()
    process = subprocess.Popen(sys.argv[4:], stdin=given, stdout=printed)
    _, status, usage = os.wait4(process.pid, 0)
    took = time.perf_counter() - start
print(os.waitstatus_to_exitcode(status), took, usage.ru_utime + usage.ru_stime, usage.ru_maxrss)
"""
# As ./groupdesign runs the program; the other ones get the same.
PAGES = {"GLIBC_TUNABLES": "glibc.malloc.hugetlb=1:glibc.malloc.top_pad=33554432"} | os.environ

# Seconds by the clock and of the processor, and the most memory in MB.
Run = namedtuple("Run", "wall processor memory")


def run_once(command, log, out):
    """A run, or None where it came to the limit."""
    once = [sys.executable, "-c", ONCE, str(LIMIT), log, out, *command]
    told = subprocess.run(once, check=True, stdout=subprocess.PIPE, text=True, env=PAGES).stdout.split()
    status = int(told[0])
    if status == -signal.SIGXCPU:
        return None
    if status != 0:
        sys.exit(f"{command[0]} ended with {status}")
    return Run(float(told[1]), float(told[2]), int(told[3]) / 1024)


def best(runs):
    """The least of each time."""
    walls, processors, memories = zip(*runs)
    return Run(min(walls), min(processors), max(memories))
