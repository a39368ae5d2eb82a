#!/usr/bin/env python3
"""Runs a program five times on a job. Prints the last line of its listing, the least processor time and the peak memory; of the latter
none less than what Python takes itself, some 14 MB, can be seen.
usage: timed.py JOB PROGRAM [WORD..]"""
import resource
import subprocess
import sys

if len(sys.argv) < 3:
    print(__doc__)
    sys.exit(0 if sys.argv[1:] in (["-h"], ["--help"]) else 64)
job, *program = sys.argv[1:]
least, before = float("inf"), 0.0
for _ in range(5):
    with open(job, "rb") as file:
        ended = subprocess.run(program, stdin=file, stdout=subprocess.PIPE, check=False)
    used = resource.getrusage(resource.RUSAGE_CHILDREN)
    spent = used.ru_utime + used.ru_stime
    least = min(least, spent - before)
    before = spent
print(f"{ended.stdout.decode().splitlines()[-1]}: {least:.3f} s, {used.ru_maxrss / 1024:.1f} MB")
