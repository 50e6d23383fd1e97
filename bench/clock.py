#!/usr/bin/env python3
"""Measures two programs on one script.

clock.py PLAYS SCRIPT FIRST SECOND    plays SCRIPT to each program PLAYS times and prints the seconds of both

The programs take turns, so that what else the machine does burdens both alike. The seconds are processor time, user and
system together, starting the program included.
"""

import resource
import subprocess
import sys


def seconds(program, script):
    before = resource.getrusage(resource.RUSAGE_CHILDREN)
    with open(script, "rb") as file:
        subprocess.run([program], stdin=file, stdout=subprocess.DEVNULL, check=True)
    after = resource.getrusage(resource.RUSAGE_CHILDREN)
    return after.ru_utime + after.ru_stime - before.ru_utime - before.ru_stime


def main():
    plays, script, programs = int(sys.argv[1]), sys.argv[2], sys.argv[3:5]
    sums = [0.0, 0.0]
    for _ in range(plays):
        for which, program in enumerate(programs):
            sums[which] += seconds(program, script)
    print(f"{sums[0]:.4f} {sums[1]:.4f}")


if __name__ == "__main__":
    main()
