#!/usr/bin/env python3
"""The test of the differential runs: do they notice?

1. Each fault of plants.c, made in the archive's answers: the run ends with a difference, its smallest case differs
   again when it is put again, and does not without the fault.
2. Each departure of rules.py left out: the run ends with a difference.

Prints a line for each; status 1 where one is not noticed.
"""
import argparse
import os
import subprocess
import sys

sys.dont_write_bytecode = True
import rules
from differential import SMALLEST, Run
from original import HERE

CASES = 30000
missed = 0


def say(noticed, what):
    global missed
    missed += not noticed
    print(f"{'noticed' if noticed else 'MISSED '}  {what}", flush=True)


def output(*command):
    return subprocess.run(command, check=True, stdout=subprocess.PIPE, text=True).stdout


def status(*arguments):
    return subprocess.run([os.path.join(HERE, "differential.py"), *arguments], stdout=subprocess.DEVNULL).returncode


def planted(line):
    """A fault: noticed, and its smallest case put again with it and without it."""
    name, what = line.split(" ", 1)
    noticed = status("--cases", str(CASES), "--plant", name) == 1 and os.path.exists(SMALLEST)
    again = noticed and status("--case", SMALLEST, "--plant", name) == 1 and status("--case", SMALLEST) == 0
    say(again, what)


def left_out(departure):
    """A departure that the table does not have."""
    at = rules.DEPARTURES.index(departure)
    del rules.DEPARTURES[at]
    run = Run(argparse.Namespace(seed=1, cases=CASES, plant=None))
    noticed = any(run.case(*which) for which in run.each())
    rules.DEPARTURES.insert(at, departure)
    say(noticed, f"left out of the departures: {departure.name}")


def main():
    program = output(os.path.join(HERE, "build_archive")).strip()
    for line in output(program, "--plants").splitlines():
        planted(line)
    if os.path.exists(SMALLEST):
        os.remove(SMALLEST)
    for departure in list(rules.DEPARTURES):
        left_out(departure)
    print(f"{missed} missed")
    sys.exit(1 if missed else 0)


main()
