#!/usr/bin/env python3
"""Writes crates/replay/data and crates/replay/stdout: what the original answers about sealed frames and the session.

    oracle/make_cases.py            build the oracle, check its stand-ins, write the files
    oracle/make_cases.py --check    compare with the files that are there; status 1 where one differs
    oracle/make_cases.py --seed 2 --out DIR     other random bytes, another folder

The cases are the same in every run with the same seed. Each is put to the original. Where the rules depart from
it, the case has the rules' answer, ends in `departs`, and stands below a comment with the original's own answer,
or one that it cannot be asked. Any other difference from the rules stops the run.

stdout is what crates/replay has to print where every case agrees. Its counts are those of the lines, and its
CMACs are the stand-ins': no run of the program goes into it. RUNS are the checks that the program makes by itself,
counted here from what the rules ask.
"""
import argparse
import os
import subprocess
import sys

sys.dont_write_bytecode = True
import frame_cases
import session_cases
from cases import Cases, files
from original import HERE, ROOT, Original, data

OUT = os.path.join(ROOT, "crates", "replay")
# The runs of the program that have no file, beside the searches.
RUNS = [
    # The making, each response, and the session at the end.
    ("Session: 65,537 responses turned away", 1 + 65537 + 1),
    # The making and six steps; in each scheme the making and ten responses.
    ("Session: number and response steps at their corners", 1 + 6 + 2 * (1 + 10)),
    # Six makings and a step of each; in each scheme the making, two responses with a step after each, three settings
    # with a step and the session after each.
    ("Session: number and response steps under a ceiling", 6 * 2 + 2 * (1 + 2 * 2 + 3 * 2)),
    # The making, each step, and the one that is refused.
    ("Session: 65,535 number steps", 1 + 65535 + 1),
    # Two derivations and their keys, five checks about random 1, five about random 2, eight about two frames; AES has
    # three about session keys. Each scheme by its mark and by mark 0.
    ("Both ends through every call, by mark and scheme", 2 * (3 + 5 + 5 + 8) + 2 * (3 + 5 + 5 + 3 + 8)),
]


def searches(sets):
    """Of each derivation's key list one search, and six more for each entry."""
    lines = [line for cases in sets for own in cases.cases.values() for _, lines in own for line in lines]
    lists = [data(line.split(" ")[2]) for line in lines if line.startswith("derive ")]
    return "Searches of the stored key lists", sum(1 + 6 * (len(keys) // 19) for keys in lists)


def differing(wanted, folder):
    """The files that are not there, or not the same, and those in data that are none of them."""
    for name, made in wanted.items():
        path = os.path.join(folder, name)
        if not os.path.exists(path) or open(path).read() != made:
            yield name
    for name in sorted(os.listdir(os.path.join(folder, "data"))):
        if f"data/{name}" not in wanted:
            yield f"data/{name}"


def main():
    options = argparse.ArgumentParser(description="Writes the original's answers.")
    options.add_argument("--check", action="store_true", help="compare with the files that are there")
    options.add_argument("--seed", type=int, default=1)
    options.add_argument("--out", default=OUT)
    options = options.parse_args()
    subprocess.run([os.path.join(HERE, "check_standins")], check=True)
    original = Original()
    sets = [module.Groups(original, options.seed).all() for module in (frame_cases, session_cases)]
    made = dict(files(original, sets, [searches(sets), *RUNS], options.seed))
    for cases in sets:
        for operation, count in cases.count.items():
            print(f"{count:6}  {operation}")
    size = sum(len(text) for name, text in made.items() if name != "stdout")
    total, departing = (sum(f(cases) for cases in sets) for f in (Cases.total, Cases.departing))
    print(f"{total:6}  in all, {departing} depart; {size} bytes")
    if options.check:
        differ = list(differing(made, options.out))
        for name in differ:
            print(f"{name} differs")
        print("the files differ" if differ else "the files are the same")
        sys.exit(1 if differ else 0)
    os.makedirs(os.path.join(options.out, "data"), exist_ok=True)
    for name, text in made.items():
        with open(os.path.join(options.out, name), "w") as file:
            file.write(text)


if __name__ == "__main__":
    main()
