#!/usr/bin/env python3
"""Differential runs: the original and the archive on the same generated calls.

    oracle/differential.py                         100,000 cases, seed 1
    oracle/differential.py --seed 2 --cases 5000   others
    oracle/differential.py --case CASE             one case: its text, or a file that has it
    oracle/differential.py --plant NAME            with a fault in the archive's answers (archive --plants names them)

After every twentieth case comes the history of a session that may have a ceiling. These have a report of their own.

Compared are the whole answer, the bytes written, the rest of the output, what is around it, the inputs, and of a
session all its bytes. The first difference that rules.py does not list ends the run, with status 1: the case is made
smaller, and the smallest is printed and kept in target/differential/smallest.txt.
"""
import argparse
import os
import sys
import time

sys.dont_write_bytecode = True
import generate
from calls import FIELDS, Archive, case_text, compared, parse_case, replayed
from cases import Random
from original import ROOT, Original
from rules import CEILING_NONE, MAKINGS, SESSION, Rules, Unlisted, check_rows, nothing_fell
from shrink import smallest

SMALLEST = os.path.join(ROOT, "target", "differential", "smallest.txt")
# From so many cases on, each number that an operation can give has to have come up.
ENOUGH = 100000
# After so many cases comes a history with a ceiling.
EACH = 20
BLOCKS = ("make1a", "make1b", "make2a", "make2b", "read1a", "read2a")
NUMBERS = {
    "derive": "0 1 2 3 4 5 6 7 8 16 17",
    "search": "0 1 17",
    **{name: "0 16 17" for name in (*BLOCKS, "session_keys", "id", "nodes")},
    **{name: "0 13 17" for name in ("check1b", "check2b")},
    **{name: "0 12 16 17" for name in ("seal", "frame", "auth2seal", "send")},
    **{name: "0 10 11 12 13 14 16 17" for name in ("open", "trimmed")},
    "forecast": "0 12 17",
    "auth2open_des": "0 10 12 13 16 17",
    "auth2open_aes": "0 11 12 13 16 17",
    "package": "0 10 12 16 17",
    **{name: "0 1 17" for name in MAKINGS},
    "step": "0 9 17",
    "receive": "0 10 11 12 13 14 15 16 17",
    **{name: "0 17" for name in ("set", "index", "number", "count", "ceiling", "scheme")},
}


class Part:
    """A part of the run: the name of its random streams, its operations, and what came up."""

    def __init__(self, name, operations, bounded):
        self.name, self.bounded, self.fell = name, bounded, nothing_fell()
        # By operation, how often each number was the answer.
        self.seen = {operation: {} for operation in NUMBERS if operation in operations}
        # The cases that are histories of a session, and those of them that begin with a ceiling.
        self.cases = self.histories = self.ceilings = 0

    def count(self, history):
        self.cases += 1
        operation, inputs = history.calls[0][:2]
        self.histories += operation in MAKINGS
        self.ceilings += operation == "new_ceiling" and inputs[-1] < CEILING_NONE
        for call, expected in zip(history.calls, history.expected):
            numbers = self.seen[call.operation]
            numbers[expected.answer.number] = numbers.get(expected.answer.number, 0) + 1

    def total(self):
        return sum(sum(numbers.values()) for numbers in self.seen.values())

    def report(self, last):
        """Says what was compared."""
        print("\n calls  operation      numbers")
        for operation, numbers in self.seen.items():
            counts = " ".join(f"{n}:{numbers[n]}" for n in sorted(numbers))
            print(f"{sum(numbers.values()):6}  {operation:13}  {counts}")
        print(f"{self.total():6}  {last}\n")
        print(" calls  other  departure")
        for name, (calls, other) in self.fell.items():
            if calls:
                print(f"{calls:6} {other:6}  {name}")


class Run:
    def __init__(self, options):
        self.seed, self.cases = options.seed, options.cases
        self.rules, self.archive = Rules(Original()), Archive(options.plant)
        self.plain = Part("differential", set(NUMBERS) - {"new_ceiling", "ceiling"}, False)
        self.bounded = Part("ceiling", {*MAKINGS, *SESSION}, True)

    def each(self):
        """The cases in turn: the part, and the place in it."""
        for index in range(self.cases):
            yield self.plain, index
            if index % EACH == EACH - 1:
                yield self.bounded, index // EACH

    def case(self, part, index):
        """The place and the text of a difference, and the calls; None where there is none."""
        self.rules.fell = part.fell
        case = generate.Case(self.rules, Random(f"{self.seed} {part.name} {index}"), part.bounded)
        try:
            history = generate.build(case)
        except Unlisted as unlisted:
            return len(case.history.calls) - 1, str(unlisted), case.history.calls
        part.count(history)
        found = compared(self.archive, history)
        return found and (*found, history.calls)

    def all(self):
        start = time.monotonic()
        if os.path.exists(SMALLEST):
            os.remove(SMALLEST)
        for part, index in self.each():
            found = self.case(part, index)
            if found:
                print(f"case {index} of the histories with a ceiling differs" if part.bounded else f"case {index} differs")
                self.differs(*found)
            if part is self.plain and index % 20000 == 19999:
                print(f"{index + 1} cases, {time.monotonic() - start:.0f} s", flush=True)
        return self.report()

    def differs(self, at, text, calls):
        print(f"{text}\n{case_text(calls[: at + 1])}\n", flush=True)
        calls, found = smallest(self.archive, self.rules, calls, at)
        lines = [f"# seed {self.seed}; call {found[0] + 1} differs", f"# {found[1]}", case_text(calls)]
        os.makedirs(os.path.dirname(SMALLEST), exist_ok=True)
        with open(SMALLEST, "w") as file:
            file.write("\n".join(lines) + "\n")
        print("the smallest case:", *lines, f"kept in {os.path.relpath(SMALLEST, ROOT)}", sep="\n")
        sys.exit(1)

    def report(self):
        """Says what was compared. Status 1 where a number never came up in a part."""
        plain, bounded, wrong = self.plain, self.bounded, False
        plain.report(f"in all, of {plain.cases} cases; {plain.histories} are histories of a session")
        ceilings = f"{bounded.ceilings} begin with a ceiling below {CEILING_NONE}"
        bounded.report(f"in all, of {bounded.cases} histories that may have a ceiling; {ceilings}")
        print(f"\n{plain.total() + bounded.total()} calls in all")
        for part in (plain, bounded):
            wanted = {(operation, int(n)) for operation in part.seen for n in NUMBERS[operation].split()}
            came = {(operation, n) for operation, numbers in part.seen.items() for n in numbers}
            for operation, n in sorted(came - wanted):
                print(f"{operation} cannot give {n}")
            for operation, n in sorted(wanted - came):
                print(f"{operation} never gave {n}")
            wrong = wrong or came - wanted or self.cases >= ENOUGH and wanted - came
        print("no difference")
        return 1 if wrong else 0


def one_case(run, case):
    """Puts one case again."""
    if os.path.exists(case):
        with open(case) as file:
            case = [line for line in file.read().split("\n") if line and not line.startswith("#")][0]
    calls = parse_case(case)
    found = replayed(run.archive, run.rules, calls)
    print(f"call {found[0] + 1} differs: {found[1]}" if found else "no difference")
    return 1 if found else 0


def main():
    options = argparse.ArgumentParser(description="The original and the archive on the same calls.")
    options.add_argument("--seed", type=int, default=1)
    options.add_argument("--cases", type=int, default=100000)
    options.add_argument("--case", help="one case: its text, or a file that has it")
    options.add_argument("--plant", help="a fault to make in the archive's answers")
    options = options.parse_args()
    assert set(NUMBERS) <= set(FIELDS)
    check_rows()
    print(f"seed {options.seed}, {options.cases} cases", flush=True)
    run = Run(options)
    sys.exit(one_case(run, options.case) if options.case else run.all())


if __name__ == "__main__":
    main()
