#!/usr/bin/env python3
"""Tests the gate's own tools on what rt is known to print, and .ci/run with stand-ins for its steps. It proves nothing, and takes a second.

Status 1 where tools/refusals lets an edit pass that was refused for another reason than a fact, where tools/gate_report counts wrongly, or
where .ci/run ends like a pass after a step that failed.
"""
import os
import shutil
import subprocess
import sys
import tempfile

TOP = os.path.normpath(os.path.join(os.path.dirname(os.path.abspath(__file__)), ".."))
SAID = "rt: must-fail small/%s.edit: "
REFUSED = "refused, as it must be: "
UNPROVED = REFUSED + "note: src/lib.rt:15:1: it is not proved that what the function ensures holds when it returns "
GONE = "refused, as it must be (only because a proof file names what the edit took away, so this says little of the contract: change a value and keep the names): "
LIMIT = "refused, as it must be (only by a limit of the prover, which gave no verdict, so this says less of the contract: choose a change that it refuses sooner): "
WALKED = "use mathlib.Core.Path.{refl}\nuse prog.Wp.{Heap, Calls, WpFn}\nuse denote.Triple.Walked.{walk_meets}\n\nwalk : ℕ\nwalk = 0\n"

# the name of an edit; is it refused at a fact?; a proof file of its own; what rt says of it
EDITS = [
    ("another_value", True, None,
     REFUSED + "./proofs/echo/Answers.antt:7:13: error: `returns`: as printed, the two types differ only where one has `echoed c.args.x` (expected)"),
    ("no_search", True, None,
     REFUSED + "./proofs/echo/Answers.antt:11:13: error: `returns`: `grind`: the goal does not follow. The hypotheses hold, and the goal fails at"),
    ("made_by_itself", True, None, UNPROVED + "(`returns`)"),
    ("renamed_goal", False, None, UNPROVED + "(`returns-then-x-gt16`)"),
    ("unsolved", False, None, REFUSED + "./proofs/echo/Answers.antt:7:13: error: `returns`: replace that `_` with the term it stands for"),
    ("a_law", True, None, REFUSED + "proofs/Laws.antt:4:1: error: `law`: `omega`: no proof was found."),
    ("no_goal", False, None,
     GONE + "./proofs/echo/Answers.antt:6:16: error: `sum-requires`: `goal.sum-requires`: module `Rattle.small.proofs.echo.Goals` has no"),
    ("no_field", False, None,
     GONE + "./proofs/echo/Answers.antt:10:15: error: `returns`: record `Rattle.small.proofs.echo.Goals.Then1` has no field `sum`"),
    ("no_step", False, None,
     REFUSED + "./proofs/echo/Invariants.antt:10:15: error: `invariant-loop-i`: record `Rattle.small.proofs.echo.Given.Loop` has no field `sum`"),
    ("other_goal", False, None,
     REFUSED + "./proofs/echo/Answers.antt:13:24: error: `returns`: expected type `goal.returns`, but this has type `goal.returns-2 → ⊥`"),
    ("walked", False, WALKED,
     REFUSED + "./proofs/walked/Proof.antt:91:30: error: `walk`: as printed, the two types first differ where one has `mir.Syntax.int w8 3`"),
    ("no_definition", False, None,
     REFUSED + "./specs/First.antt:5:12: error: `echoed`: `echoed` refers to a member of its own declaration group here"),
    ("no_contract", False, None, REFUSED + "src/lib.rt:8:26: error: `ensures-1`: the two types are `ℕ` (expected) and `ℕ → ℕ` (found)"),
    ("no_place", False, None, "refused, as it must be"),
    ("at_a_limit", False, None, LIMIT + "./proofs/echo/Answers.antt:7:13: error: `returns`: antt ran out of stack"),
    ("no_text", False, None, "BAD EDIT: an 'old:' text is in src/lib.rt 0 times, and not once"),
    ("killed", False, None, "NOT TRIED: its check was killed, most likely for memory, so nothing is known of it: run this again"),
    ("same", False, None, "NOT REFUSED: the crate is still proved with this edit (one that means the same as before cannot be refused: remove it)"),
    ("not_told_of", False, None, None),
]
# the goal that the edit renamed has an answer under its old name
RENAMED = ("./proofs/echo/Answers.antt:6:27: error: `returns-then-x-gt15`: `goal.returns-then-x-gt15`: module `Rattle.small.proofs.echo.Goals` has no `returns-then-x-gt15`\n"
           "note: src/lib.rt:15:1: it is not proved that what the function ensures holds when it returns (`returns-then-x-gt16`)\n")
# is it refused at a fact?; what the prover says of an edit in full: the first error counts, and a note only where there is none
LOGS = [
    (True, "fn small::echo: proved\nnote: ./src/lib.rt:15:1: it is not proved that the sum fits its type\nlogic=not-proved\n"),
    (True, "note: src/lib.rt:15:1: it is not proved that the sum fits\n./proofs/echo/Answers.antt:7:13: error: `returns`: `omega`: no proof was found.\n"),
    (False, "./proofs/sum/Invariants.antt:4:31: error: `invariant-loop-i`: module `Rattle.small.proofs.sum.Given` has no `invariant-loop-i` that can be named\n"
            "note: src/lib.rt:36:9: it is not proved that the sum fits its type\n"),
    (False, "fn small::echo: no proof: expected `+echo_spec`, the one proof of its cycle of calls\nlogic=not-proved\n"),
]

LOG = """0 rt: base is kept: an earlier run on this machine proved the same files over the same libraries
74 == small
74 struct small::Columns: proved
74 fn small::echo: proved
74 logic=proved functions=96 sum=097e4c862dff5811 native=nat,char,string
74 rt: small proved
90 rt: small: trying its must-fail edits (2)
132 fn large::echo: proved
132 logic=proved functions=66 sum=097e4c862dff5811 native=nat,char,string
132 rt: large proved
140 rt: must-fail small/one.edit: refused, as it must be: ./proofs/echo/Answers.antt:10:13: error: `returns`: no proof
141 rt: ok; handles allowed: none; must-fail edits: 2 refused; every proof and must-fail edit was done in this run
141 4 passed, 0 failed
"""
CRATES = "# name: what it depends on\nsmall: base\nlarge staticlib: small base\nbase:\n"
TABLE = """crate            functions   seconds   edits   edits x seconds
base                            kept       0
small                   96        74       2               148
large                   66        58       0                 0
all                    162       132       2
edits x seconds: 148 (budget 2250)
"""

wrong = []


def write(path, what, mode=0o644):
    os.makedirs(os.path.dirname(path), exist_ok=True)
    with open(path, "w", encoding="utf-8") as f:
        f.write(what)
    os.chmod(path, mode)


def run(words, folder, **more):
    done = subprocess.run(words, cwd=folder, env=dict(os.environ, **more), capture_output=True, text=True)
    return done.returncode, done.stdout


def refusals(top):
    """Each edit by itself: a status of 1, and its name, exactly if it is not refused at a fact."""
    tool = [sys.executable, os.path.join(TOP, "tools", "refusals")]
    for name, fact, proof, said in EDITS:
        folder = os.path.join(top, name)
        write(os.path.join(folder, "crates", "small", "must-fail", name + ".edit"), "# a value\nfile: src/lib.rt\nold:     x + 5\nnew:     x + 6\n")
        write(os.path.join(folder, "crates", "small", "src", "lib.rt"), "    x + 5\n")
        write(os.path.join(folder, "crates.txt"), "small:\n")
        # what stands for rt, where the edit is tried once more
        write(os.path.join(folder, "bin", "rt"), "#!/bin/sh\ncat \"$LOG\"\nexit 1\n", 0o755)
        write(os.path.join(folder, "whole"), RENAMED if name == "renamed_goal" else (said or "").replace(REFUSED, "") + "\n")
        if proof:
            write(os.path.join(folder, "crates", "small", "proofs", "walked", "Proof.antt"), proof)
        write(os.path.join(folder, "log"), "74 rt: small proved\n" + ("80 " + SAID % name + said if said else "") + "\n")
        path = os.path.join(folder, "bin") + os.pathsep + os.environ["PATH"]
        status, said = run(tool + ["log"], folder, PATH=path, LOG=os.path.join(folder, "whole"))
        if status != (0 if fact else 1) or ("small/%s: not at a fact" % name in said) == fact:
            wrong.append("refusals: %s: status %d: %s" % (name, status, said.strip()))
    # in full: the edit is made in a copy, where a stand-in for rt prints the log
    crate = os.path.join(top, "crates", "small")
    write(os.path.join(crate, "must-fail", "edit.edit"), "# a value\nfile: src/lib.rt\nold:     x + 5\nnew:     x + 6\n")
    write(os.path.join(crate, "src", "lib.rt"), "    x + 5\n")
    write(os.path.join(top, "crates.txt"), "small:\n")
    write(os.path.join(top, "bin", "rt"), "#!/bin/sh\ngrep -q '^    x + 6$' src/lib.rt || echo 'src/lib.rt:1:1: error: not edited'\ncat \"$LOG\"\nexit 1\n", 0o755)
    path = os.path.join(top, "bin") + os.pathsep + os.environ["PATH"]
    for number, (fact, log) in enumerate(LOGS, 1):
        write(os.path.join(top, "log"), log)
        status, said = run(tool + ["--whole"], top, PATH=path, LOG=os.path.join(top, "log"))
        if status != (0 if fact else 1) or "cannot be applied" in said:
            wrong.append("refusals: the log %d: status %d: %s" % (number, status, said.strip()))
    os.mkdir(os.path.join(top, "none"))
    if run(tool + [os.path.join(top, "log")], os.path.join(top, "none"))[0] != 1:
        wrong.append("refusals: a folder with no edit passes")


def report(top):
    for edit in ("one", "two"):
        write(os.path.join(top, "crates", "small", "must-fail", edit + ".edit"), "")
    write(os.path.join(top, "crates.txt"), CRATES)
    write(os.path.join(top, "log"), LOG)
    status, said = run([sys.executable, os.path.join(TOP, "tools", "gate_report"), "log"], top)
    if status != 0 or said != TABLE:
        wrong.append("gate_report prints\n" + said)


STEPS = ["tests/lint_test.py", "tools/gate_test.py", "tools/refusals", "tools/gate_report", "tools/archive", "tests/c/run", "tests/examples",
         "tests/install"]
RT = """#!/bin/sh
case $1 in
version) echo "a kit" ;;
ci)
    [ $# = 1 ] || exit 1
    case $FAILS in
    "a bad edit") echo "rt: ok; handles allowed: none; must-fail edits: 9 refused, 12 bad; every proof was done in this run" ;;
    "no ok") echo "rt: not so" ;;
    *) echo "rt: ok; handles allowed: none; must-fail edits: 9 refused; every proof was done in this run" ;;
    esac
    if [ "$FAILS" = "rt ci" ]; then echo "6 passed, 1 failed"; exit 1; fi
    if [ "$FAILS" = "rt late" ]; then echo "7 passed, 0 failed"; exit 2; fi
    if [ "$FAILS" = "nothing passed" ]; then echo "0 passed, 0 failed"; exit 0; fi
    if [ "$FAILS" = "one failed" ]; then echo "6 passed, 1 failed"; exit 0; fi
    [ "$FAILS" = "rt silent" ] || echo "7 passed, 0 failed$MORE"
    ;;
*) exit 1 ;;
esac
"""
OF_RT = ["rt ci", "rt late", "rt silent", "a bad edit", "no ok", "nothing passed", "one failed"]


def gate(top):
    """.ci/run over stand-ins. With none that fails it ends with rt's line; with one that fails it ends with another, and not with 0."""
    for step in STEPS:
        python = step.endswith(".py") or step in ("tools/refusals", "tools/gate_report")
        stand_in = "import os, sys\nsys.exit(os.environ['FAILS'] == '%s')\n" if python else "[ \"$FAILS\" != %s ]\n"
        write(os.path.join(top, step), stand_in % step)
    write(os.path.join(top, "bin", "rt"), RT, 0o755)
    shutil.copytree(os.path.join(TOP, ".ci"), os.path.join(top, ".ci"))
    os.mkdir(os.path.join(top, "tmp"))
    path = os.path.join(top, "bin") + os.pathsep + os.environ["PATH"]
    for fails, more in [("", ""), ("", " (and more)")] + [(f, "") for f in STEPS + OF_RT]:
        status, said = run(["bash", ".ci/run"], top, PATH=path, FAILS=fails, MORE=more, TMPDIR=os.path.join(top, "tmp"))
        lines = said.rstrip("\n").split("\n")
        shown = "rt ci: 7 passed, 0 failed" + more
        passes = status == 0 and lines[-1] == "7 passed, 0 failed" and lines.count("7 passed, 0 failed") == 1 and shown in lines
        fails_well = status != 0 and lines[-1].startswith("gate: FAILED: ") and not any(l.endswith(" failed") and l[0].isdigit() for l in lines)
        if not (fails_well if fails else passes):
            wrong.append("the gate, where %s fails: status %d\n%s" % (fails or "nothing", status, said))
    if os.listdir(os.path.join(top, "tmp")):
        wrong.append("the gate leaves a file behind")


def main():
    for test in (refusals, report, gate):
        with tempfile.TemporaryDirectory() as folder:
            test(folder)
    for line in wrong:
        print("gate_test: " + line)
    print("gate_test: %d refusals, a report, %d runs of the gate: %d wrong" % (len(EDITS) + len(LOGS), len(STEPS) + len(OF_RT) + 2, len(wrong)))
    sys.exit(1 if wrong else 0)


main()
