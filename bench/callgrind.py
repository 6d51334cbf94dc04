"""What valgrind's callgrind counts in the function `counted` of a program, for bench/run and bench/compare."""
import os
import re
import subprocess
import sys
import tempfile


def totals(call, count):
    """The instructions of each of that many calls of `counted`, in order: callgrind leaves a file for each."""
    with tempfile.TemporaryDirectory() as folder:
        out = os.path.join(folder, "out")
        tool = ["valgrind", "--tool=callgrind", "--callgrind-out-file=" + out, "--toggle-collect=counted", "--dump-after=counted"]
        done = subprocess.run(tool + call, capture_output=True, text=True)
        if done.returncode != 0 or not os.path.exists("%s.%d" % (out, count)):
            sys.exit("bench: callgrind failed\n" + done.stderr)
        for number in range(1, count + 1):
            with open("%s.%d" % (out, number), encoding="utf-8") as file:
                yield int(re.search(r"^totals: (\d+)", file.read(), re.M).group(1))
