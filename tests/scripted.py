#!/usr/bin/env python3
"""What contrib/scripted says of transcripts that no script brings about, and of texts that are none.

    tests/scripted.py

Each row of CHANGED is an example with a line put in place of another, and what is said of that on standard error.
"""

import os
import subprocess
import sys

TESTS = os.path.dirname(os.path.abspath(__file__))
EXAMPLES = os.path.join(TESTS, "..", "examples")
SCRIPTED = os.path.join(TESTS, "..", "contrib", "scripted")

ORDER = "its rows aren't in their order"
ROWS = "its rows aren't those that the calls before leave"
CARRIERS = "live names all carriers that may be, and a script those of its interfaces alone"
ASIDES = "these aren't the asides that the calls before leave"
NO_RUN = "no transcript begins so, and no life goes on so"
CHANGED = [
    ("lease", "end", "end", 0, []),
    ("lease", "start 0 0 up 1", "start 0 0 up 1,2,3", 0, [f"line 6: {CARRIERS}"]),
    ("lease", "turn 1 0 quiet", "turn 1 0 release 9", 1,
     ["line 12: there is no interface 9; the script says quiet in its place"]),
    ("lease", "end", "", 1, ["line 55: the life isn't told to its end, or it was ended from outside"]),
    ("hooks", "hook poll 1 ended 3", "hook poll 1 ended 300", 1, ["line 32: a script has no status above 255"]),
    ("host-failures", "row addr 1 192.168.7.2/24", "row addr 1 1.2.3.4/24", 1, [f"line 22: {ORDER}"]),
    ("host-failures", "row addr 1 192.168.7.2/24", "row addr 1 192.168.7.3/24", 1, [f"line 22: {ROWS}"]),
    ("cut-off-before-renaming", "store list ok eth0.lease4.new", "store list ok", 1, [f"line 30: {ASIDES}"]),
    ("restart-new", "store list ok", "store list ok duid.new", 1, [f"line 36: {ASIDES}"]),
    ("restart-new", "store list ok", "store list failed", 0, []),
    ("lease", "dhcpcd-transcript 1", "dhcpcd-transcript 2", 2, [f"line 1: {NO_RUN}"]),
    ("lease", "until 3002", "til 3002", 2, [f"line 14: {NO_RUN}"]),
    ("lease", "until 3002", "until then", 2, ["line 14: it has no form of such a line"]),
]  # fmt: skip


def changed(name, line, other):
    """The transcript of an example with another line in place of the last one of that text; an empty one goes."""
    with open(os.path.join(EXAMPLES, name + ".transcript"), "rb") as file:
        lines = file.read().decode("latin-1").splitlines()
    place = len(lines) - 1 - lines[::-1].index(line)
    lines[place : place + 1] = [other] if other else []
    return "".join(one + "\n" for one in lines).encode("latin-1")


def main():
    wrong = 0
    for name, line, other, status, said in CHANGED:
        ran = subprocess.run([SCRIPTED], input=changed(name, line, other), capture_output=True)
        heard = ran.stderr.decode().splitlines()
        if (ran.returncode, heard) != (status, [f"scripted: {one}" for one in said]):
            print(f"scripted: {name} with {other!r}: status {ran.returncode}, {heard}")
            wrong += 1
    return 1 if wrong else 0


if __name__ == "__main__":
    sys.exit(main())
