#!/usr/bin/env python3
"""Memory that is refused, at one place a run: the program ends with 10 or 0, and has written a front of the whole.

    tests/memory.py PROGRAM [N..]    the Nth allocation fails, in each of the tries; without numbers, each allocation

The tries are the life of the example `lease`, one of DHCPv6, `make 1`, of which some thousands of places are taken, and each
other word that reads or makes something small. Allocations are refused by tests/refuse.c, which a C compiler builds. That is
thousands of runs, so this is no part of the gate. Beyond the last allocation nothing fails. Ends with 0 where each run
ends so.
"""

import concurrent.futures
import os
import subprocess
import sys
import tempfile

TOP = os.path.dirname(os.path.dirname(os.path.abspath(__file__)))
DONE, NO_MEMORY = 0, 10
MOST = 5000  # places of a try
CONF = b"interface eth0\nstatic ip_address=10.0.0.1/24\nstatic domain_name_servers=10.0.0.53\nhostname\n"


def example(name):
    with open(os.path.join(TOP, "examples", name), "rb") as text:
        return text.read()


TRIES = {
    "replay lease": (["replay"], example("lease.script")),
    "replay v6-lease": (["replay"], example("v6-lease.script")),
    "make": (["make", "1"], b""),
    "check": (["check"], CONF),
    "lab": (["lab"], example("two-addresses.schedule")),
}


def run(program, shim, try_, refused, counted=None):
    """The status and the output, where that allocation fails."""
    words, text = try_
    more = {"LD_PRELOAD": shim, "REFUSED": str(refused), **({"COUNTED": counted} if counted else {})}
    done = subprocess.run([program, *words], input=text, capture_output=True, check=False, env={**os.environ, **more})
    return done.returncode, done.stdout


def fault(status, output, whole):
    """What is wrong with a run, or None."""
    if status == DONE:
        return None if output == whole else "done, with other output"
    if status != NO_MEMORY:
        return f"status {status}"
    return None if whole.startswith(output) else "no front of the whole"


def places_of(count, chosen):
    """Which allocations are refused: those chosen, or all, or where these are too many some of them."""
    return chosen or range(1, count + 1, -(-count // MOST))


def tried(program, shim, room, name, chosen):
    """How many runs of a try end otherwise."""
    counted = os.path.join(room, "counted")
    status, whole = run(program, shim, TRIES[name], 0, counted)
    if status != DONE:
        sys.exit(f"{name}: status {status} with all memory")
    with open(counted, encoding="ascii") as it:
        count = int(it.read())
    places = places_of(count, chosen)
    with concurrent.futures.ThreadPoolExecutor() as pool:
        ends = list(pool.map(lambda place: run(program, shim, TRIES[name], place), places))
    wrong = [(place, why) for place, end in zip(places, ends) if (why := fault(*end, whole))]
    for place, why in wrong:
        print(f"{name}, allocation {place}: {why}")
    wanting = sum(status == NO_MEMORY for status, _ in ends)
    print(f"{name}: {len(places)} of {count} allocations refused, {wanting} times status {NO_MEMORY}, {len(wrong)} ends amiss", flush=True)
    return len(wrong)


def main(program, chosen):
    with tempfile.TemporaryDirectory() as room:
        shim = os.path.join(room, "refuse.so")
        subprocess.run(["cc", "-shared", "-fPIC", "-O2", "-o", shim, os.path.join(TOP, "tests", "refuse.c")], check=True)
        return 1 if sum(tried(program, shim, room, name, chosen) for name in TRIES) else 0


if __name__ == "__main__":
    if len(sys.argv) < 2:
        sys.exit(__doc__)
    sys.exit(main(os.path.abspath(sys.argv[1]), [int(word) for word in sys.argv[2:]]))
