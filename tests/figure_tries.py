"""Figures of the daemon with the link, beside those of dhcpcd and udhcpc. They count on an idle machine alone."""

import datetime
import os
import re
import select
import shutil
import signal
import statistics
import subprocess
import time

from hosts import CLIENT, END_SECONDS, LINK, ROUTER
from hosts import Failure, Server, expect, read, run, wait_for, write_lines
from link_tries import QUICK, Dhcpd

RUNS = 10  # of each client whose time is taken
IDLE_SECONDS = 100  # in which wakeups are counted
SETTLED_SECONDS = 12  # after which a client is at rest
ROUTES = 110

UDHCPC = """#!/bin/sh
[ "$1" != bound ] || ip address add "$ip/$mask" dev "$interface"
"""
# In namespaces of their own all processes end with the first, and files lie where nobody else sees them.
APART = ["unshare", "--pid", "--fork", "--mount", "sh", "-c", 'mount -t tmpfs none /run && exec "$@"', "sh"]
DHCPCD = "mount -t tmpfs none /var/lib/dhcpcd && exec dhcpcd --ipv4only --nobackground --noarp --nodelay --noipv4ll"
DHCPCD += " --script /bin/true --config /dev/null c0"


def clients(net):
    """The commands of this client and of those that are installed."""
    script = net.path("udhcpc")
    write_lines(script, UDHCPC.splitlines())
    os.chmod(script, 0o755)
    # hooks of nothing, on both sides
    write_lines(net.path("conf"), [*QUICK[:2], "script /bin/true"])
    own = [LINK, "--folder", net.path("up"), "--configuration", net.path("conf"), "--program", net.program, "c0"]
    found = {"this daemon and the link": own}
    if shutil.which("dhcpcd"):
        os.makedirs("/var/lib/dhcpcd", exist_ok=True)
        found["dhcpcd"] = ["sh", "-c", DHCPCD]
    if shutil.which("udhcpc"):
        found["udhcpc"] = ["udhcpc", "-f", "-i", "c0", "-s", script]
    return found


class Running:
    """A client in namespaces of its own."""

    def __init__(self, net, command):
        self.net = net
        self.begun = time.monotonic()
        quiet = {"stdin": subprocess.DEVNULL, "stdout": subprocess.DEVNULL, "stderr": subprocess.DEVNULL}
        self.child = net.start(CLIENT, [*APART, *command], **quiet)

    def numbers(self):
        """Of its processes."""
        found, rest = [], children(self.child.pid)
        while rest:
            number = rest.pop()
            found.append(number)
            rest += children(number)
        return found

    def end(self):
        for first in children(self.child.pid):
            os.kill(first, signal.SIGKILL)
        self.child.wait(END_SECONDS)
        for folder in ["host", "up"]:
            shutil.rmtree(self.net.path(folder), ignore_errors=True)
        run("ip", "-n", CLIENT, "address", "flush", "dev", "c0", "scope", "global")


def children(number):
    paths = [f"/proc/{number}/task/{task}/children" for task in os.listdir(f"/proc/{number}/task")]
    return [int(word) for path in paths for word in read(path).split()]


def times(net, score):
    """From a client's start to its first address of IPv4 on the interface, without a lease that was kept."""
    Server(net)
    own = None
    for name, command in clients(net).items():
        with score.step(f"an address {RUNS} times by {name}"):
            took = [1000 * timed(net, command) for _ in range(RUNS)]
        median = statistics.median(took)
        own = own or median
        print(f"         {median:.0f} ms, {min(took):.0f} to {max(took):.0f}: {own / median:.2f}", flush=True)


def timed(net, command):
    """The seconds of one run; all of it is ended."""
    monitor = net.start(CLIENT, ["ip", "monitor", "address"], stdout=subprocess.PIPE)
    time.sleep(0.3)
    client = Running(net, command)
    try:
        await_address(monitor)
        return time.monotonic() - client.begun
    finally:
        client.end()
        monitor.kill()
        monitor.wait()


def await_address(monitor):
    until = time.monotonic() + 20
    while select.select([monitor.stdout], [], [], max(0, until - time.monotonic()))[0]:
        line = monitor.stdout.readline().decode()
        if " inet 10.77." in line and not line.startswith("Deleted"):
            return
        if not line:
            break
    raise Failure("no address within 20 s")


def sum_of(pattern, number, file):
    return sum(map(int, re.findall(pattern, read(f"/proc/{number}/{file}"), re.M)))


def wakeups(numbers):
    """How often processes have waited, all their threads."""
    tasks = [(number, task) for number in numbers for task in os.listdir(f"/proc/{number}/task")]
    return sum(sum_of(r"^voluntary_ctxt_switches:\s*(\d+)", number, f"task/{task}/status") for number, task in tasks)


def sizes(net, score):
    """Memory and wakeups at rest of this client and of dhcpcd, with a lease of an hour."""
    if not Dhcpd.is_there():
        score.skip("a client at rest", "no dhcpd")
        return
    Dhcpd(net, 3600)
    for name, command in list(clients(net).items())[:2]:
        client = Running(net, command)
        try:
            with score.step(f"{name} is at rest"):
                wait_for("an address", lambda: net.leased(4))
                time.sleep(SETTLED_SECONDS)
                numbers = client.numbers()
                before, begun = wakeups(numbers), time.monotonic()
                time.sleep(IDLE_SECONDS)
                minutes = (wakeups(numbers) - before) / (time.monotonic() - begun) * 60
                expect("it isn't the same processes", numbers == client.numbers())
            whole = sum(sum_of(r"^VmRSS:\s*(\d+)", number, "status") for number in numbers)
            shared = sum(sum_of(r"^Pss:\s*(\d+)", number, "smaps_rollup") for number in numbers)
            memory = f"{len(numbers)} processes, {whole} KiB, with what is shared counted once {shared}"
            print(f"         {memory}; {minutes:.1f} wakeups a minute", flush=True)
        finally:
            client.end()


def seconds_of(stamp):
    return datetime.datetime.fromisoformat(stamp).timestamp()


def routes(net, score):
    """From the address to the last of 110 classless routes of ISC's server."""
    if not Dhcpd.is_there():
        score.skip("110 routes", "no dhcpd")
        return
    gateway = ROUTER.replace(".", ", ")
    Dhcpd(net, 600, f"option classless {', '.join(f'24, 198, 18, {n}, {gateway}' for n in range(ROUTES))};")
    took = []
    with score.step(f"{ROUTES} routes {RUNS} times"):
        for _ in range(RUNS):
            monitor = net.start(CLIENT, ["ip", "-ts", "monitor", "address", "route"], stdout=subprocess.PIPE, text=True)
            time.sleep(0.3)
            client = Running(net, clients(net)["this daemon and the link"])
            wait_for("routes", lambda: len(net.routes()) == ROUTES + 1, seconds=40)
            client.end()
            monitor.terminate()
            lines = monitor.communicate(timeout=10)[0].splitlines()
            stamps = [re.match(r"\[(\S+)\] (?:\d+: c0 +inet 10\.77|198\.18)", line) for line in lines]
            moments = [seconds_of(found.group(1)) for found in stamps if found][: ROUTES + 1]
            took.append(1000 * (moments[-1] - moments[0]))
    print(f"         {statistics.median(took):.0f} ms, {min(took):.0f} to {max(took):.0f}", flush=True)


FIGURE_TRIES = [times, routes, sizes]
