"""What `persistent` does at a restart: daemon and link are killed and started again, and the kernel's tables are looked at
all the while. Here the daemon has the link as its script alone, so that it is told of each row at its start."""

import ipaddress
import os
import re
import subprocess
import sys
import time

from hosts import CLIENT, MAC, ROUTER, ROUTER6, SERVER
from hosts import Apart, Server, expect, join, run, set_link, wait_for

MAC1 = "02:00:00:77:00:03"
TESTS = os.path.dirname(os.path.abspath(__file__))
DOWN_SECONDS = 0.5  # without daemon and link
# How long a kept lease is held that no server confirms.
HELD_SECONDS, HELD6_SECONDS = 5, 10

# Looks at tables of /proc/net each 20 ms until its input ends: how often, the longest time between, and how often each of
# what is to be there wasn't. It is told of names, tables and patterns.
LOOK = """
import re, select, sys, time

words = iter(sys.argv[1:])
wanted = [(name, "/proc/net/" + table, re.compile(pattern, re.M)) for name, table, pattern in zip(words, words, words)]
gone = {}
looks, longest, before = 0, 0, time.monotonic()
print("ready", flush=True)
while not select.select([sys.stdin], [], [], 0.02)[0]:
    now = time.monotonic()
    looks, longest, before = looks + 1, max(longest, now - before), now
    for name, table, pattern in wanted:
        with open(table) as file:
            if not pattern.search(file.read()):
                gone[name] = gone.get(name, 0) + 1
print(looks, round(1000 * longest))
for name, count in gone.items():
    print(f"{name} at {count} looks")
"""

DEFAULT_ROUTE = ["the default route", "route", "^c0\t00000000\t"]


def address_row(text):
    """An address of the host, as LOOK wants it."""
    found = ipaddress.ip_interface(text)
    if found.version == 6:
        return [text, "if_inet6", f"^{found.packed.hex()} "]
    return [text, "fib_trie", rf"\|-- {re.escape(str(found.ip))}\n +/32 host LOCAL"]


def route6_row(text):
    """A route of IPv6, as LOOK wants it."""
    net = ipaddress.ip_network(text)
    return [text, "ipv6_route", f"^{net.network_address.packed.hex()} {net.prefixlen:02x} "]


class Watch:
    """Looks whether rows are there, and hears of each that goes."""

    def __init__(self, net, wanted):
        pipes = {"stdout": subprocess.PIPE, "text": True}
        self.monitor = net.start(CLIENT, ["ip", "monitor", "address", "route"], **pipes)
        words = [sys.executable, "-c", LOOK, *[word for row in wanted for word in row]]
        self.looks = net.start(CLIENT, words, stdin=subprocess.PIPE, **pipes)
        expect("it doesn't look", self.looks.stdout.readline() == "ready\n")

    def end(self):
        """What was gone at a look, or between two."""
        looks, *gone = self.looks.communicate(timeout=10)[0].splitlines()
        self.monitor.terminate()
        heard = self.monitor.communicate(timeout=10)[0].splitlines()
        print("         looked {} times, at most {} ms apart".format(*looks.split()), flush=True)
        return gone + [line for line in heard if line.startswith("Deleted")]


def restart(net, host, wanted, reasons):
    """Both are killed and started again, until hooks were told that leases are confirmed: what was gone meanwhile."""
    counts = {reason: host.reasons().count(reason) for reason in reasons}
    watch = Watch(net, wanted)
    host.crash()
    time.sleep(DOWN_SECONDS)
    host.start()
    wait_for("hooks", lambda: all(host.reasons().count(reason) > count for reason, count in counts.items()))
    return watch.end()


def last_life(host):
    """What the transcript has of the daemon's last start."""
    return host.transcript().rsplit("dhcpcd-transcript", 1)[1]


def calls(host):
    """The calls for rows in the last life."""
    return re.findall("^host (?:add|del) .*", last_life(host), re.M)


def await_bound(host, *files):
    """Waits for files of leases, which are written after rows and hooks."""
    wait_for(f"{files}", lambda: all(map(host.file, files)), seconds=40)


def restarted(net, score):
    """`persistent`, and for the rest the daemon's defaults, with addresses of both families: a restart."""
    server = Server(net)
    host = Apart(net, ["persistent", "ia_na"])
    await_bound(host, "c0.lease4", "c0.lease6")
    leased = net.leased(4), net.leased(6)
    names = f"search example.org\nnameserver {ROUTER}\nnameserver {ROUTER6}\n"
    wait_for("resolv.conf", lambda: host.file("resolv.conf") == names)
    with score.step("addresses and the default route are there at each look"):
        since = server.mark()
        gone = restart(net, host, [address_row(leased[0]), DEFAULT_ROUTE, address_row(leased[1])], ["REBOOT", "REBOOT6"])
        expect(f"gone: {gone}", not gone)
        expect("the server was asked for others", not {"DISCOVER", "6SOLICIT"} & set(server.said(since)))
    with score.step("the daemon asked for no change of a row, and the resolver's file is as it was"):
        expect(f"{calls(host)}", not calls(host))
        expect("the file is another one", host.file("resolv.conf") == names)
    with score.step("where no server answers they stay as long as it is asked, and go then"):
        server.end()
        host.crash()
        host.start()
        expect_end(net, host, 4, HELD_SECONDS)
        expect_end(net, host, 6, HELD6_SECONDS)
        wait_for("hooks", lambda: {"EXPIRE", "EXPIRE6"} <= set(host.reasons()))
        expect("a lease's file is gone", host.file("c0.lease4") and host.file("c0.lease6"))
    with score.step("and with a server they come again"):
        Server(net)
        wait_for("leased addresses", lambda: leased == (net.leased(4), net.leased(6)), seconds=40)


def expect_end(net, host, family, held):
    """That the leased address goes so many seconds after the start, or up to two later on a machine that is busy."""
    wait_for("its end", lambda: net.leased(family) is None, seconds=held + 2)
    took = time.monotonic() - host.begun
    expect(f"IPv{family} after {took:.1f} s", took > held - 0.1)
    print(f"         IPv{family} was held for {took:.1f} s", flush=True)


def refused(net, score):
    """`persistent`, and another network after a restart."""
    server = Server(net)
    host = Apart(net, ["nodelay", "noipv4ll", "persistent"])
    await_bound(host, "c0.lease4")
    with score.step("what the lease gave goes once it is refused"):
        host.crash()
        server.end()
        run("ip", "-n", SERVER, "address", "delete", f"{ROUTER}/24", "dev", "s0")
        run("ip", "-n", SERVER, "address", "add", "10.78.0.1/24", "dev", "s0")
        server = Server(net, ends="10.78.0.100,10.78.0.120")
        leased = net.leased(4)
        host.start()
        wait_for("its end", lambda: net.leased(4) != leased)
        expect("the server refused nothing", "NAK" in server.said())
        wait_for("the hook", lambda: "NAK" in host.reasons())
        wait_for("the file's end", lambda: not host.file("c0.lease4"))
    with score.step("and another one is got"):
        wait_for("an address", lambda: (net.leased(4) or "").startswith("10.78.0."), seconds=40)


def unkept(net, score):
    """Without `persistent`, a restart."""
    Server(net)
    host = Apart(net, ["nodelay", "noipv4ll", "ia_na"])
    await_bound(host, "c0.lease4", "c0.lease6")
    wanted = [address_row(net.leased(4)), DEFAULT_ROUTE, address_row(net.leased(6))]
    with score.step("addresses and the default route are gone until the leases are confirmed"):
        gone = restart(net, host, wanted, ["REBOOT", "REBOOT6"])
        expect(f"gone: {gone}", all(any(line.startswith(f"{row[0]} at ") for line in gone) for row in wanted[:2]))
        expect("the kernel's word of it wasn't heard", any(line.startswith("Deleted") for line in gone))
        print(f"         {'; '.join(line for line in gone if ' looks' in line)}", flush=True)


def restarted_share(net, score):
    """`persistent`, and a prefix that is shared with another interface: a restart."""
    join("c1", MAC1, "s1")
    for name, link in [(CLIENT, "c1"), (SERVER, "s1")]:
        set_link(name, link, "up")
    server = net.start(SERVER, [os.path.join(TESTS, "delegate.py"), "s0"], stdout=subprocess.PIPE)
    expect("the server didn't begin", server.stdout.readline() == b"ready\n")
    lines = ["nodelay", "nodhcp", "noipv4ll", "persistent", "interface c0", "ia_pd 1/::/56 c1/1"]
    host = Apart(net, lines, links={"c0": MAC, "c1": MAC1})
    await_bound(host, "c0.lease6")
    with score.step("its address, its route and the one that rejects the rest are there at each look"):
        share, rest = "2001:db8:0:ab01::/64", "2001:db8:0:ab00::/56"
        gone = restart(net, host, [address_row("2001:db8:0:ab01::1/64"), route6_row(share), route6_row(rest)], ["REBOOT6"])
        expect(f"gone: {gone}", not gone)
        expect(f"{calls(host)}", not calls(host))


RESTART_TRIES = [restarted, refused, unkept, restarted_share]
