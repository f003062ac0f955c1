"""Servers that dnsmasq doesn't stand for: Kea, one whose frames have a tag, and one of IPv6 that grants no second."""

import os
import re
import shutil
import subprocess

from hosts import CLIENT, MAC, ROUTER, SERVER
from hosts import Host, Server, expect, join, read, run, set_link, wait_for, write_lines

MAC1 = "02:00:00:77:00:03"
QUICK = ["nodelay", "noarp", "noipv4ll"]
GRANTER = os.path.join(os.path.dirname(os.path.abspath(__file__)), "granter.py")
PRIORITY_TAG = "8100e000"  # IEEE 802.1Q: VLAN 0, priority 7
WINDOW_SECONDS, WINDOW_MOST = 10, 20


class Granter:
    """tests/granter.py on the server's interface."""

    def __init__(self, net, *words):
        self.log = net.path("granter")
        with open(self.log, "wb") as log:
            self.child = net.start(SERVER, [GRANTER, "s0", *words], stdout=log)
        wait_for("the server", lambda: read(self.log).startswith("ready\n"))

    def said(self):
        """When each message came, and which it was."""
        lines = [line.split() for line in read(self.log).splitlines()[1:] if " " in line]
        return [(float(moment), name) for moment, name in lines]


def tagged_dhcp(net, score):
    """A server whose OFFER, ACK, Advertise and Reply have a priority tag."""
    Granter(net, f"tag={PRIORITY_TAG}")
    host = Host(net, [*QUICK, "ia_na"])
    with score.step("they lead to leases of both families"):
        wait_for("an address", lambda: net.leased(4) == "10.77.0.150/24")
        wait_for("an address of IPv6", lambda: net.leased(6) == "2001:db8:77::150/128")
    with score.step("the tag is taken off"):
        frames = re.findall(r" frame 1 \w{24}(\w{4})", host.transcript())
        expect(f"kinds {frames}", sorted(set(frames)) == ["0800", "86dd"])


def most_in_window(moments):
    return max(sum(begun <= other < begun + WINDOW_SECONDS for other in moments) for begun in moments)


def rates6(net, score):
    """A server of IPv6 that grants no second."""
    granter = Granter(net, "valid=0")
    host = Host(net, ["nodelay", "nodhcp", "noipv4ll", "ia_na"])
    with score.step("at most 20 messages leave in 10 s, and what is held back is told"):
        wait_for("the word of it", lambda: "messages were held back" in read(host.said), seconds=40)
        moments = [moment for moment, name in granter.said() if name.startswith("6")]
        most = most_in_window(moments)
        expect(f"{most} of {len(moments)}", WINDOW_MOST // 2 <= most <= WINDOW_MOST)
        expect("no first word", "more than 20 messages in 10 s" in read(host.said))
    print(f"         {len(moments)} messages in {moments[-1] - moments[0]:.0f} s, at most {most} in 10 s", flush=True)


KEA = """
{ "Dhcp6": {
    "interfaces-config": { "interfaces": [ "s0/2001:db8:77::1" ], "service-sockets-require-all": true },
    "lease-database": { "type": "memfile", "persist": false }, "server-id": { "type": "LL", "persist": false },
    "preferred-lifetime": 60, "valid-lifetime": 120, "renew-timer": 5, "rebind-timer": 40,
    "subnet6": [ { "id": 1, "subnet": "2001:db8:77::/64", "interface": "s0",
        "pools": [ { "pool": "2001:db8:77::100-2001:db8:77::120" } ],
        "pd-pools": [ { "prefix": "2001:db8:100::", "prefix-len": 40, "delegated-len": 56 } ] } ],
    "loggers": [ { "name": "kea-dhcp6", "severity": "DEBUG", "debuglevel": 55,
        "output_options": [ { "output": "stdout" } ] } ]
} }
"""


def start_kea(net):
    write_lines(net.path("kea.json"), KEA.splitlines())
    places = [f"KEA_PIDFILE_DIR={net.folder}", f"KEA_LOCKFILE_DIR={net.folder}"]
    with open(net.path("kea"), "wb") as log:
        command = ["env", *places, "kea-dhcp6", "-c", net.path("kea.json")]
        child = net.start(SERVER, command, stdout=log, stderr=subprocess.STDOUT)
    wait_for("Kea", lambda: "DHCP6_STARTED" in read(net.path("kea")), seconds=30)
    return child


def kea(net, score):
    """An address and a prefix of Kea's in one exchange, and the prefix shared with another interface."""
    if not shutil.which("kea-dhcp6"):
        score.skip("Kea", "no kea-dhcp6")
        return
    join("c1", MAC1, "s1")
    for name, link in [(CLIENT, "c1"), (SERVER, "s1")]:
        set_link(name, link, "up")
    server = start_kea(net)
    lines = ["nodelay", "nodhcp", "noipv4ll", "release", "interface c0", "ia_na 1", "ia_pd 2/::/56 c1/1"]
    host = Host(net, lines, links={"c0": MAC, "c1": MAC1})

    def shared():
        return run("ip", "-n", CLIENT, "-o", "-6", "address", "show", "dev", "c1", "scope", "global")

    with score.step("both are had, and a share of the prefix stands on the other interface"):
        wait_for("an address", lambda: net.leased(6))
        wait_for("a share", lambda: re.search(r"2001:db8:1\w\w:\w+::1/64|2001:db8:100:1::1/64", shared()))
        wait_for("the hook", lambda: {"BOUND6", "DELEGATED6"} <= set(host.reasons()))
        routes = net.routes()
        expect(f"routes {routes}", any(route.startswith("unreachable 2001:db8:1") for route in routes))
    with score.step("they are renewed"):
        wait_for("the hook", lambda: "RENEW6" in host.reasons(), seconds=30)
    with score.step("a stop gives both back"):
        host.stop()
        expect("rows stay", not net.leased(6) and not shared() and not net.routes())
        wait_for("the release", lambda: re.search(r"DHCP6_PACKET_RECEIVED.*RELEASE", read(net.path("kea"))))
    server.terminate()


SERVER_TRIES = [tagged_dhcp, rates6, kea]
