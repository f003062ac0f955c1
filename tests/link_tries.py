"""What contrib/linux/link does for a host beside handing frames on: lifetimes, rows of others, rates, floods, interfaces
that come and go, and what is told."""

import os
import re
import shutil
import signal
import socket
import subprocess
import sys
import time

from hosts import CLIENT, LINK, MAC, RANGE, ROUTER, SERVER
from hosts import Host, Server, expect, join, read, run, set_link, wait_for, write_lines
from restart_tries import DEFAULT_ROUTE, address_row, last_life, restart

QUICK = ["nodelay", "noarp", "noipv4ll"]
SLACK = 5  # seconds that the kernel keeps an address longer than the lease is
OTHERS = "198.51.100.7/24"
REJECTS = "route 1 2001:db8:100::/56 reject metric 1001"


def is_leased(net, family=4):
    return net.leased(family) is not None


def await_lease(net, seconds=20):
    wait_for("a leased address", lambda: is_leased(net), seconds)


def said(host):
    return read(host.said)


def await_said(host, word):
    wait_for(f"the word `{word}`", lambda: word in said(host))


def left(net, family):
    """The seconds that the leased address has as valid and as preferred time; None where it has no end."""
    shown = run("ip", "-n", CLIENT, "-o", f"-{family}", "address", "show", "dev", "c0", "scope", "global")
    # of IPv6 the kernel has another one, by a router's word
    length = {4: 24, 6: 128}[family]
    found = re.search(rf"/{length} .*valid_lft (\d+)sec preferred_lft (\d+)sec", shown)
    return found and (int(found.group(1)), int(found.group(2)))


class Udhcpd:
    """busybox's server, for leases of few seconds."""

    CONF = f"interface s0\nstart 10.77.0.100\nend 10.77.0.120\noption subnet 255.255.255.0\noption router {ROUTER}\n"

    def __init__(self, net, seconds):
        self.net = net
        more = f"option lease {seconds}\nmin_lease {seconds}\nlease_file {net.path('leases')}\npidfile {net.path('pid')}\n"
        write_lines(net.path("udhcpd"), (self.CONF + more).splitlines())
        words = ["busybox", "udhcpd", "-f", net.path("udhcpd")]
        self.child = net.start(SERVER, words, stderr=subprocess.DEVNULL)

    def end(self):
        self.child.kill()
        self.child.wait()

    @staticmethod
    def is_there():
        return shutil.which("busybox") and "udhcpd" in run("busybox", "--list").split()


def lifetimes(net, score):
    """The kernel's lifetimes follow the leases."""
    server = Server(net)
    host = Host(net, [*QUICK, "ia_na"])
    await_lease(net)
    wait_for("an address of IPv6", lambda: is_leased(net, 6))
    with score.step("addresses of both families have what is left, and a little slack"):
        for family in (4, 6):
            wait_for("a lifetime", lambda family=family: left(net, family))
            valid, preferred = left(net, family)
            expect(f"{family}: {valid}, {preferred}", 100 < preferred <= valid <= 120 + SLACK)
    with score.step("a renewal sets it anew"):
        wait_for("less", lambda: left(net, 4)[0] <= 122)
        wait_for("more", lambda: left(net, 4)[0] >= 124)
    with score.step("a stop takes the addresses away"):
        host.stop()
        expect("there is an address", not is_leased(net) and not is_leased(net, 6))
    server.end()
    if not Udhcpd.is_there():
        score.skip("an address whose processes are killed", "no busybox with udhcpd")
        return
    server = Udhcpd(net, 10)
    host.start()
    await_lease(net)
    with score.step("with all processes killed the kernel ends the address by itself"):
        wait_for("a lifetime", lambda: left(net, 4))
        script = os.path.join(host.folder, "host")
        run("ip", "netns", "exec", CLIENT, script, "host-add", *REJECTS.split())
        host.crash()
        server.end()
        wait_for("its end", lambda: not is_leased(net), seconds=10 + SLACK + 2)
    with score.step("a route that rejects, which has no lifetime in the kernel, goes with the next run"):
        expect("it is gone", any(route.startswith("unreachable") for route in net.routes()))
        host.start()
        wait_for("its end", lambda: not net.routes())


def deprecated(net, score):
    """A lease of IPv6 whose preferred time is over, as a file of the daemon's tells it."""
    host = Host(net, QUICK)
    script = os.path.join(host.folder, "host")
    wait_for("the run", lambda: " up " in host.transcript())
    address, share, route = "2001:db8:5::5/128", "2001:db8:6:1::1/64", "2001:db8:6:1::/64 metric 1001"
    for row in (f"addr 1 {address}", f"addr 1 {share}", f"route 1 {route}"):
        run("ip", "netns", "exec", CLIENT, script, "host-add", *row.split())
    now = int(1000 * time.time())
    items = [f"addr 2001:db8:5::5 {now} {now + 60000}", "ia pd 1", f"prefix 2001:db8:6::/56 {now + 30000} {now + 60000}"]
    lines = ["dhcpcd-lease6 1", "interface c0", "server 0001", f"t1 {now}", f"t2 {now}", "ia na 1", *items, "end"]
    write_lines(net.path("aside"), lines)
    os.rename(net.path("aside"), os.path.join(host.folder, "files", "c0.lease6"))

    def shown(word):
        text = run("ip", "-n", CLIENT, "-o", "-6", word, "show", *(["dev", "c0"] if word == "address" else []))
        return [line for line in text.splitlines() if "2001:db8:" in line]

    with score.step("its address is deprecated, and valid to its end"):
        wait_for("that", lambda: re.search(r"deprecated.* valid_lft 6\dsec preferred_lft 0sec", "\n".join(shown("address"))))
    with score.step("what comes of a prefix has its lifetimes, routes too"):
        wait_for("that", lambda: re.search(r"6:1::1/64 .*valid_lft 6\dsec preferred_lft [23]\dsec", "\n".join(shown("address"))))
        wait_for("that", lambda: re.search(r"2001:db8:6:1::/64 dev c0 .* expires 6\dsec", "\n".join(shown("route"))))


def others(net, score):
    """Rows that others made, and own rows that others take away."""
    Server(net)
    run("ip", "-n", CLIENT, "address", "add", OTHERS, "dev", "c0")
    run("ip", "-n", CLIENT, "route", "add", "203.0.113.0/24", "dev", "c0")
    host = Host(net, QUICK)
    await_lease(net)
    wait_for("routes", lambda: len(net.routes()) == 2)
    address, routes = next(text for text in net.addresses() if text.startswith("10.77.")), net.routes()
    with score.step("an address and a route of others stay"):
        shown = run("ip", "-n", CLIENT, "route", "show", "dev", "c0")
        expect("they are gone", OTHERS in net.addresses() and "203.0.113.0/24" in shown)
    with score.step("a route that is taken away is put back within a second"):
        run("ip", "-n", CLIENT, "route", "del", "default")
        wait_for("the route", lambda: net.routes() == routes, seconds=1)
        await_said(host, "is put back")
    with score.step("an address that is taken away is put back with its routes"):
        run("ip", "-n", CLIENT, "address", "del", address, "dev", "c0")
        wait_for("the address", lambda: address in net.addresses() and net.routes() == routes, seconds=1.5)
        expect("it has no end", left(net, 4) is not None)
    with score.step("one that is taken away again and again isn't, for a while"):
        run("ip", "-n", CLIENT, "route", "del", "default")
        wait_for("the route", lambda: net.routes() == routes, seconds=1)
        run("ip", "-n", CLIENT, "route", "del", "default")
        await_said(host, "isn't put back")
        time.sleep(1)
        expect("it was put back", len(net.routes()) == 1)
    with score.step("after a crash what was made is known, and what others made stays"):
        host.crash()
        host.start()
        wait_for("routes", lambda: net.routes() == routes)
        host.stop()
        expect("rows stay", not net.routes() and address not in net.addresses())
        expect("an address of others is gone", OTHERS in net.addresses())


COUNT = """
import socket, sys, time
heard = socket.socket(socket.AF_PACKET, socket.SOCK_RAW, socket.htons(3))
heard.bind(("s0", 3))
until = time.monotonic() + float(sys.argv[1])
heard.settimeout(0.2)
moments = []
while time.monotonic() < until:
    try:
        frame = heard.recv(2048)
    except TimeoutError:
        continue
    if frame[6:12] == bytes.fromhex(sys.argv[2]) and frame[12:14] == b"\\x08\\0" and frame[36:38] == b"\\0\\x43":
        moments.append(time.monotonic())
print(max(sum(begun <= other < begun + 10 for other in moments) for begun in moments), len(moments))
"""


def rates(net, score):
    """A server that grants a second."""
    if not Udhcpd.is_there():
        score.skip("the rate of messages", "no busybox with udhcpd")
        return
    Udhcpd(net, 1)
    words = [sys.executable, "-c", COUNT, "22", MAC.replace(":", "")]
    count = net.start(SERVER, words, stdout=subprocess.PIPE)
    host = Host(net, QUICK)
    with score.step("at most 20 messages leave in 10 s, and what is held back is told"):
        most, whole = count.communicate(timeout=40)[0].decode().split()
        expect(f"{most} of {whole}", 10 <= int(most) <= 20)
        await_said(host, "are held back")
        await_said(host, "messages were held back")


FLOOD = """
import socket, sys, time
out = socket.socket(socket.AF_PACKET, socket.SOCK_RAW)
out.bind(("s0", 0))
head = b"\\xff" * 6 + b"\\2\\0\\0\\0\\0\\xaa\\x08\\0"
frame = head + bytes([0x45, 0, 1, 0x2c, 0, 0, 0, 0, 64, 17, 0, 0]) + b"\\x0a\\x4d\\0\\1" + b"\\xff" * 4
frame += b"\\0\\x43\\0\\x44\\1\\x18\\0\\0" + b"\\2" * 272
begun, sent = time.monotonic(), 0
while True:
    for _ in range(200):
        try:
            out.send(frame)
        except OSError:
            time.sleep(0.001)
    sent += 200
    time.sleep(max(0, begun + sent / 20000 - time.monotonic()))
"""


def flood(net, score):
    """20,000 frames a second that look like a server's."""
    Server(net)
    host = Host(net, QUICK)
    await_lease(net)
    flood_of = net.start(SERVER, [sys.executable, "-c", FLOOD])
    time.sleep(2)
    with score.step("few of them are handed on, and it is told"):
        before = host.transcript().count(" frame 1 ")
        time.sleep(3)
        handed_on = (host.transcript().count(" frame 1 ") - before) / 3
        expect(f"{handed_on} a second", 20 < handed_on < 260)
        await_said(host, "too many frames")
    with score.step("a cable that is pulled is heard of"):
        set_link(SERVER, "s0", "down")
        wait_for("no rows", lambda: not is_leased(net), seconds=5)
    with score.step("and one that is plugged in"):
        set_link(SERVER, "s0", "up")
        wait_for("the word of it", lambda: host.transcript().count(" carrier 1 up\n") >= 1, seconds=5)
    with score.step("a stop comes through"):
        host.stop()
        expect("rows stay", not is_leased(net) and not net.routes())
    flood_of.kill()


SEND = """
import socket, sys
out = socket.socket(socket.AF_PACKET, socket.SOCK_RAW)
out.bind(("s0", 0))
for frame in sys.argv[1:]:
    out.send(bytes.fromhex(frame))
"""


def tagged(net, score):
    """Frames with a tag of a VLAN."""
    Server(net)
    host = Host(net, QUICK)
    await_lease(net)
    address = socket.inet_aton(net.leased(4).split("/")[0]).hex()
    probe = "0001080006040001" + "0200000000aa" + "00000000" + "000000000000"
    ends = "ffffffffffff" + "0200000000aa"

    def arp(tag, target):
        return ends + tag + "0806" + probe + target

    frames = [arp("8100e000", address), arp("81000001", address), arp("", "0a4d0063")]
    with score.step("a priority tag is taken off; a VLAN's frames, and ARP of other addresses, aren't heard"):
        run("ip", "netns", "exec", SERVER, sys.executable, "-c", SEND, *frames)
        wait_for("the frame", lambda: f" frame 1 {arp('', address)}\n" in host.transcript())
        time.sleep(0.5)
        expect("others came too", host.transcript().count(" frame 1 ffffffffffff0200000000aa") == 1)


def plugged(net, score):
    """An interface that goes and comes again."""
    Server(net)
    host = Host(net, QUICK)
    await_lease(net)

    def plug(mac):
        run("ip", "-n", SERVER, "link", "del", "s0")
        wait_for("the word of it", lambda: "c0 is gone" in said(host))
        join("c0", mac, "s0")
        run("ip", "-n", SERVER, "address", "add", f"{ROUTER}/24", "dev", "s0")
        set_link(SERVER, "s0", "up")

    with score.step("it is heard again"):
        plug(MAC)
        await_said(host, "c0 is there again")
        Server(net)
        await_lease(net, seconds=40)
    with score.step("with another hardware address the run ends, so that it begins anew"):
        plug("02:00:00:77:00:09")
        host.link.wait(10)
        expect(f"status {host.link.returncode}", host.link.returncode == 1)
        expect("no word of it", "hardware address" in said(host))


def told(net, score):
    """What a run says of its configuration, and of what happens; and how its processes end together."""

    def refused(lines, word):
        with open(net.path("conf"), "wb") as file:
            file.write(lines)
        words = [LINK, "--folder", net.path("host"), "--configuration", net.path("conf"), "--program", net.program, "c0"]
        child = net.start(CLIENT, words, stdout=subprocess.DEVNULL, stderr=subprocess.PIPE)
        told_of = child.communicate(timeout=10)[1].decode()
        expect(f"status {child.returncode}: {told_of}", child.returncode == 4 and word in told_of)
        return told_of

    place = net.path("conf")
    with score.step("a bad line is told with its file, number and text"):
        text = refused(b"nodelay\ntimeout soon\n", f"{place}:2: ")
        expect(text, "timeout soon" in text)
    with score.step("a byte order mark and CRLF are told by name"):
        text = refused(b"\xef\xbb\xbfnodelay\r\ntimeout soon\r\n", "BOM")
        expect(text, "CRLF" in text)
    Server(net)
    with score.step("events have a line each, with a level for the journal"):
        os.environ["JOURNAL_STREAM"] = "1:1"
        host = Host(net, [*QUICK, "release", "bananas 3"])
        del os.environ["JOURNAL_STREAM"]
        await_lease(net)
        await_said(host, "<6>c0: bound 10.77.0.")
        await_said(host, "<6>c0: renewed 10.77.0.")
        host.stop()
        await_said(host, "<6>c0: released")
    with score.step("and so has a line of the configuration that does nothing"):
        expect(said(host), f"<4>{place}:5: `bananas` does nothing: bananas 3\n" in said(host))
    with score.step("without hooks too"):
        write_lines(host.net.path("conf"), [*QUICK, "script /dev/null"])
        host.start()
        await_said(host, "dhcpcd-link: c0: bound 10.77.0.")
        await_said(host, "dhcpcd-link: c0: renewed 10.77.0.")
        host.stop()
        write_lines(host.net.path("conf"), QUICK)
    with score.step("the link ends with the daemon, and says so"):
        host.start()
        await_lease(net)
        os.kill(host.daemon_number(), signal.SIGKILL)
        host.link.wait(5)
        expect(f"status {host.link.returncode}", host.link.returncode == 128 + signal.SIGKILL)
        await_said(host, "the daemon has ended by itself")
    with score.step("the daemon ends with the link"):
        host.start()
        number = host.daemon_number()
        host.link.kill()
        host.link.wait()
        wait_for("its end", lambda: not os.path.exists(f"/proc/{number}"), seconds=2)
    with score.step("a closed standard output ends nothing"):
        words = [LINK, "--folder", net.path("host"), "--configuration", net.path("conf"), "--program", net.program, "c0"]
        child = net.start(CLIENT, words, stdout=subprocess.PIPE, stderr=subprocess.DEVNULL)
        child.stdout.close()
        wait_for("the lease's lifetime", lambda: left(net, 4))
        time.sleep(6)
        expect("it has ended", child.poll() is None and is_leased(net))
        child.terminate()
        expect(f"status {child.wait(10)}", child.returncode == 0)


def service(net, score):
    """What systemd is told, `persistent`, and interfaces by the configuration alone."""
    Server(net)
    way = socket.socket(socket.AF_UNIX, socket.SOCK_DGRAM)
    way.bind(net.path("notify"))
    way.settimeout(15)
    os.environ["NOTIFY_SOCKET"] = net.path("notify")
    lines = [*QUICK, "persistent", "interface c0", "metric 7"]
    host = Configured(net, lines)
    del os.environ["NOTIFY_SOCKET"]
    with score.step("ready when there is an address, with a status"):
        heard = [way.recv(4096).decode()]
        while not heard[-1].startswith("READY"):
            heard.append(way.recv(4096).decode())
        expect("no address", is_leased(net))
        heard.append(way.recv(4096).decode())
        expect(f"{heard}", heard[-1].startswith("STATUS=c0 10.77.0."))
    with score.step("`persistent` leaves address and routes at a stop, and gives no notice"):
        wait_for("routes", lambda: len(net.routes()) == 2)
        wait_for("a lifetime", lambda: left(net, 4))
        rows = net.leased(4), net.routes()
        host.link.terminate()
        expect(f"status {host.link.wait(5)}", host.link.returncode == 0)
        expect("rows are gone", rows == (net.leased(4), net.routes()))
        expect(said(host), "persistent" not in said(host))
    with score.step("and a start takes nothing away meanwhile"):
        monitor = net.start(CLIENT, ["ip", "monitor", "address", "route"], stdout=subprocess.PIPE)
        host.start()
        wait_for("the hook", lambda: "REBOOT" in host.reasons())
        monitor.terminate()
        changes = monitor.communicate()[0].decode()
        expect(changes, "Deleted" not in changes and rows == (net.leased(4), net.routes()))
    with score.step("both are killed and started again, and all is there at each look"):
        gone = restart(net, host, [address_row(rows[0]), DEFAULT_ROUTE], ["REBOOT"])
        expect(f"gone: {gone}", not gone and rows == (net.leased(4), net.routes()))
    with score.step("the daemon asked for it in its opening, before any answer"):
        opening = last_life(host).split("\nturn ")[0]
        wanted = [f"addr 1 {rows[0]}", f"route 1 0.0.0.0/0 via {ROUTER} metric 7"]
        expect(opening, all(f"\nhost add {row} ok\n" in opening for row in wanted))


RIGHTS = "+net_admin,+net_raw,+net_bind_service"


class Lowered(Host):
    """A run by a user without rights but those that the unit gives."""

    def start(self):
        words = ["--folder", self.folder, "--configuration", self.net.path("conf"), "--program", self.net.program]
        lowered = ["setpriv", "--reuid", "65534", "--regid", "65534", "--clear-groups", "--no-new-privs"]
        lowered += ["--inh-caps", RIGHTS, "--ambient-caps", RIGHTS, "--bounding-set", "-all," + RIGHTS]
        os.chmod(self.net.folder, 0o755)
        os.makedirs(self.folder, exist_ok=True)
        os.chown(self.folder, 65534, 65534)
        with open(self.log, "ab") as log, open(self.said, "ab") as said_to:
            self.begun = time.monotonic()
            self.link = self.net.start(CLIENT, [*lowered, LINK, *words, *self.links], stdout=log, stderr=said_to)


def rights(net, score):
    """The link as a user with three rights, and the daemon with none."""
    for path in (LINK, net.program):
        if os.stat(path).st_mode & 0o005 != 0o005 or not is_reachable(path):
            score.skip("a user without rights", f"{path} can't be run by others")
            return
    Server(net)
    host = Lowered(net, [*QUICK, "release", "ia_na"])
    with score.step("it leads to addresses"):
        await_lease(net)
        wait_for("an address of IPv6", lambda: is_leased(net, 6))
        wait_for("a hook", lambda: "BOUND" in host.reasons())
    with score.step("the daemon has no right and another user than root"):
        status = read(f"/proc/{host.daemon_number()}/status")
        for name in ("CapEff", "CapPrm", "CapInh", "CapAmb"):
            expect(f"{name} of it", re.search(rf"^{name}:\s*0+$", status, re.M))
        expect("it is root", re.search(r"^Uid:\s*65534\s", status, re.M))
    with score.step("a stop takes all away"):
        host.stop()
        expect("rows stay", not is_leased(net) and not is_leased(net, 6) and not net.routes())


def is_reachable(path):
    parts = path.split("/")
    return all(os.stat("/".join(parts[:n]) or "/").st_mode & 0o001 for n in range(1, len(parts)))


class Configured(Host):
    """A run whose words name no interface."""

    def start(self):
        links, self.links = self.links, {}
        super().start()
        self.links = links


def mtu(net, score):
    """A server that says the MTU."""
    Server(net, "--dhcp-option=26,1400")
    host = Host(net, [*QUICK, "option interface_mtu"])
    shown = lambda: re.search(r" mtu (\d+) ", run("ip", "-n", CLIENT, "-o", "link", "show", "dev", "c0")).group(1)
    with score.step("it is set on the interface"):
        await_lease(net)
        wait_for("the MTU", lambda: shown() == "1400")
    with score.step("it is remembered over a crash, and taken back at the end"):
        host.crash()
        host.start()
        wait_for("the hook", lambda: "REBOOT" in host.reasons())
        host.stop()
        expect(f"it is {shown()}", shown() == "1500")


class Dhcpd:
    """ISC's server, with leases of so many seconds, and lines of its configuration."""

    def __init__(self, net, seconds, *more):
        subnet = " ".join([f"range 10.77.0.100 10.77.0.120; option routers {ROUTER};", *more])
        lines = ["option classless code 121 = array of unsigned integer 8;", "authoritative;", "ping-check false;"]
        lines += [f"default-lease-time {seconds};", f"max-lease-time {seconds};"]
        lines += [f"subnet 10.77.0.0 netmask 255.255.255.0 {{ {subnet} }}"]
        write_lines(net.path("dhcpd.conf"), lines)
        write_lines(net.path("dhcpd.leases"), [])
        words = ["-f", "-4", "-cf", net.path("dhcpd.conf"), "-lf", net.path("dhcpd.leases"), "-pf", net.path("pid"), "s0"]
        self.child = net.start(SERVER, ["dhcpd", *words], stderr=subprocess.DEVNULL)

    @staticmethod
    def is_there():
        return shutil.which("dhcpd")

    def end(self):
        self.child.kill()
        self.child.wait()


def many(net, score):
    """110 classless routes of ISC's server."""
    if not Dhcpd.is_there():
        score.skip("110 routes", "no dhcpd")
        return
    routes = [f"24, 198, 18, {n}, {ROUTER.replace('.', ', ')}" for n in range(110)]
    Dhcpd(net, 600, f"option classless {', '.join(routes)};")
    host = Host(net, QUICK)
    with score.step("all of them are the kernel's"):
        await_lease(net)
        begun = time.monotonic()
        wait_for("routes", lambda: len(net.routes()) == 111)
        took = time.monotonic() - begun
    print(f"         at most {1000 * took:.0f} ms from the address to the last route", flush=True)
    with score.step("and a stop takes all of them away"):
        host.link.terminate()
        expect(f"status {host.link.wait(20)}", not is_leased(net) and not net.routes())


def short(net, score):
    """Leases of ten seconds, of ISC's server."""
    if not Dhcpd.is_there():
        score.skip("leases of ten seconds", "no dhcpd")
        return
    server = Dhcpd(net, 10)
    host = Host(net, QUICK)
    await_lease(net)
    with score.step("a lease is renewed over and over"):
        wait_for("three hooks", lambda: host.reasons().count("RENEW") >= 3, seconds=30)
        expect("there is no address", is_leased(net))
    with score.step("and ends in time without the server"):
        server.end()
        wait_for("its end", lambda: not is_leased(net) and not net.routes(), seconds=14)


ROGUE = "$(touch rogue);`touch rogue`|touch rogue&\"';--x"


def rogue(net, score):
    """A server whose texts a shell would run."""
    words = [f"--dhcp-option-force={code},{ROGUE}" for code in (12, 15)]
    Server(net, *words, f"--dhcp-option-force=119,{ROGUE}.example")
    host = Host(net, QUICK)
    with score.step("nothing of them is run"):
        await_lease(net)
        wait_for("the hook", lambda: "BOUND" in host.reasons())
        left_there = run("find", net.folder, os.getcwd(), "/tmp", "-maxdepth", "2", "-name", "rogue*").split()
        expect(f"there is {left_there}", not left_there)


# What stands for a program of the host: it writes its words down, and what it reads.
STAND_IN = ["#!/bin/sh", 'echo "${0##*/} $@" >>TOLD', "cat >>TOLD"]


def stand_in(net, name):
    """A folder with that program alone."""
    folder = net.path(f"with-{name}")
    os.makedirs(folder, exist_ok=True)
    write_lines(os.path.join(folder, name), [line.replace("TOLD", net.path("told")) for line in STAND_IN])
    os.chmod(os.path.join(folder, name), 0o755)
    return folder


def hidden(net, places, *words):
    """Words run in a mount namespace of their own, where folders are in others' places, so that this host isn't told.

    /usr/bin keeps its programs beside those of the folder."""
    mounts = []
    for folder, place in places.items():
        if place == "/usr/bin":
            old = net.path("usr-bin")
            os.makedirs(old, exist_ok=True)
            for name in set(os.listdir(place)) - set(os.listdir(folder)):
                os.symlink(os.path.join(old, name), os.path.join(folder, name))
            mounts.append(f"mount --bind /usr/bin {old}")
        mounts.append(f"mount --bind {folder} {place}")
    return ["unshare", "--mount", "sh", "-c", " && ".join([*mounts, 'exec "$@"']), "sh", *words]


def resolver(net, score):
    """Whom the host asks for names."""
    Server(net)
    told_of = net.path("told")
    words = ["--folder", net.path("host"), "--configuration", net.path("conf"), "--program", net.program, "--resolv"]
    write_lines(net.path("conf"), QUICK)
    quiet = {"stdout": subprocess.DEVNULL, "stderr": subprocess.DEVNULL}
    resolved = "mkdir -p /run/systemd/resolve && exec"
    without = {net.path("none"): "/usr/sbin"}  # but for a link to resolvectl, as systemd-resolved's package has it
    ways = {
        "resolvconf": ({stand_in(net, "resolvconf"): "/usr/sbin"}, "-a dhcpcd-link", "-d dhcpcd-link"),
        "resolvectl": ({stand_in(net, "resolvectl"): "/usr/bin", **without}, f"dns c0 {ROUTER}", "revert c0"),
    }
    os.mkdir(net.path("none"))
    os.symlink("/usr/bin/resolvectl", net.path("none/resolvconf"))
    for name, (places, first, last) in ways.items():
        write_lines(told_of, [])
        apart = hidden(net, places, "sh", "-c", f'mount -t tmpfs none /run && {resolved} "$@"', "sh", LINK, *words, "c0")
        child = net.start(CLIENT, apart, **quiet)
        with score.step(f"{name} is told of the servers, and of their end"):
            wait_for("its words", lambda: f"{name} {first}\n" in read(told_of))
            if name == "resolvconf":
                wait_for("what it read", lambda: f"nameserver {ROUTER}\n" in read(told_of))
            else:
                wait_for("a domain", lambda: f"{name} domain c0 example.org\n" in read(told_of))
            child.terminate()
            expect(f"status {child.wait(10)}", child.returncode == 0)
            wait_for("its words", lambda: read(told_of).endswith(f"{name} {last}\n"), seconds=2)


def resolved_once(net, score):
    """The word `resolv`, by which a unit of root's tells the host."""
    files = net.path("run/files")
    os.makedirs(files)
    write_lines(net.path("run/interfaces"), ["c0"])
    told_of, etc = net.path("told"), net.path("etc")
    os.mkdir(etc)
    os.mkdir(net.path("none"))

    def tell(places):
        write_lines(told_of, [])
        run("ip", "netns", "exec", CLIENT, *hidden(net, places, LINK, "resolv", net.path("run")))
        return read(told_of)

    resolvconf = {stand_in(net, "resolvconf"): "/usr/sbin"}
    with score.step("resolvconf is told of what stands there, and of nothing else"):
        write_lines(os.path.join(files, "resolv.conf"), [f"nameserver {ROUTER}", "options $(id)", "nameserver -x"])
        said_to = tell(resolvconf)
        expect(said_to, said_to == f"resolvconf -a dhcpcd-link\nnameserver {ROUTER}\n")
    with score.step("a link in its place isn't followed"):
        os.rename(os.path.join(files, "resolv.conf"), os.path.join(files, "other"))
        os.symlink("other", os.path.join(files, "resolv.conf"))
        said_to = tell(resolvconf)
        expect(said_to, said_to == "resolvconf -d dhcpcd-link\n")
    with score.step("without either /etc/resolv.conf is made a link where there is none, and left else"):
        places = {etc: "/etc", net.path("none"): "/usr/sbin"}
        tell(places)
        expect("there is no link", os.readlink(os.path.join(etc, "resolv.conf")) == os.path.join(files, "resolv.conf"))
        os.remove(os.path.join(etc, "resolv.conf"))
        write_lines(os.path.join(etc, "resolv.conf"), ["nameserver 192.0.2.1"])
        tell(places)
        expect("it is another one", read(os.path.join(etc, "resolv.conf")) == "nameserver 192.0.2.1\n")


LINK_TRIES = [many, short, rogue, resolver, resolved_once, lifetimes, deprecated, others, rates, flood, tagged, plugged, told, service, rights, mtu]
