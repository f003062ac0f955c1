"""Time: a wall clock that is set, a suspended host, the ends of waits, an idle run, hooks that follow one another."""

import glob
import os
import re
import socket
import statistics
import subprocess
import threading
import time

import frames
from hosts import CLIENT, LINK, MAC, SERVER
from hosts import Host, Server, expect, join, read, run, set_link, wait_for, write_lines
from figure_tries import wakeups
from link_tries import QUICK, Dhcpd, Udhcpd, await_lease, await_said, is_leased, left
from restart_tries import last_life

LIBRARIES = "/usr/lib/*/faketime/libfaketime.so.1"
LATEST_MS = 50
WAITS = [5, 70, 300]  # seconds until a lease is renewed
DAEMONS = 3  # for each of them
IDLE_SECONDS = 240
WAKEUPS_A_MINUTE = 2
MANY = 12  # interfaces, each with two hooks at the start
HOOKS_SECONDS = 3


class Stepped(Host):
    """A run whose daemon has a wall clock that a file sets."""

    def start(self, step="+0"):
        self.set(step)
        faked = {"LD_PRELOAD": glob.glob(LIBRARIES)[0], "FAKETIME_TIMESTAMP_FILE": self.net.path("step")}
        faked.update({"FAKETIME_NO_CACHE": "1", "FAKETIME_DONT_FAKE_MONOTONIC": "1", "DONT_FAKE_MONOTONIC": "1"})
        os.environ.update(faked)
        super().start()
        for name in faked:
            del os.environ[name]

    def set(self, step):
        """How far the clock is off."""
        write_lines(self.net.path("aside"), [step])
        os.rename(self.net.path("aside"), self.net.path("step"))


def stepped(net, score):
    """A wall clock that is set a day on, and a day back."""
    if not glob.glob(LIBRARIES) or not Udhcpd.is_there():
        score.skip("a wall clock that is set", "no libfaketime or no busybox with udhcpd")
        return
    server = Server(net)
    host = Stepped(net, [*QUICK, "ia_na"])
    await_lease(net)
    wait_for("an address of IPv6", lambda: is_leased(net, 6))
    with score.step("a day on, leases stay and are renewed"):
        host.set("+1d")
        renewals = host.reasons().count("RENEW")
        wait_for("two hooks", lambda: host.reasons().count("RENEW") >= renewals + 2)
        expect("an address is gone", is_leased(net) and is_leased(net, 6))
        expect("a lease has ended", not {"EXPIRE", "EXPIRE6"} & set(host.reasons()))
        expect("its lifetime", left(net, 4) and left(net, 4)[0] <= 125)
    host.stop()
    server.end()
    server = Udhcpd(net, 10)
    host.start()
    with score.step("a day back without a server, a lease ends in time"):
        await_lease(net)
        leased_at = time.monotonic()
        host.set("-1d")
        server.end()
        wait_for("its end", lambda: not is_leased(net), seconds=14)
        took = time.monotonic() - leased_at
        expect(f"{took:.1f} s", took > 8)
    with score.step("and it was the daemon's clock that was set"):
        host.stop()
        host.start("+1d")
        wait_for("a third life", lambda: host.transcript().count("dhcpcd-transcript") == 3)
        begun = wait_for("the start", lambda: re.findall(r"^start (\d+) ", last_life(host), re.M))
        ahead = int(begun[0]) / 1000 - time.time()
        expect(f"it is {ahead:.0f} s ahead", abs(ahead - 86400) < 60)


class Suspended(Host):
    """A run that reads how long the host has been up from a file."""

    def start(self):
        set_uptime(self.net, 0)
        mount = f"mount --bind {self.net.path('uptime')} /proc/uptime && exec \"$@\""
        words = ["--folder", self.folder, "--configuration", self.net.path("conf"), "--program", self.net.program]
        apart = ["unshare", "--mount", "sh", "-c", mount, "sh", LINK, *words, *self.links]
        with open(self.log, "ab") as log, open(self.said, "ab") as said:
            self.begun = time.monotonic()
            self.link = self.net.start(CLIENT, apart, stdout=log, stderr=said)


def set_uptime(net, asleep):
    """How long the host has been up, so many seconds of it suspended. The file stays, for the mount is of it."""
    with open(net.path("uptime"), "w", encoding="ascii") as file:
        file.write(f"{time.monotonic() + asleep:.2f} 0.00\n")


def wake_link():
    """Something that the kernel tells the link."""
    for word in ["add", "del"]:
        run("ip", "-n", CLIENT, "address", word, "198.51.100.9/32", "dev", "c0")


def suspended(net, score):
    """A host that was suspended, as its uptime tells."""
    server = Server(net, "--dhcp-option=58,3000")
    host = Suspended(net, QUICK)
    await_lease(net)
    wait_for("a lifetime", lambda: left(net, 4))
    since = server.mark()
    with score.step("its leases are confirmed on waking"):
        set_uptime(net, 3600)
        wake_link()
        await_said(host, "the host was suspended")
        wait_for("the hook", lambda: "REBIND" in host.reasons())
        expect("the server saw no REQUEST", server.said(since)[:2] == ["REQUEST", "ACK"])
    with score.step("once"):
        set_uptime(net, 3600)
        wake_link()
        time.sleep(1)
        expect("it was told again", read(host.said).count("suspended") == 1)


class Peer(threading.Thread):
    """What stands for link and server of a daemon alone: each message is answered, with a time until the renewal."""

    def __init__(self, seconds):
        super().__init__(daemon=True)
        self.seconds = seconds
        self.socket = socket.socket(socket.AF_INET, socket.SOCK_DGRAM)
        self.socket.bind(("127.0.0.1", 0))
        with socket.socket(socket.AF_INET, socket.SOCK_DGRAM) as free:
            free.bind(("127.0.0.1", 0))
            self.port = free.getsockname()[1]
        self.start()

    def run(self):
        kinds = {1: "offer", 3: "ack"}
        while True:
            frame = self.socket.recv(4096)[2:]
            if frame[12:14] != b"\x08\x00":
                continue
            xid, kind = int.from_bytes(frame[46:50], "big"), frame[42 + 240 + 2]
            words = {"xid": str(xid), "51": str(4 * self.seconds), "58": str(self.seconds), "59": str(3 * self.seconds)}
            if kind in kinds:
                answer = frames.frame(kinds[kind], MAC, words)
                self.socket.sendto(b"\1\1" + answer, ("127.0.0.1", self.port))


class Waiting:
    """A daemon alone with its peer, on this host's loopback."""

    def __init__(self, net, seconds, number):
        self.seconds, self.log = seconds, net.path(f"waiting-{seconds}-{number}")
        peer = Peer(seconds)
        files = net.path(f"files-{seconds}-{number}")
        os.mkdir(files)
        ports = [str(peer.port), str(peer.socket.getsockname()[1])]
        words = [net.program, "live", *ports, files, "/bin/true", f"c0={MAC}"]
        write_lines(net.path("conf"), [*QUICK, "script /dev/null"])
        with open(net.path("conf"), "rb") as lines, open(self.log, "wb") as log:
            self.child = subprocess.Popen(words, stdin=lines, stdout=log, stderr=subprocess.DEVNULL)
        net.children.append(self.child)

    def late(self):
        """By how many milliseconds the waits for a renewal ended too late, each."""
        found, turn, until = [], 0, 0
        for line in read(self.log).splitlines():
            words = line.split()
            if words[0] == "until":
                until = 0 if words[1] == "none" else int(words[1])
            elif words[0] == "turn":
                # the first wait is one for a hook of the opening
                if turn and words[3] == "quiet" and until - turn > 900 * self.seconds:
                    found.append(int(words[1]) - until)
                turn = int(words[1])
        return found


def waits(net, score):
    """Five minutes: waits of 5, 70 and 300 seconds by daemons alone, and a run that is idle with a lease of an hour."""
    daemons = [Waiting(net, seconds, number) for seconds in WAITS for number in range(DAEMONS)]
    begun = time.monotonic()
    idle = None
    if Dhcpd.is_there():
        Dhcpd(net, 3600)
        idle = Host(net, QUICK)
        await_lease(net)
        wait_for("a lifetime", lambda: left(net, 4))
        # what the kernel does by itself on a new address is over
        time.sleep(10)
        numbers = [idle.link.pid, idle.daemon_number()]
        before = wakeups(numbers)
        time.sleep(IDLE_SECONDS)
        minutes = (wakeups(numbers) - before) / (IDLE_SECONDS / 60)
        with score.step(f"an idle run with a lease of an hour wakes at most {WAKEUPS_A_MINUTE} times a minute"):
            expect(f"{minutes:.2f} a minute", minutes <= WAKEUPS_A_MINUTE)
        print(f"         {minutes:.2f} times a minute, of daemon and link together", flush=True)
    else:
        score.skip("an idle run", "no dhcpd")
    # a lease comes with the second DISCOVER or the third where the peer wasn't there for the first
    time.sleep(max(0, begun + WAITS[-1] + 20 - time.monotonic()))
    for seconds in WAITS:
        with score.step(f"a wait of {seconds} s ends at most {LATEST_MS} ms late"):
            late = [each for daemon in daemons if daemon.seconds == seconds for each in daemon.late()]
            expect("there is none", len(late) >= DAEMONS)
            # a busy machine may be late for any of them
            expect(f"late by {sorted(late)} ms", 0 <= min(late) <= LATEST_MS)
        median = statistics.median(late)
        print(f"         {len(late)} waits, late by {median:.0f} ms, at most {max(late)} ms", flush=True)


def hooks(net, score):
    """Twelve interfaces whose hooks follow one another."""
    names = {"c0": MAC, **{f"c{n}": f"02:00:00:77:01:{n:02x}" for n in range(1, MANY)}}
    for name, mac in list(names.items())[1:]:
        join(name, mac, f"s{name[1:]}")
        set_link(SERVER, f"s{name[1:]}", "up")
        set_link(CLIENT, name, "up")
    wait_for("carriers", lambda: run("ip", "-n", CLIENT, "-br", "link", "show", "type", "veth").count(" UP ") == MANY)
    hook = net.path("short")
    write_lines(hook, ["#!/bin/sh", f'echo "t $interface $reason" >>{net.path("host")}/hooks.log'])
    os.chmod(hook, 0o755)
    host = Host(net, [*QUICK, "nodhcp", f"script {hook}"], links=names)
    with score.step(f"{2 * MANY} hooks are run well within {HOOKS_SECONDS} s"):
        wait_for("hooks", lambda: len(host.reasons()) >= 2 * MANY, seconds=30)
        took = time.monotonic() - host.begun
        expect(f"they took {took:.1f} s", took < HOOKS_SECONDS)
        expect(f"{host.reasons()}", sorted(host.reasons()) == sorted(["PREINIT", "CARRIER"] * MANY))
    print(f"         {1000 * took:.0f} ms from the start to the last of them", flush=True)
    with score.step("and none is lost at a stop"):
        host.stop()
        expect(f"{host.reasons()}", host.reasons().count("STOPPED") == MANY)


CLOCK_TRIES = [stepped, suspended, hooks, waits]
