"""Two hosts on a line of their own: a server with dnsmasq, and a client with the daemon and contrib/linux/link.

Each host is a network namespace, and the link a veth pair, so that no frame leaves them. Each wait is bounded, and what
was begun is ended with the `with` block of a Net.
"""

import os
import re
import select
import shutil
import subprocess
import tempfile
import time

CONTRIB = os.path.join(os.path.dirname(os.path.dirname(os.path.abspath(__file__))), "contrib", "linux")
LINK = os.environ.get("DHCPCD_LINK", os.path.join(CONTRIB, "link", "target", "release", "dhcpcd-link"))
CLIENT, SERVER = f"dhcpcd-t1-{os.getpid()}", f"dhcpcd-t2-{os.getpid()}"
MAC = "02:00:00:77:00:02"
ROUTER, ROUTER6 = "10.77.0.1", "2001:db8:77::1"
RANGE, RANGE6 = "10.77.0.100,10.77.0.120", "2001:db8:77::100,2001:db8:77::120"
PORT, PEER = "40001", "40002"
STOP_SECONDS = 9  # a daemon that was told to stop goes on for five
END_SECONDS = 12  # within which a process that is told to end has to
RENEW_SECONDS = 5  # after which a lease is renewed


class Failure(Exception):
    """What isn't as it shall be."""


def wait_for(what, holds, seconds=20):
    """The first answer that isn't false or empty. As a rule it comes within a second or two."""
    until = time.monotonic() + seconds
    while True:
        answer = holds()
        if answer:
            return answer
        if time.monotonic() > until:
            raise Failure(f"{what}: not within {seconds} s")
        time.sleep(0.05)


def expect(what, holds):
    """That something holds; else what is said is what is wrong."""
    if not holds:
        raise Failure(what)


def run(*command, seconds=10):
    """What a command prints. One that fails, or doesn't end, is a failure."""
    try:
        return subprocess.run(command, check=True, timeout=seconds, capture_output=True, text=True).stdout
    except subprocess.CalledProcessError as error:
        raise Failure(f"{' '.join(command)}: {error.stderr.strip()}") from error
    except subprocess.TimeoutExpired as error:
        raise Failure(f"{' '.join(command)}: not within {seconds} s") from error


def read(path):
    """The text of a file, empty where there is none."""
    try:
        with open(path, encoding="utf8", errors="replace") as file:
            return file.read()
    except FileNotFoundError:
        return ""


def write_lines(path, lines):
    with open(path, "w", encoding="ascii") as file:
        file.writelines(line + "\n" for line in lines)


def set_link(host, name, state):
    """Sets an interface `up` or `down`."""
    run("ip", "-n", host, "link", "set", name, state)


def join(name, mac, peer):
    """A link between the two hosts."""
    ends = [name, "address", mac, "netns", CLIENT, "type", "veth", "peer", "name", peer, "netns", SERVER]
    run("ip", "link", "add", *ends)


def tentative(host):
    """Addresses that the host doesn't use yet."""
    return run("ip", "-n", host, "-6", "address", "show", "tentative")


def end(child):
    """Waits for a process that was told to end, and kills it if it doesn't."""
    try:
        child.wait(END_SECONDS)
    except subprocess.TimeoutExpired:
        child.kill()
        child.wait()


class Net:
    """The two hosts with their link from c0 to s0, a folder, and the processes that run there."""

    def __init__(self, program):
        self.program = program
        self.folder = tempfile.mkdtemp(prefix="dhcpcd-live-")
        self.children = []

    def __enter__(self):
        try:
            self.make()
        except BaseException:
            self.__exit__()
            raise
        return self

    def make(self):
        for host in [CLIENT, SERVER]:
            run("ip", "netns", "add", host)
            set_link(host, "lo", "up")
        join("c0", MAC, "s0")
        # the server is a router, and what it has of IPv6 outlasts a loss of the carrier
        for name in ["all/forwarding", "s0/keep_addr_on_down"]:
            run("ip", "netns", "exec", SERVER, "sh", "-c", f"echo 1 >/proc/sys/net/ipv6/conf/{name}")
        run("ip", "-n", SERVER, "address", "add", f"{ROUTER}/24", "dev", "s0")
        run("ip", "-n", SERVER, "address", "add", f"{ROUTER6}/64", "dev", "s0", "nodad")
        set_link(SERVER, "s0", "up")
        set_link(CLIENT, "c0", "up")
        # the link-local addresses have to be the hosts' own before DHCPv6 can come and go
        wait_for("link-local addresses", lambda: not any(map(tentative, [CLIENT, SERVER])))

    def __exit__(self, kind=None, *_):
        for child in self.children:
            child.terminate()
        for child in self.children:
            end(child)
        for host in [CLIENT, SERVER]:
            subprocess.run(["ip", "netns", "delete", host], check=False, stderr=subprocess.DEVNULL)
        if kind is Failure:
            print(f"         its files stay in {self.folder}", flush=True)
        else:
            shutil.rmtree(self.folder, ignore_errors=True)

    def start(self, host, command, **streams):
        """A process of a host; `ip` becomes the command, so that it has its number."""
        child = subprocess.Popen(["ip", "netns", "exec", host, *command], **streams)
        self.children.append(child)
        return child

    def path(self, name):
        return os.path.join(self.folder, name)

    def addresses(self):
        """The addresses of the client's interface, with their lengths, but for link-local ones of IPv6."""
        shown = run("ip", "-n", CLIENT, "-o", "address", "show", "dev", "c0").splitlines()
        return {line.split()[3] for line in shown if "inet6 fe80:" not in line}

    def leased(self, family):
        """The address of a lease: of IPv4 any, of IPv6 one of the whole width."""
        is_leased = {4: lambda text: "." in text, 6: lambda text: text.endswith("/128")}[family]
        return next(filter(is_leased, self.addresses()), None)

    def routes(self):
        """What the daemon has of routes, but for the address that they are from and how long they still stand."""
        shown = [run("ip", f"-{family}", "-n", CLIENT, "route", "show", "proto", "dhcp") for family in (4, 6)]
        lines = [re.sub(r" (src \S+|expires \d+sec)", "", line) for text in shown for line in text.splitlines()]
        return {" ".join(line.split()) for line in lines}


DNSMASQ = [
    "dnsmasq",
    "--keep-in-foreground",
    "--conf-file=/dev/null",
    "--port=0",
    "--no-resolv",
    "--user=root",
    "--pid-file=",
    "--interface=s0",
    "--bind-interfaces",
    "--no-ping",
    "--dhcp-authoritative",
    "--enable-ra",
    "--domain=example.org",
    f"--dhcp-range={RANGE6},slaac,64,2m",
    f"--dhcp-option=6,{ROUTER}",
    f"--dhcp-option=option6:dns-server,[{ROUTER6}]",
    f"--dhcp-option=58,{RENEW_SECONDS}",
]


class Server:
    """dnsmasq on the server's interface, with further words."""

    def __init__(self, net, *words, ends=RANGE):
        self.log = net.path("server.log")
        files = [f"--dhcp-leasefile={net.path('leases')}", f"--log-facility={self.log}"]
        command = [*DNSMASQ, *files, f"--dhcp-range={ends},2m", *words]
        self.child = net.start(SERVER, command, stderr=subprocess.DEVNULL)
        wait_for("dnsmasq", lambda: "sockets bound" in read(self.log))

    def end(self):
        self.child.terminate()
        end(self.child)
        os.remove(self.log)

    def mark(self):
        """Where its log ends."""
        return len(read(self.log))

    def said(self, since=0):
        """The kinds of DHCP's messages past a mark, in their order; one of IPv6 begins with `6`."""
        kinds = []
        for line in read(self.log)[since:].splitlines():
            found = re.search(r" DHCP([A-Z]+)\(s0\) (.*)", line)
            if found:
                kind, rest = found.groups()
                kinds.append(("6" if "00:03:00:01" in rest else "") + kind)
        return kinds


class Host:
    """The daemon with the link on the client's interfaces, with lines of a configuration."""

    def __init__(self, net, lines, links=None):
        self.net = net
        self.links = links or {"c0": MAC}
        self.folder = net.path("host")
        self.log = net.path("transcript")
        self.said = net.path("said")
        self.prepare(lines)
        self.start()

    def prepare(self, lines):
        write_lines(self.net.path("conf"), lines)

    def start(self):
        words = ["--folder", self.folder, "--configuration", self.net.path("conf"), "--program", self.net.program]
        with open(self.log, "ab") as log, open(self.said, "ab") as said:
            self.begun = time.monotonic()
            self.link = self.net.start(CLIENT, [LINK, *words, *self.links], stdout=log, stderr=said)

    def daemon_number(self):
        """The number of the daemon's process, which the link starts."""

        def child():
            children = read(f"/proc/{self.link.pid}/task/{self.link.pid}/children").split()
            return children and read(f"/proc/{children[0]}/cmdline").startswith(self.net.program) and int(children[0])

        return wait_for("the daemon", child)

    def file(self, name):
        """What the daemon keeps under this name."""
        return read(os.path.join(self.folder, "files", name))

    def transcript(self):
        return read(self.log)

    def reasons(self):
        """The reasons of the hooks that ran, in their order."""
        lines = read(os.path.join(self.folder, "hooks.log")).splitlines()
        return [line.split()[2] for line in lines if not line.startswith(" ")]

    def crash(self):
        """Kills both, the link first so that it does nothing about the other's end."""
        daemon = self.daemon_number()
        self.link.kill()
        self.link.wait()
        # it may have ended with the link already
        subprocess.run(["kill", "-9", str(daemon)], check=False, stderr=subprocess.DEVNULL)
        wait_for("the daemon's end", lambda: not os.path.exists(f"/proc/{daemon}"))

    def stop(self):
        """Tells both to end, and waits for it."""
        daemon = self.daemon_number()
        self.link.terminate()
        self.await_end(self.link)
        expect(f"status {self.link.returncode}", self.link.returncode == 0)
        expect("the daemon goes on", not os.path.exists(f"/proc/{daemon}"))

    def await_end(self, child):
        try:
            child.wait(STOP_SECONDS)
        except subprocess.TimeoutExpired as error:
            raise Failure("it doesn't end") from error

    def memory(self):
        """What daemon and link have in memory, in KiB."""
        sizes = [read(f"/proc/{number}/status") for number in (self.daemon_number(), self.link.pid)]
        return [int(re.search(r"VmRSS:\s*(\d+)", size).group(1)) for size in sizes]


class Apart(Host):
    """The daemon and the link as a bridge alone, so that folder and script are another's; the rows are made without it."""

    def __init__(self, net, lines, files=None, script=None, links=None):
        self.files = files or os.path.join(net.path("host"), "files")
        self.script = script or os.path.join(net.path("host"), "host")
        super().__init__(net, lines, links)

    def prepare(self, lines):
        super().prepare(lines)
        os.makedirs(os.path.join(self.folder, "files"))
        os.symlink(LINK, os.path.join(self.folder, "host"))
        os.symlink(os.path.join(CONTRIB, "hook"), os.path.join(self.folder, "hook"))
        write_lines(os.path.join(self.folder, "interfaces"), self.links)

    def start(self):
        command = [LINK, "bridge", PORT, PEER, *self.links]
        self.link = self.net.start(CLIENT, command, stdout=subprocess.PIPE)
        if not select.select([self.link.stdout], [], [], 10)[0] or self.link.stdout.readline() != b"ready\n":
            raise Failure("the bridge didn't begin")
        pairs = [f"{name}={mac}" for name, mac in self.links.items()]
        command = [self.net.program, "live", PORT, PEER, self.files, self.script, *pairs]
        with open(self.net.path("conf"), "rb") as lines, open(self.log, "ab") as log:
            self.begun = time.monotonic()
            self.daemon = self.net.start(CLIENT, command, stdin=lines, stdout=log, stderr=subprocess.DEVNULL)

    def crash(self):
        for child in [self.daemon, self.link]:
            child.kill()
            child.wait()

    def stop(self):
        self.link.terminate()
        for child in [self.daemon, self.link]:
            self.await_end(child)
        ended = self.daemon.returncode, self.link.returncode
        expect(f"statuses {ended} of daemon and bridge", ended == (0, 0))
