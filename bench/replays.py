#!/usr/bin/env python3
"""Times the program on long scripts, and on long configurations.

    bench/replays.py [--program PATH] [--kinds quiet carrier local lease renew renew6 lives saves busy check]
                     [--sizes 4 16] [--renewals 100 200] [--lives 10000 40000] [--ifaces 64] [--runs 1]

For each kind of script and each size in MiB (of `renew` and `renew6` each number of renewals, of `lives` that of lives that crash, of
`saves` a tenth of it, of lives that save and remove a file before they crash): the processor seconds, those over the ones of the size
before, those of sha256sum of the same script, the first over these, and the peak memory, also over the size of the script. Beside `lease`,
`renew` and `renew6`, which are of so many interfaces, stands the time in which tcpdump prints the servers' frames, the DHCP frames of both
ways, and those of ARP too, where there is a tcpdump. `busy` has the time of one turn on an interface among 64, and alone. `check` is a
configuration: blocks of 64 interfaces, again and again, with comments, values, lists within their limits and blocks that are skipped.
Times are the least of the runs by turns. `rt run` in crates/dhcpcd_prog builds the program.
"""

import argparse
import itertools
import os
import shutil
import struct
import subprocess
import sys
import tempfile

TOP = os.path.dirname(os.path.dirname(os.path.abspath(__file__)))
sys.path.insert(0, os.path.join(TOP, "tests"))
import frames  # noqa: E402 (it stands in another folder)

BUILT = os.path.join(TOP, "crates", "dhcpcd_prog", "out", "dhcpcd_prog")
MIB = 1 << 20
IFACES = 64
ARP = b"\x08\x06"  # the type of a frame that isn't DHCP
START = 1000  # the moment of the start
BUSY_ROUNDS = 2000
# What an ACK has beside the least: a further server of names, a name, a broadcast address, a time server, a search list.
MORE = {"6": "10.0.0.1,10.0.0.2", "15": "6578616d706c652e6f7267", "28": "10.255.255.255", "42": "10.0.0.1"}
MORE["119"] = "076578616d706c65036f726700"


def static_lines(ifaces):
    """Each interface has a static address and a router."""
    lines = []
    for i in range(1, ifaces + 1):
        lines += [
            f"c:interface eth{i}",
            f"c:static ip_address=10.0.{i}.2/24",
            f"c:static routers=10.0.{i}.1",
        ]
    return lines


def local_lines(ifaces):
    """Each interface chooses a link-local address."""
    return ["c:nodhcp"]


def leased_lines(ifaces):
    """Each interface asks for a lease at once, and probes its address."""
    return ["c:nodelay"]


def unprobed_lines(ifaces):
    """Each interface asks for a lease at once, and uses its address at once."""
    return ["c:nodelay", "c:noarp"]


def asking6_lines(ifaces):
    """Each interface asks for an address of DHCPv6 at once."""
    return ["c:nodhcp", "c:noipv4ll", "c:nodelay", "c:ia_na"]


def named_lines(ifaces):
    """Each interface has a static address and a server of names, which the resolver's file tells while it has carrier."""
    return static_lines(ifaces) + ["c:static domain_name_servers=10.0.1.1"]


def mac(iface):
    return f"02:00:00:00:00:{iface:02x}"


def head(conf_lines, ifaces):
    """The lines before the turns: the configuration, and interfaces that all have carrier."""
    lines = ["dhcpcd-script 1", "c:script /dev/null"] + conf_lines(ifaces)
    lines += [f"if {i} eth{i} {mac(i)}" for i in range(1, ifaces + 1)]
    lines.append(f"start {START} 0 up " + ",".join(str(i) for i in range(1, ifaces + 1)))
    return "".join(line + "\n" for line in lines)


def quiet_turns():
    """Turns in which nothing comes, one each second."""
    at = START
    while True:
        at += 1000
        yield f"turn {at} {at % 10} quiet\n"


def carrier_turns():
    """One interface after another loses its carrier, and then one after another has it again."""
    at = START
    while True:
        for state in ("down", "up"):
            for i in range(1, IFACES + 1):
                at += 1000
                yield f"turn {at} {at % 10} carrier {i} {state}\n"


def arp_reply(sender):
    """An ARP reply of another host with the address 169.254.1.SENDER."""
    return (
        "ffffffffffff0200000000ff08060001080006040002"
        f"0200000000ffa9fe01{sender:02x}0200000000010a000001"
    )


def local_turns():
    """A turn each quarter of a second. Every second turn brings an ARP frame, whose sender now and then has the very
    address of the interface; at every 16th an interface loses its carrier, and eight turns later has it again."""
    at, n = START, 0
    while True:
        at, n = at + 250, n + 1
        iface, hearer = n // 16 % IFACES + 1, n % 59 + 1
        if n % 16 == 0:
            event = f"carrier {iface} down"
        elif n % 16 == 8:
            event = f"carrier {iface} up"
        elif n % 2 == 1:
            event = f"frame {hearer} {arp_reply(hearer + n % 29)}"
        else:
            event = "quiet"
        yield f"turn {at} {at % 7} {event}\n"


class Turns:
    """The turns of interfaces with DHCPv4. The salt of the N-th has N in its upper half, so that an exchange which an
    interface begins in it has the transaction number N plus that of the interface."""

    def __init__(self):
        self.at, self.count, self.frames = START, 0, []

    def turn(self, later, event):
        self.at, self.count = self.at + later, self.count + 1
        return f"turn {self.at} {self.count << 32} {event}\n"

    def quiet(self, later):
        return self.turn(later, "quiet")

    def answer(self, kind, iface, began, options):
        """A server's answer a millisecond later, in the exchange that the interface began in the turn of that number."""
        words = {"xid": str(began + iface), "yiaddr": f"10.0.{iface}.2", **options}
        frame = frames.frame(kind, mac(iface), words)
        self.frames.append(frame)
        return self.turn(1, f"frame {iface} {frame.hex()}")

    def acquire(self, ifaces, lease):
        """The interfaces, which are to say a DISCOVER in the next millisecond, are offered a lease and granted it."""
        yield self.quiet(1)
        began = self.count
        for i in ifaces:
            yield self.answer("offer", i, began, {"51": str(lease)})
        for i in ifaces:
            yield self.answer("ack", i, began, {"51": str(lease), **MORE})

    def answer6(self, kind, iface, began, preference=""):
        """A server's answer of DHCPv6, likewise: two addresses for an hour, and a server of names."""
        item = f"2001:db8::{iface:x}:1/3600/7200+2001:db8::{iface:x}:2/3600/7200"
        words = {"client": "00030001020000000001", "xid": str(began + iface), "na": f"{iface}:0:0:{item}"}
        words |= {"preference": preference, "dns": "2001:db8::53"}
        frame = frames.frame(kind, mac(iface), words)
        self.frames.append(frame)
        return self.turn(1, f"frame {iface} {frame.hex()}")

    def acquire6(self, ifaces):
        """The interfaces, which are to say a SOLICIT in the next millisecond, are offered addresses and granted them."""
        yield self.quiet(1)
        solicited, asked = self.count, {}
        for i in ifaces:
            asked[i] = self.count + 1
            yield self.answer6("advertise", i, solicited, "255")
        for i in ifaces:
            yield self.answer6("reply", i, asked[i])

    def probe(self):
        """Three probes, and two announcements."""
        for _ in range(5):
            yield self.quiet(2001)


def lease_turns(turns, ifaces):
    """All interfaces acquire leases of a minute, which end, and begin anew."""
    while True:
        yield from turns.acquire(range(1, ifaces + 1), 60)
        yield from turns.probe()
        yield turns.quiet(60_000)


def renewed_turns(turns, ifaces, times):
    """All interfaces acquire leases of an hour, and renew them so many times."""
    yield from turns.acquire(range(1, ifaces + 1), 3600)
    yield from turns.probe()
    for _ in range(times):
        yield turns.quiet(1_801_000)
        began = turns.count
        for i in range(1, ifaces + 1):
            yield turns.answer("ack", i, began, {"51": "3600", **MORE})


def renewed6_turns(turns, ifaces, times):
    """All interfaces acquire addresses of DHCPv6, and renew them so many times."""
    yield from turns.acquire6(range(1, ifaces + 1))
    for _ in range(times):
        yield turns.quiet(1_801_000)
        began = turns.count
        for i in range(1, ifaces + 1):
            yield turns.answer6("reply", i, began)


def busy_turns(turns, ifaces):
    """The first interface acquires a lease of ten seconds, again and again. The others hold leases without end."""
    yield from turns.acquire(range(2, ifaces + 1), 4294967295)
    for state in ("down", "up"):
        yield turns.turn(1, f"carrier 1 {state}")
    for _ in range(BUSY_ROUNDS):
        yield from turns.acquire([1], 10)
        yield turns.quiet(10_000)


def lived_turns(lives):
    """So many lives, in which the interface loses its carrier. All but the last crash."""
    at = START
    for life in range(lives):
        if life > 0:
            yield f"crash - old\nstart {at} 0 up 1\n"
        yield f"turn {at + 1000} 0 carrier 1 down\n"
        at += 10_000


def conf_lines_of_blocks():
    """Lines of a configuration without end: lists once, and then values, comments and skipped blocks."""
    for i in range(IFACES):
        yield f"interface eth{i}\noption {' '.join(['ntp_servers'] * 60)}\nblacklist {' '.join(['192.0.2.0/24'] * 60)}\n"
    while True:
        for i in range(IFACES):
            yield f"# what is said of eth{i}\ninterface eth{i}\n\tmetric {100 + i}\n\thostname host-{i}.example.org\n"
            yield f"\tclientid 00:01:02:{i:02x}\n\tstatic routers=10.0.{i}.1 10.0.{i}.2\n\tnoarp\n\ttimeout 60\n"
            yield "ssid a network\n\tmetric 5\n\t; nothing of this counts\n\n"


def sized(text, lines, size):
    """As many whole lines as a script of at most so many bytes has."""
    left = size - len(text)
    for line in lines:
        left -= len(line)
        if left < 0:
            return
        yield line


def script_of(conf_lines, ifaces, lines, size=None):
    """The lines of a script, at most so many bytes of them where that is said."""
    text = head(conf_lines, ifaces)
    return itertools.chain([text], lines if size is None else sized(text, lines, size))


# The kinds of scripts that are made of a size, each with its turns and how many interfaces they need, where that isn't chosen.
SIZED = {
    "quiet": (static_lines, 1, lambda turns, ifaces: quiet_turns()),
    "carrier": (static_lines, IFACES, lambda turns, ifaces: carrier_turns()),
    "local": (local_lines, IFACES, lambda turns, ifaces: local_turns()),
    "lease": (leased_lines, None, lease_turns),
}
# Those that are made of a number of renewals.
RENEWED = {"renew": (leased_lines, renewed_turns), "renew6": (asking6_lines, renewed6_turns)}
# Those that are made of a number of lives, each with what part of it.
LIVED = {"lives": (static_lines, 1), "saves": (named_lines, 10)}
KINDS = [*SIZED, *RENEWED, *LIVED, "busy", "check"]


def write_lines(path, lines):
    with open(path, "w", encoding="ascii") as script:
        script.writelines(lines)


def write_pcap(path, packets):
    """Writes frames as a capture of Ethernet, one each millisecond, and says how many they are."""
    count = 0
    with open(path, "wb") as capture:
        capture.write(struct.pack("<IHHiIII", 0xA1B2C3D4, 2, 4, 0, 0, 65535, 1))
        for packet in packets:
            capture.write(struct.pack("<IIII", count // 1000, count % 1000 * 1000, len(packet), len(packet)) + packet)
            count += 1
    return count


def used(words, path):
    """The processor seconds of a program that reads a file, and its peak memory in bytes."""
    with open(path, "rb") as given:
        child = subprocess.Popen(words, stdin=given, stdout=subprocess.DEVNULL, stderr=subprocess.DEVNULL)
        _, status, usage = os.wait4(child.pid, 0)
    child.returncode = os.waitstatus_to_exitcode(status)
    if child.returncode != 0:
        sys.exit(f"{words[0]}: status {child.returncode}")
    return usage.ru_utime + usage.ru_stime, usage.ru_maxrss * 1024


def least(jobs, runs):
    """The least processor seconds of each of these programs with the file that it reads, by turns, and its most memory."""
    rounds = [[used(words, path) for words, path in jobs] for _ in range(runs)]
    return [(min(seconds for seconds, _ in its), max(peak for _, peak in its)) for its in zip(*rounds)]


def run_one(program, path, kind, size, before, runs, word="replay", captures=()):
    """Runs the program on a script or a configuration by turns with sha256sum, and with tcpdump on captures, prints its row, and gives
    its seconds."""
    jobs = [([program, word], path), (["sha256sum"], path)]
    jobs += [(["tcpdump", "-n", "-v", "-r", "-"], capture) for _, _, capture in captures]
    (seconds, peak), (summing, _), *printing = least(jobs, runs)
    ratio = f"{seconds / before:5.1f}" if before else "    -"
    print(
        f"{kind:8} {size:5}  {seconds:8.3f}  {ratio}  {summing:9.3f}  {seconds / summing:5.1f}"
        f"  {peak / MIB:8.0f}  {peak / os.path.getsize(path):10.1f}",
        flush=True,
    )
    for (what, count, _), (its, _) in zip(captures, printing):
        print(f"         {count} frames {what}: tcpdump -n -v {its:.3f} s, the replay {seconds / its:.2f} times as long", flush=True)
    return seconds


def run_sized(program, room, kind, sizes, chosen, runs):
    conf_lines, needed, lines = SIZED[kind]
    ifaces = needed or chosen
    path, before = os.path.join(room, "script"), None
    for size in sizes:
        turns = Turns()
        write_lines(path, script_of(conf_lines, ifaces, lines(turns, ifaces), size * MIB))
        captures = captures_of(program, room, turns.frames, path)
        before = run_one(program, path, kind, size, before, runs, captures=captures)


def run_checks(program, room, sizes, runs):
    path, before = os.path.join(room, "configuration"), None
    for size in sizes:
        write_lines(path, sized("", conf_lines_of_blocks(), size * MIB))
        before = run_one(program, path, "check", size, before, runs, "check")


def run_lives(program, room, kind, numbers, runs):
    conf_lines, part = LIVED[kind]
    path, before = os.path.join(room, "script"), None
    for lives in numbers:
        write_lines(path, script_of(conf_lines, 1, lived_turns(lives // part)))
        before = run_one(program, path, kind, lives // part, before, runs)


def link_frames(program, path):
    """The frames that came and that were sent in the transcript of a script, in their order."""
    with open(path, "rb") as script:
        child = subprocess.Popen([program, "replay"], stdin=script, stdout=subprocess.PIPE, text=True)
        for line in child.stdout:
            words = line.split()
            if words[0] == "turn" and words[3] == "frame":
                yield bytes.fromhex(words[5])
            elif words[0] == "send":
                yield bytes.fromhex(words[2])
        if child.wait() != 0:
            sys.exit(f"{program}: status {child.returncode}")


def captures_of(program, room, heard, script):
    """The servers' frames as a capture, all DHCP frames of the same replay, and those of ARP too: what each has, how many, and its file."""
    if not heard or shutil.which("tcpdump") is None:
        return []
    packets = list(link_frames(program, script))
    dhcp = [packet for packet in packets if packet[12:14] != ARP]
    kinds = [("heard", heard), ("heard and sent", dhcp)]
    if len(dhcp) < len(packets):
        kinds.append(("heard and sent, those of ARP among them", packets))
    paths = [os.path.join(room, f"capture-{number}") for number in range(len(kinds))]
    return [(what, write_pcap(path, its), path) for (what, its), path in zip(kinds, paths)]


def run_renewals(program, room, kind, numbers, ifaces, runs):
    conf_lines, lines = RENEWED[kind]
    path, before = os.path.join(room, "script"), None
    for times in numbers:
        turns = Turns()
        write_lines(path, script_of(conf_lines, ifaces, lines(turns, ifaces, times)))
        before = run_one(program, path, kind, times, before, runs, captures=captures_of(program, room, turns.frames, path))


def run_busy(program, room, runs):
    """The time of a turn on an interface among others that rest, and alone."""
    jobs, counts = [], []
    for ifaces in (1, IFACES):
        turns, path = Turns(), os.path.join(room, f"script-{ifaces}")
        write_lines(path, script_of(unprobed_lines, ifaces, busy_turns(turns, ifaces)))
        jobs.append(([program, "replay"], path))
        counts.append(turns.count)
    alone, among = (seconds / count * 1e6 for (seconds, _), count in zip(least(jobs, runs), counts))
    print(f"busy     {alone:.2f} microseconds a turn alone, {among:.2f} of {IFACES}: {among / alone:.2f} times as long", flush=True)


def main():
    parser = argparse.ArgumentParser(
        description=__doc__, formatter_class=argparse.RawDescriptionHelpFormatter
    )
    parser.add_argument("--program", default=BUILT)
    parser.add_argument("--kinds", nargs="+", choices=KINDS, default=KINDS)
    parser.add_argument("--sizes", nargs="+", type=int, default=[4, 16], metavar="MIB")
    parser.add_argument("--renewals", nargs="+", type=int, default=[100, 200], metavar="TIMES")
    parser.add_argument("--lives", nargs="+", type=int, default=[10_000, 40_000], metavar="COUNT")
    parser.add_argument("--runs", type=int, default=1, metavar="COUNT")
    parser.add_argument("--ifaces", type=int, choices=range(1, IFACES + 1), default=IFACES, metavar="COUNT")
    options = parser.parse_args()
    if not os.access(options.program, os.X_OK):
        sys.exit(f"{options.program} isn't built: cd crates/dhcpcd_prog && rt run -- replay < stdin")
    print("kind      size   seconds  ratio  sha256sum  ratio  peak MiB  peak/input", flush=True)
    with tempfile.TemporaryDirectory() as room:
        for kind in options.kinds:
            if kind in RENEWED:
                run_renewals(options.program, room, kind, options.renewals, options.ifaces, options.runs)
            elif kind in LIVED:
                run_lives(options.program, room, kind, options.lives, options.runs)
            elif kind == "busy":
                run_busy(options.program, room, options.runs)
            elif kind == "check":
                run_checks(options.program, room, options.sizes, options.runs)
            else:
                run_sized(options.program, room, kind, options.sizes, options.ifaces, options.runs)


if __name__ == "__main__":
    main()
