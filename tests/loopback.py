#!/usr/bin/env python3
"""Lives of `dhcpcd live` on this machine alone, each over a folder and a script of its own and the loopback address, and what the
program does where its streams fail.

    tests/loopback.py PROGRAM            all of LIVES, side by side: a minute, for a hook has one, and next to no work
    tests/loopback.py PROGRAM LIFE..     some of them

datagrams   each kind is a turn with its event, and so is one of no form; a stranger's is passed over, and a port that is had fails;
            salts are the words of their generator
lease       frames go to the peer, no quiet turn comes before its moment, and a granted lease stands in the folder and on the host;
            the next life takes what stands aside out of the folder, and reads the lease
files       a file that goes away before its removal is removed; where the folder goes with it, that can't be settled
rows        what the script lists is read; a row that it refuses is told as failed, and so is a listing that isn't of rows
hooks       a hook's end wakes the daemon and is told with its status; one that goes on for a minute is killed, another goes on
nowhere     a script and a folder that aren't there, and no word for a script
streams     what is written in one call each; an output that is full later, and an input that fails later

Ends with 0 where all is as it shall be; else it says what isn't.
"""

import os
import re
import resource
import signal
import socket
import struct
import subprocess
import sys
import tempfile
import threading
import time
from concurrent.futures import ThreadPoolExecutor
from itertools import islice

import frames

LOOPBACK = "127.0.0.1"
OWN = "02:00:00:00:00:01"
ETH0, WLAN0 = f"eth0={OWN}", "wlan0=02:00:00:00:00:02"
STOP = b"\x06\0"
USAGE, READ_FAULT, WRITE_FAULT, LINK_FAULT = 2, 5, 6, 7
# It has no rows, takes each change, and ends each hook at once.
PLAIN = "exit 0"
ADDRESS = "addr 1 10.0.0.50/24"


class Failure(Exception):
    """What isn't as it shall be."""


def expect(what, found, wanted):
    if found != wanted:
        raise Failure(f"{what}: {found}, not {wanted}")


def new_socket():
    """A socket on a free port."""
    made = socket.socket(socket.AF_INET, socket.SOCK_DGRAM)
    made.bind((LOOPBACK, 0))
    made.settimeout(20)
    return made


def free_port():
    with new_socket() as found:
        return found.getsockname()[1]


class Turn:
    """A turn, or the opening: its moment, salt and event, the lines of its calls, and the moment that it asks for."""

    def __init__(self, words):
        self.at, self.salt, self.event = int(words[1]), int(words[2]), " ".join(words[3:])
        self.calls, self.until = [], None


def turns_of(lines):
    """The opening and the turns of a transcript."""
    turns = []
    for line in lines:
        words = line.split()
        if words[0] in ("start", "turn"):
            turns.append(Turn(words))
        elif words[0] == "until":
            turns[-1].until = None if words[1] == "none" else int(words[1])
        elif turns:
            turns[-1].calls.append(line)
    return turns


def early_turns(turns):
    """The quiet turns that came before the moment asked for."""
    return [turn for before, turn in zip(turns, turns[1:]) if turn.event == "quiet" and turn.at < (before.until or 0)]


class Life:
    """A life of `live`, whose peer is here. It is stopped with its `with` block, and has to end well."""

    def __init__(self, program, room, conf, script=PLAIN, ifaces=(ETH0,)):
        self.room, self.folder = room, os.path.join(room, "files")
        os.makedirs(self.folder, exist_ok=True)
        self.script = os.path.join(room, "script")
        with open(self.script, "w", encoding="utf-8") as it:
            it.write(f"#!/bin/sh\ncd {room}\n{script}\n")
        os.chmod(self.script, 0o700)
        self.peer, self.port = new_socket(), free_port()
        self.words = [program, "live", str(self.port), str(self.peer.getsockname()[1]), self.folder, self.script, *ifaces]
        self.conf, self.lines, self.status, self.more = conf, [], None, threading.Condition()

    def __enter__(self):
        self.process = subprocess.Popen(self.words, stdin=subprocess.PIPE, stdout=subprocess.PIPE, text=True)
        self.process.stdin.write(self.conf)
        self.process.stdin.close()
        self.reader = threading.Thread(target=self.read)
        self.reader.start()
        return self

    def read(self):
        for line in self.process.stdout:
            with self.more:
                self.lines.append(line.rstrip("\n"))
                self.more.notify_all()

    def wait_for(self, form, seconds=20):
        """The first line of this form."""
        until = time.monotonic() + seconds
        with self.more:
            while True:
                found = [line for line in self.lines if re.fullmatch(form, line)]
                if found:
                    return found[0]
                if not self.more.wait(until - time.monotonic()):
                    raise Failure(f"no line {form} within {seconds} s, but {self.lines}")

    def say(self, *datagrams):
        for datagram in datagrams:
            self.peer.sendto(datagram, (LOOPBACK, self.port))

    def hear(self):
        return self.peer.recv(4096)

    def __exit__(self, kind, error, trace):
        if kind is None:
            self.wait_for("until .*")
            self.say(STOP)
        else:
            self.process.kill()
        try:
            self.status = self.process.wait(20)
        finally:
            self.process.kill()
            self.reader.join()
            self.process.stdout.close()
            self.peer.close()
        if kind is None:
            expect("status", (self.status, self.lines[-1]), (0, "end"))

    def turns(self):
        return turns_of(self.lines)

    def stood(self, name):
        """The bytes of a file of the folder."""
        with open(os.path.join(self.folder, name), "rb") as it:
            return it.read()


def split_mix(state):
    """The words of SplitMix64 (Steele, Lea and Flood, 2014) from a state on."""
    while True:
        state = (state + 0x9E3779B97F4A7C15) % 2**64
        word = (state ^ state >> 30) * 0xBF58476D1CE4E5B9 % 2**64
        word = (word ^ word >> 27) * 0x94D049BB133111EB % 2**64
        yield word ^ word >> 31


# Its first words from this state on, by the reference code.
REFERENCE = (1234567, [6457827717110365317, 3203168211198807973, 9817491932198370423, 4593380528125082431, 16408922859458223821])

# Datagrams, each with the event of its turn.
EVENTS = [
    (b"\x01\x02frame", "frame 2 6672616d65"),
    (b"\x01\x03", "frame 3 -"),
    (b"\x02\x03\0", "carrier 3 down"),
    (b"\x02\x03\x01", "carrier 3 up"),
    (b"\x02\x03\x02", "quiet"),
    (b"\x03\x01" + bytes(15) + b"\x01", "dup 1 ::1"),
    (b"\x04\x01", "release 1"),
    (b"\x05\x01", "rebind 1"),
    (b"\x07\x01", "quiet"),
    (b"", "quiet"),
    (STOP, "stop"),
]


def datagrams(program, room):
    life = Life(program, room, "nodhcp\nnoipv4ll\nscript /dev/null\n")
    with life, new_socket() as stranger:
        life.wait_for("until none")
        stranger.sendto(STOP, (LOOPBACK, life.port))
        life.say(*[datagram for datagram, _ in EVENTS])
        life.wait_for("turn .* stop")
        taken = subprocess.run(life.words, input=life.conf, capture_output=True, text=True, check=False)
    refused = (taken.returncode, taken.stdout.splitlines()[-1], taken.stderr)
    expect("a port that is had", refused, (LINK_FAULT, "life 1", "dhcpcd: link failed\n"))
    opening, *turns = life.turns()
    wanted = [event for _, event in EVENTS]
    expect("events", [turn.event for turn in turns[: len(wanted)]], wanted)
    stop, last = turns[len(wanted) - 1], turns[-1]
    expect("the life is over five seconds after the stop", (last.at >= stop.at + 5000, turns[-2].at < stop.at + 5000), (True, True))
    expect("moments rise", sorted(turn.at for turn in turns), [turn.at for turn in turns])
    expect("the opening comes first", opening.at <= turns[0].at, True)
    expect("the words of the reference", list(islice(split_mix(REFERENCE[0]), 5)), REFERENCE[1])
    expect("salts", [turn.salt for turn in life.turns()], list(islice(split_mix(opening.at), len(life.turns()))))


def reply(kind, datagram):
    """The server's answer to a frame of DHCPv4 that was sent to the peer, as a datagram."""
    xid = datagram[2 + 46 : 2 + 50].hex()
    words = {"xid": str(int(xid, 16))} if kind == "offer" else {"xid": str(int(xid, 16)), "to": OWN}
    return b"\x01\x01" + frames.frame(kind, OWN, words)


LEASED = "ipv4only\nnodelay\nnoarp\nscript /dev/null\n"


def files_of(calls):
    return [" ".join(call.split()[1:3] + call.split()[-1:]) for call in calls if call.startswith("store ")]


def lease(program, room):
    life = Life(program, room, LEASED)
    with life:
        discover = life.hear()
        life.say(reply("offer", discover))
        request = life.hear()
        life.say(reply("ack", request))
        life.wait_for("store settle ok")
        kept = life.stood("eth0.lease4")
    sent = [line.split()[2] for line in life.lines if line.startswith("send 1 ")]
    expect("frames", sent[:2], [discover[2:].hex(), request[2:].hex()])
    expect("their datagrams", (discover[:2], request[:2]), (b"\x01\x01", b"\x01\x01"))
    turns = life.turns()
    expect("quiet turns before their moments", [turn.at for turn in early_turns(turns)], [])
    leased = next(turn for turn in turns if f"host add {ADDRESS} ok" in turn.calls)
    written = f"write eth0.lease4 {kept.hex()} ok"
    expect("the lease is kept", f"store {written}" in leased.calls, True)
    saved = ["write eth0.lease4 ok", "sync eth0.lease4 ok", "rename eth0.lease4 ok", "settle ok ok"]
    expect("and settled", files_of(leased.calls)[:4], saved)
    expect("nothing stands aside", [name for name in os.listdir(life.folder) if name.endswith(".new")], [])
    for name in ("resolv.conf.new", "duid.new"):
        with open(os.path.join(life.folder, name), "w", encoding="utf-8"):
            pass
    again = Life(program, room, LEASED)
    with again:
        pass
    calls = again.turns()[0].calls
    removed = ["store remove duid.new ok", "store remove resolv.conf.new ok", "store settle ok"]
    expect("asides", calls[:4], ["store list ok duid.new resolv.conf.new", *removed])
    expect("they are gone", [name for name in os.listdir(life.folder) if name.endswith(".new")], [])
    expect("the lease is read", f"store read eth0.lease4 {kept.hex()}" in calls, True)


def files(program, room):
    for gone, settled in (("files/resolv.conf", "ok"), ("files", "failed")):
        life = Life(program, room, "nodhcp\nnoipv4ll\nscript /dev/null\n", f"[ $1 = host-list ] && rm -r {gone}")
        with open(os.path.join(life.folder, "resolv.conf"), "w", encoding="utf-8") as it:
            it.write("# of others\n")
        with life:
            pass
        wanted = [f"store read resolv.conf {b'# of others'.hex()}0a", "store remove resolv.conf ok", f"store settle {settled}"]
        expect(f"without {gone}", life.turns()[0].calls[1:], [wanted[0], "host list ok 0", *wanted[1:]])


# It has one row, and takes no other than that address.
HOST = """case "$*" in
host-list) echo 'addr 1 10.9.9.9/8';;
'host-add addr 1 10.0.0.5/24') ;;
*) exit 1;;
esac"""
STATIC = "nodhcp\nnoipv4ll\nscript /dev/null\ninterface eth0\nstatic ip_address=10.0.0.5/24\n"


def rows(program, room):
    life = Life(program, room, STATIC, HOST)
    with life:
        pass
    wanted = [
        "host list ok 1",
        "row addr 1 10.9.9.9/8",
        "host del addr 1 10.9.9.9/8 failed",
        "host add addr 1 10.0.0.5/24 ok",
        "host add route 1 10.0.0.0/24 metric 1001 failed",
    ]
    asked = [call for call in life.turns()[0].calls if call.startswith(("host", "row"))]
    expect("rows of a script", asked, wanted)
    # a script without a slash is looked for along PATH, and this one prints its words, which are no rows
    other = Life(program, os.path.join(room, "other"), STATIC)
    other.words[5] = "echo"
    with other:
        pass
    expect("words for rows", [call for call in other.turns()[0].calls if call.startswith("host list")], ["host list failed"])


# One hook goes on for long, and its number stands in a file; the others end with 3.
HOOK = """[ $# -gt 0 ] && exit 0
[ "$interface $reason" = 'wlan0 CARRIER' ] || exit 3
echo $$ >number.new
mv number.new number
exec sleep 600"""
HOOKS = ["PREINIT eth0", "CARRIER eth0", "PREINIT wlan0", "CARRIER wlan0", "STOPPED eth0", "STOPPED wlan0"]
HOOK_SECONDS = 60


def hooks(program, room):
    life = Life(program, room, "nodhcp\nnoipv4ll\n", HOOK, (ETH0, WLAN0))
    with life:
        life.wait_for("hook poll 4 run")
        with open(os.path.join(room, "number"), encoding="utf-8") as it:
            number = int(it.read())
        os.kill(number, 0)
        life.wait_for("hook abandon 4", HOOK_SECONDS + 20)
        try:
            os.kill(number, 0)
            raise Failure(f"the hook {number} goes on")
        except ProcessLookupError:
            pass
    turns = life.turns()
    calls = [call for turn in turns for call in turn.calls if call.startswith("hook ")]
    started = [call.split()[2:] for call in calls if call.startswith("hook start ")]
    expect("hooks", started, [[str(number), *words.split(), "ok"] for number, words in enumerate(HOOKS, 1)])
    ended = [call for call in calls if " ended " in call]
    expect("their ends", ended, [f"hook poll {number} ended 3" for number in (1, 2, 3, 5, 6)])
    expect("the daemon is woken by an end", any(" ended 3" in call for turn in early_turns(turns) for call in turn.calls), True)
    begun = next(turn.at for turn in turns if any(call.startswith("hook start 4 ") for call in turn.calls))
    left = next(turn.at for turn in turns if "hook abandon 4" in turn.calls)
    expect("it had its time", left >= begun + 1000 * HOOK_SECONDS, True)


def nowhere(program, room):
    words = [program, "live", "6801", "6802", room, "", ETH0]
    refused = subprocess.run(words, stdin=subprocess.DEVNULL, capture_output=True, check=False)
    expect("an empty word for the script", (refused.returncode, refused.stdout), (USAGE, b""))
    life = Life(program, room, "nodhcp\nnoipv4ll\nia_na\nnodelay\n")
    os.remove(life.script)
    os.rmdir(life.folder)
    with life:
        pass
    calls = life.turns()[0].calls
    expect("a script that isn't there", ("host list failed" in calls, "hook start 1 PREINIT eth0 failed" in calls), (True, True))
    expect("a folder that isn't there", calls[0], "store list failed")


SCRIPT = b"dhcpcd-script 1\nstart 0 0 up -\nturn 5 0 quiet\n"
# What is written in one call each: the head, the beginning of the life, the opening, a turn, and the end.
WRITES = [
    b"dhcpcd-transcript 1\n",
    b"life 1\n",
    b"start 0 0 up -\nstore list ok\nstore read resolv.conf none\nhost list ok 0\nuntil none\n",
    b"turn 5 0 quiet\nuntil none\n",
    b"end\n",
]


def replay(program, **how):
    return subprocess.run([program, "replay"], stderr=subprocess.PIPE, check=False, timeout=20, **how)


def parts_written(program):
    """The pieces of a transcript, by a socket that keeps them apart."""
    here, there = socket.socketpair(socket.AF_UNIX, socket.SOCK_SEQPACKET)
    with here, there:
        done = replay(program, input=SCRIPT, stdout=there)
        there.close()
        return done.returncode, [piece for piece in iter(lambda: here.recv(65536), b"")]


def cut_off(program, room, size):
    """What is left where no file may be longer."""
    path = os.path.join(room, "output")

    def limit():
        signal.signal(signal.SIGXFSZ, signal.SIG_IGN)
        resource.setrlimit(resource.RLIMIT_FSIZE, (size, size))

    with open(path, "wb") as out:
        done = replay(program, input=SCRIPT, stdout=out, preexec_fn=limit)
    with open(path, "rb") as it:
        return done.returncode, it.read()


def input_fails(program):
    """What is answered to a connection that is reset after the first line."""
    with socket.create_server((LOOPBACK, 0)) as server, socket.create_connection(server.getsockname()) as there:
        here, _ = server.accept()
        here.sendall(SCRIPT[:16])
        time.sleep(0.1)
        here.setsockopt(socket.SOL_SOCKET, socket.SO_LINGER, struct.pack("ii", 1, 0))
        here.close()
        done = replay(program, stdin=there, stdout=subprocess.PIPE)
        return done.returncode, done.stdout


def streams(program, room):
    expect("pieces", parts_written(program), (0, WRITES))
    front = b"".join(WRITES[:3])
    for more in (0, 3):
        expect("an output that is full", cut_off(program, room, len(front) + more), (WRITE_FAULT, front + WRITES[3][:more]))
    expect("an input that fails", input_fails(program), (READ_FAULT, b""))


LIVES = {life.__name__: life for life in (datagrams, lease, files, rows, hooks, nowhere, streams)}


def lived(program, name):
    """What isn't as it shall be of a life; none where all is."""
    with tempfile.TemporaryDirectory() as room:
        try:
            LIVES[name](program, room)
        except (Failure, OSError, subprocess.TimeoutExpired, StopIteration) as failure:
            return f"{name}: {failure!r}"
    return None


def main():
    program, names = os.path.abspath(sys.argv[1]), sys.argv[2:] or list(LIVES)
    with ThreadPoolExecutor(len(names)) as pool:
        unlike = [found for found in pool.map(lambda name: lived(program, name), names) if found]
    for line in unlike:
        print(line)
    sys.exit(bool(unlike))


if __name__ == "__main__":
    main()
