#!/usr/bin/env python3
"""Failures at every place, judged by rows and files, and not by a stored text.

    tests/tables.py PROGRAM              all tables
    tests/tables.py PROGRAM TABLE..      some of them: failures, crashes, files (some seconds together), bytes (half a minute)

failures   each call of link, store, host and hooks fails once, in a lease with its renewal: three quiet turns, a second apart, later
           the host has the rows and the store the files of the run without failures (but for the link's, whose frames are lost)
crashes    a crash after each call of the store: what the next life reads of each file is one of the texts that may be left of it
files      files that are no text: of 0, 1 and 65,536 bytes of ff; each is as bad as none
bytes      an OFFER, an ACK, an Advertise and a Reply cut at each length, and with each byte 00 and ff, with checksums made anew and
           as they were: the run ends

Ends with 0 where each table holds.
"""

import os
import subprocess
import sys
from concurrent.futures import ThreadPoolExecutor

import frames

OWN = "02:00:00:00:00:01"
QUIET_AFTER = ["turn 1801300 0 quiet", "turn 1802300 0 quiet", "turn 1803300 0 quiet"]
LEASE = """dhcpcd-script 1
c:script /dev/null
c:nodelay
c:noarp
if 1 eth0 02:00:00:00:00:01
start 0 0 up 1
turn 1 0 quiet
turn 100 0 offer 1
turn 200 0 ack 1
turn 1800100 0 quiet
turn 1800300 0 ack 1 xid=2 to=02:00:00:00:00:01
""".splitlines()
LEASE6 = """dhcpcd-script 1
c:script /dev/null
c:nodhcp
c:noipv4ll
c:nodelay
c:ia_na
if 1 eth0 02:00:00:00:00:01
start 0 0 up 1
turn 1 0 quiet
turn 500 0 advertise 1 preference=255
turn 600 0 reply 1 xid=2 dns=2001:db8::53
turn 1500600 0 quiet
turn 1500700 0 reply 1
""".splitlines()
ETHERNET, IPV4, IPV6, UDP = 14, 20, 40, 8


def spelled(lines):
    """A script of lines with the words of tests/frames.py."""
    return "".join(frames.spell([line + "\n" for line in lines])).splitlines()


def with_line(lines, line):
    """The script with a line before its first life."""
    at = next(i for i, other in enumerate(lines) if other.startswith("start "))
    return lines[:at] + [line] + lines[at:]


class Runs:
    """Replays of one program; several at once."""

    def __init__(self, program):
        self.program = program
        self.made = 0
        self.pool = ThreadPoolExecutor(os.cpu_count())

    def replay(self, lines):
        """The lines of the transcript, or None where the script wasn't replayed."""
        self.made += 1
        text = "".join(line + "\n" for line in lines).encode()
        done = subprocess.run([self.program, "replay"], input=text, capture_output=True, check=False)
        return done.stdout.decode("latin-1").splitlines() if done.returncode == 0 else None

    def replays(self, scripts):
        return self.pool.map(self.replay, scripts)


def store_calls(transcript):
    """The calls of the store in the first life, each as words."""
    calls = []
    for line in transcript:
        if line == "end":
            break
        if line.startswith("store "):
            calls.append(line.split()[1:])
    return calls


class Files:
    """What stands in a store: by what was told, and by what a crash may leave."""

    def __init__(self):
        self.asides = {}
        self.read = {}
        self.may_be = {}

    def put(self, name, text):
        self.read[name] = text
        self.may_be.setdefault(name, {"none"}).add(text)

    def call(self, words):
        kind = words[0]
        if words[-1] == "failed":
            return
        if kind == "write":
            self.asides[words[1]] = words[2]
        elif kind == "rename":
            self.put(words[1], self.asides[words[1]])
        elif kind == "remove":
            self.put(words[1], "none")
        elif kind == "settle":
            self.may_be = {name: {text} for name, text in self.read.items()}


def rows_and_files(transcript):
    """The host's rows and the store's files when the transcript ends."""
    rows, files = set(), Files()
    for line in transcript:
        words = line.split()
        if line.startswith("host list ok"):
            rows = set()
        elif line.startswith("row "):
            rows.add(line[4:])
        elif line.startswith("host add ") and words[-1] == "ok":
            rows.add(" ".join(words[2:-1]))
        elif line.startswith("host del ") and words[-1] == "ok":
            rows.discard(" ".join(words[2:-1]))
        elif line.startswith("store "):
            files.call(words[1:])
    return rows, files.read


def failures(runs):
    """Each call of each device fails once."""
    for device in ("store", "host", "link", "hooks"):
        lease = [line for line in LEASE if device != "hooks" or line != "c:script /dev/null"]
        lines = spelled(lease + QUIET_AFTER)
        whole = runs.replay(lines)
        wanted = rows_and_files(whole)
        number = 0
        while True:
            number += 1
            said = runs.replay(with_line(lines, f"fail {device} {number}"))
            if said is None:
                yield f"fail {device} {number}: no transcript"
                break
            if said == whole:
                break
            if device != "link" and rows_and_files(said) != wanted:
                yield f"fail {device} {number}: other rows or files"
        if number < 3:
            yield f"fail {device}: no call failed"


def crashes(runs):
    """A crash after each call of the store."""
    for lease in (LEASE, LEASE6):
        lines = spelled(lease)
        calls = store_calls(runs.replay(lines))
        names = {words[1] for words in calls if words[0] == "read"}
        files = Files()
        for number in range(len(calls) + 1):
            if number:
                files.call(calls[number - 1])
            for kind in ("old", "new"):
                end = [f"crash {number} {kind}", "start 2000000 0 up 1"]
                said = runs.replay(lines + end)
                if said is None:
                    yield f"crash {number} {kind}: no transcript"
                    continue
                second = said[said.index("life 2") :]
                for name in names:
                    text = next(line.split()[3] for line in second if line.startswith(f"store read {name} "))
                    if text not in files.may_be.get(name, {"none"}):
                        yield f"crash {number} {kind}: {name} is torn"


def files(runs):
    """Files that are no text."""
    conf = ["dhcpcd-script 1", "c:script /dev/null", "c:noarp", "c:nodelay", "c:ia_na", f"if 1 eth0 {OWN}", "start 0 0 up 1"]
    for name in ("eth0.lease4", "eth0.lease6", "duid", "resolv.conf"):
        for size in (0, 1, 65536):
            said = runs.replay(with_line(conf, f"file {name} {'ff' * size or '-'}"))
            if said is None:
                yield f"{name} of {size} bytes: no transcript"
                continue
            _, left = rows_and_files(said)
            whole = rows_and_files(runs.replay(conf))[1]
            removed = {} if name == "duid" else {name: "none"}
            if left != {**whole, **removed}:
                yield f"{name} of {size} bytes: {left}"
    plain = [line for line in conf if line != "c:ia_na"]
    opening = runs.replay(with_line(plain, "file eth0.lease4 ff"))
    if opening is None or opening[-4:-1] != ["store remove eth0.lease4 ok", "store settle ok", "until 1"]:
        yield "a file of one bad byte isn't removed at the end of the opening"


def summed(frame):
    """The frame with the checksums of its headers made anew, where it has these headers."""
    kind = frame[12:14]
    if kind == b"\x08\x00" and len(frame) >= ETHERNET + IPV4 + UDP:
        head, udp = frame[ETHERNET : ETHERNET + IPV4], frame[ETHERNET + IPV4 :]
        head = head[:10] + bytes(2) + head[12:]
        head = head[:10] + frames.checksum(head).to_bytes(2, "big") + head[12:]
        ends = head[12:20] + bytes([0, head[9]]) + len(udp).to_bytes(2, "big")
    elif kind == b"\x86\xdd" and len(frame) >= ETHERNET + IPV6 + UDP:
        head, udp = frame[ETHERNET : ETHERNET + IPV6], frame[ETHERNET + IPV6 :]
        ends = head[8:40] + len(udp).to_bytes(4, "big") + bytes([0, 0, 0, head[6]])
    else:
        return frame
    udp = udp[:6] + bytes(2) + udp[8:]
    udp = udp[:6] + (frames.checksum(ends + udp) or 0xFFFF).to_bytes(2, "big") + udp[8:]
    return frame[:ETHERNET] + head + udp


def cut(frame, length):
    """The front of a frame; where its headers are whole, they tell the length that is left."""
    front = bytearray(frame[:length])
    for start, at, beyond in ((IPV4, 2, IPV4), (IPV6, 4, 0)):
        if (frame[12:14] == b"\x08\x00") == (start == IPV4) and length >= ETHERNET + start + UDP:
            left = length - ETHERNET - start
            front[ETHERNET + at : ETHERNET + at + 2] = (left + beyond).to_bytes(2, "big")
            front[ETHERNET + start + 4 : ETHERNET + start + 6] = left.to_bytes(2, "big")
    return summed(bytes(front))


def spoiled(frame):
    """The frame cut at each length and with each byte changed, with checksums as they were and made anew."""
    for length in range(len(frame)):
        yield frame[:length]
        yield cut(frame, length)
    for place in range(len(frame)):
        for byte in (0x00, 0xFF):
            other = frame[:place] + bytes([byte]) + frame[place + 1 :]
            yield other
            yield summed(other)


def other_scripts(lease):
    """The script with each of its first two messages spoiled."""
    lines = spelled(lease)
    places = [i for i, line in enumerate(lines) if " frame 1 " in line][:2]
    for place in places:
        front, text = lines[place].rsplit(" ", 1)
        for frame in spoiled(bytes.fromhex(text)):
            yield lines[:place] + [f"{front} {frame.hex() or '-'}"] + lines[place + 1 :]


def bytes_changed(runs):
    """Messages that are cut or have another byte."""
    for lease in (LEASE, LEASE6):
        for number, said in enumerate(runs.replays(other_scripts(lease))):
            if said is None or said[-1] != "end":
                yield f"spoiled message {number}: no transcript"


TABLES = {"failures": failures, "crashes": crashes, "files": files, "bytes": bytes_changed}


def main(program, *names):
    runs = Runs(program)
    bad = 0
    for name in names or TABLES:
        runs.made = 0
        for word in TABLES[name](runs):
            print(f"{name}: {word}")
            bad += 1
        print(f"{name}: {runs.made} replays")
    return bad != 0


if __name__ == "__main__":
    if len(sys.argv) < 2:
        sys.exit(__doc__)
    sys.exit(main(*sys.argv[1:]))
