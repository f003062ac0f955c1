#!/usr/bin/env python3
"""A server of DHCP of both families by frames of its own, as tests/live wants one where no other server does it.

    tests/granter.py INTERFACE [tag=HEX] [seconds=N] [valid=N]

Grants each client one address of each family, of DHCPv4 for so many seconds (600) and of DHCPv6 with so many as valid
time (600). Its frames have the bytes of `tag` between addresses and kind, as a tag of a VLAN. A line a message says when it
came, by the steady clock, and which it is. It is ended by a signal.
"""

import socket
import struct
import sys
import time

import frames

ETH_P_ALL = 0x0003
ROUTER, ADDRESS, ADDRESS6 = "10.77.0.1", "10.77.0.150", "2001:db8:77::150"
DISCOVER, REQUEST, SOLICIT = 1, 3, 1
HEADERS4, HEADERS6 = 14 + 20 + 8, 14 + 40 + 8  # Ethernet, IP, UDP
CLIENT_ID, IA_NA = 1, 3
NAMES4 = {1: "DISCOVER", 3: "REQUEST", 4: "DECLINE", 7: "RELEASE"}
NAMES6 = {1: "6SOLICIT", 3: "6REQUEST", 4: "6CONFIRM", 5: "6RENEW", 6: "6REBIND", 8: "6RELEASE", 9: "6DECLINE"}


def options(data, form):
    """The options of a message by their codes."""
    head, found = struct.Struct(form), {}
    while len(data) >= head.size and data[0] != 0xFF:
        code, length = head.unpack_from(data)
        found[code] = data[head.size : head.size + length]
        data = data[head.size + length :]
    return found


def answer4(frame, seconds):
    """The name of a client's message of DHCPv4, and what answers it."""
    kind = options(frame[HEADERS4 + 240 :], ">BB")[53][0]
    words = {"xid": str(int.from_bytes(frame[HEADERS4 + 4 : HEADERS4 + 8], "big")), "yiaddr": ADDRESS, "54": ROUTER}
    words.update({"51": seconds, "3": ROUTER, "6": ROUTER})
    answered = {DISCOVER: "offer", REQUEST: "ack"}.get(kind)
    return NAMES4.get(kind, str(kind)), answered and frames.frame(answered, frame[6:12].hex(":"), words)


def answer6(frame, valid):
    """The same of DHCPv6."""
    message = frame[HEADERS6:]
    told = options(message[4:], ">HH")
    words = {"xid": str(int.from_bytes(message[1:4], "big")), "client": told[CLIENT_ID].hex()}
    if IA_NA in told:
        words["na"] = f"{int.from_bytes(told[IA_NA][:4], 'big')}:0:0:{ADDRESS6}/{valid}/{valid}"
    kind = "advertise" if message[0] == SOLICIT else "reply"
    if kind == "advertise":
        words["preference"] = "255"
    return NAMES6.get(message[0], f"6{message[0]}"), frames.frame(kind, frame[6:12].hex(":"), words)


def is_message4(frame):
    return frame[12:14] == b"\x08\x00" and frame[23] == socket.IPPROTO_UDP and frame[36:38] == struct.pack(">H", 67)


def is_message6(frame):
    return frame[12:14] == b"\x86\xdd" and frame[20] == socket.IPPROTO_UDP and frame[56:58] == struct.pack(">H", 547)


def main(interface, *words):
    said = {"tag": "", "seconds": "600", "valid": "600", **frames.words_of(words)}
    link = socket.socket(socket.AF_PACKET, socket.SOCK_RAW, socket.htons(ETH_P_ALL))
    link.bind((interface, ETH_P_ALL))
    print("ready", flush=True)
    while True:
        frame = link.recv(2048)
        if is_message4(frame):
            name, answered = answer4(frame, said["seconds"])
        elif is_message6(frame):
            name, answered = answer6(frame, said["valid"])
        else:
            continue
        print(time.monotonic(), name, flush=True)
        if answered:
            link.send(answered[:12] + bytes.fromhex(said["tag"]) + answered[12:])


if __name__ == "__main__":
    main(*sys.argv[1:])
