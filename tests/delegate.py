#!/usr/bin/env python3
"""A server of DHCPv6 that delegates one prefix, as tests/live wants one: dnsmasq doesn't do that.

    tests/delegate.py INTERFACE

Answers each message of a client by an Advertise or a Reply, with the prefix for the client's IA_PD. A line a message says
what came. It is ended by a signal.
"""

import socket
import struct
import sys

import frames

PREFIX = "2001:db8:0:ab00::/56"
ETH_P_IPV6 = 0x86DD
HEADERS = 14 + 40 + 8  # Ethernet, IPv6, UDP
NAMES = {1: "SOLICIT", 3: "REQUEST", 5: "RENEW", 6: "REBIND", 8: "RELEASE"}
CLIENT_ID, IA_PD = 1, 25


def options(data):
    """The options of a message by their codes (RFC 8415, section 21.1)."""
    found = {}
    while data:
        code, length = struct.unpack_from(">HH", data)
        found[code] = data[4 : 4 + length]
        data = data[4 + length :]
    return found


def answer(frame):
    """The name of a client's message, and the frame that answers it."""
    source, message = frame[6:12].hex(":"), frame[HEADERS:]
    told = options(message[4:])
    words = {"xid": str(int.from_bytes(message[1:4], "big")), "client": told[CLIENT_ID].hex(), "na": ""}
    name = NAMES[message[0]]
    if name == "RELEASE":
        words["status"] = "0"
    else:
        (iaid,) = struct.unpack_from(">I", told[IA_PD])
        words["pd"] = f"{iaid}:0:0:{PREFIX}/3000/6000"
    if name == "SOLICIT":
        return name, frames.frame("advertise", source, {**words, "preference": "255"})
    return name, frames.frame("reply", source, words)


def main(interface):
    link = socket.socket(socket.AF_PACKET, socket.SOCK_RAW, socket.htons(ETH_P_IPV6))
    link.bind((interface, ETH_P_IPV6))
    print("ready", flush=True)
    while True:
        frame = link.recv(2048)
        is_for_servers = frame[20] == socket.IPPROTO_UDP and frame[56:58] == struct.pack(">H", 547)
        if is_for_servers and frame[HEADERS] in NAMES:
            name, answered = answer(frame)
            print(name, flush=True)
            link.send(answered)


if __name__ == "__main__":
    main(sys.argv[1])
