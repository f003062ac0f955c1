#!/usr/bin/env python3
"""Spells the frames and kept leases of a draft: the script that `dhcpcd replay` reads.

    tests/frames.py < examples/lease.draft > examples/lease.script

A draft is a script whose turns may also have one of these events, which become `frame INDEX HEX`:

    offer INDEX WORD..    ack INDEX WORD..    nak INDEX WORD..    arp INDEX WORD..
    advertise INDEX WORD..    reply INDEX WORD..

A WORD is NAME=VALUE. For an offer, an ACK and a NAK, NAME is one of DEFAULTS or the code of an option, whose value is
as in FORMS; for an ARP packet one of ARP. An option without a value is left out. Any event may have `cut=N`: of the
frame only the first N bytes. Where `chaddr` or `target_mac` isn't given it is the interface's own.

An Advertise and a Reply of DHCPv6 have the words of DEFAULTS6, where no `client` is given with the DUID of the interface's
hardware address. `na=IAID:T1:T2:ITEM+ITEM..` is an IA_NA, an ITEM is ADDRESS/PREFERRED/VALID, and `na=IAID=STATUS` one with a status
alone; `pd` is an IA_PD likewise, whose ITEM is PREFIX/LENGTH/PREFERRED/VALID; `dns` has addresses, parted by commas, and `search` names.

A line `lease4 INTERFACE WORD..` becomes `file INTERFACE.lease4 HEX`: the lease that KEPT gives, but for the lines that
the words name; one without a value is left out. A lease with `version=1` has no `mac` and no `confirmed`. `again=NAME` has that
line twice, `lines=N` the first N lines alone. `lease6 INTERFACE WORD..` likewise, with `/` for blanks in `ia` and `addr`; `duid DUID`
becomes the file of a DUID.
"""

import ipaddress
import struct
import sys

EVERYONE = "ff:ff:ff:ff:ff:ff"
# `to` and `from` are hardware addresses, `yiaddr` is the address given, `padded` the least length of the message.
DEFAULTS = {"to": EVERYONE, "from": "02:00:00:00:00:fe", "xid": "1", "yiaddr": "10.0.0.50", "padded": "300"}
GRANT = {"54": "10.0.0.1", "51": "3600", "1": "255.255.255.0", "3": "10.0.0.1", "6": "10.0.0.1"}
OPTIONS = {"offer": {"53": "02", **GRANT}, "ack": {"53": "05", **GRANT}, "nak": {"53": "06", "54": "10.0.0.1"}}
ARP = {
    "to": EVERYONE,
    "from": "02:00:00:00:00:aa",
    "op": "2",
    "sender": "10.0.0.50",
    "target_mac": "",
    "target": "0.0.0.0",
}
SERVER6 = "000300010200000000fe"
DEFAULTS6 = {
    "from": "02:00:00:00:00:fe",
    "xid": "1",
    "server": SERVER6,
    "client": "",
    "preference": "",
    "rapid": "",
    "status": "",
    "solmax": "",
    "na": "1:0:0:2001:db8::5/3000/6000",
    "pd": "",
    "dns": "",
    "search": "",
}
KINDS6 = {"advertise": 2, "reply": 7}
# The lines of a kept lease of each family; those with a number are options.
KEPT = {
    "lease4": {
        "mac": "",
        "confirmed": "200",
        "address": "10.0.0.50/24",
        "server": "10.0.0.1",
        "servermac": "02:00:00:00:00:fe",
        "first": "100",
        "lease": "3600",
        "t1": "1800",
        "t2": "3150",
        "3": "0a000001",
        "6": "0a000001",
    },
    "lease6": {
        "mac": "",
        "confirmed": "200",
        "server": SERVER6,
        "t1": "1500600",
        "t2": "2400600",
        "ia": "na 1",
        "addr": "2001:db8::5 3000600 6000600",
    },
}


def mac(text):
    return bytes.fromhex(text.replace(":", ""))


def ips(text):
    """Addresses of IPv4, parted by commas."""
    return b"".join(ipaddress.IPv4Address(part).packed for part in text.split(","))


def routes(text):
    """Classless static routes (RFC 3442): NET-GATEWAY, parted by commas."""
    spelled = b""
    for route in text.split(","):
        dest, gateway = route.split("-")
        net = ipaddress.IPv4Network(dest)
        width = net.prefixlen
        spelled += bytes([width]) + net.network_address.packed[: (width + 7) // 8] + ips(gateway)
    return spelled


def seconds(text):
    return struct.pack(">I", int(text))


FORMS = {1: ips, 3: ips, 6: ips, 28: ips, 42: ips, 50: ips, 51: seconds, 54: ips, 58: seconds, 59: seconds, 121: routes}


def checksum(data):
    """The Internet checksum (RFC 1071)."""
    data += b"\0" * (len(data) % 2)
    total = sum(struct.unpack(f">{len(data) // 2}H", data))
    while total > 0xFFFF:
        total = (total & 0xFFFF) + (total >> 16)
    return ~total & 0xFFFF


def ethernet(to, source, kind, body):
    return mac(to) + mac(source) + struct.pack(">H", kind) + body


def udp4(source, to, from_port, to_port, payload):
    """A UDP datagram in an IPv4 packet."""
    length = 8 + len(payload)
    ends = ips(source) + ips(to)
    udp = struct.pack(">HHHH", from_port, to_port, length, 0) + payload
    udp_sum = checksum(ends + struct.pack(">HH", 17, length) + udp) or 0xFFFF
    ip = struct.pack(">BBHHHBBH", 0x45, 0, 20 + length, 0, 0x4000, 64, 17, 0) + ends
    ip = ip[:10] + struct.pack(">H", checksum(ip)) + ip[12:]
    return ip + udp[:6] + struct.pack(">H", udp_sum) + udp[8:]


def message(fields, options):
    """A server's message (RFC 2131), as option codes and values say."""
    head = struct.pack(">BBBBIHH", 2, 1, 6, 0, int(fields["xid"]), 0, 0)
    head += ips("0.0.0.0") + ips(fields["yiaddr"]) + bytes(8) + mac(fields["chaddr"]) + bytes(10 + 64 + 128)
    spelled = b""
    for code, text in options.items():
        if text:
            value = FORMS.get(int(code), bytes.fromhex)(text)
            spelled += bytes([int(code), len(value)]) + value
    return (head + b"\x63\x82\x53\x63" + spelled + b"\xff").ljust(int(fields["padded"]), b"\0")


def dhcp(kind, own, words):
    fields = {**DEFAULTS, "chaddr": own}
    if kind == "nak":
        fields["yiaddr"] = "0.0.0.0"
    options = dict(OPTIONS[kind])
    for name, value in words.items():
        (options if name.isdigit() else fields)[name] = value
    server = options["54"] or "0.0.0.0"
    packet = udp4(server, "255.255.255.255", 67, 68, message(fields, options))
    return ethernet(fields["to"], fields["from"], 0x0800, packet)


def option6(code, value):
    return struct.pack(">HH", code, len(value)) + value


def status6(text):
    return option6(13, struct.pack(">H", int(text))) if text else b""


def item6(text):
    """An address of an IA_NA (RFC 8415, section 21.6)."""
    address, preferred, valid = text.split("/")
    return option6(5, ipaddress.IPv6Address(address).packed + struct.pack(">II", int(preferred), int(valid)))


def prefix6(text):
    """A prefix of an IA_PD (RFC 8415, section 21.22)."""
    prefix, length, preferred, valid = text.split("/")
    times = struct.pack(">IIB", int(preferred), int(valid), int(length))
    return option6(26, times + ipaddress.IPv6Address(prefix).packed)


# By the word of an association its option, and what spells an item of it.
ASSOCIATIONS6 = {"na": (3, item6), "pd": (25, prefix6)}


def association6(word, text):
    """An IA_NA (RFC 8415, section 21.4) or an IA_PD (section 21.21)."""
    code, item = ASSOCIATIONS6[word]
    if "=" in text:
        iaid, status = text.split("=")
        return option6(code, struct.pack(">III", int(iaid), 0, 0) + status6(status))
    iaid, t1, t2, items = text.split(":", 3)
    head = struct.pack(">III", int(iaid), int(t1), int(t2))
    return option6(code, head + b"".join(item(one) for one in items.split("+")))


def names(text):
    """Names of DNS, parted by commas (RFC 1035, section 3.1)."""
    labels = [name.split(".") + [""] for name in text.split(",")]
    return b"".join(bytes([len(label)]) + label.encode() for name in labels for label in name)


def link_local(text):
    """The link-local address of a hardware address (RFC 4291, appendix A)."""
    own = mac(text)
    return b"\xfe\x80" + bytes(6) + bytes([own[0] ^ 2]) + own[1:3] + b"\xff\xfe" + own[3:]


def udp6(source, to, from_port, to_port, payload):
    """A UDP datagram in an IPv6 packet."""
    length = 8 + len(payload)
    udp = struct.pack(">HHHH", from_port, to_port, length, 0) + payload
    udp_sum = checksum(source + to + struct.pack(">II", length, 17) + udp) or 0xFFFF
    head = struct.pack(">IHBB", 6 << 28, length, 17, 64) + source + to
    return head + udp[:6] + struct.pack(">H", udp_sum) + udp[8:]


def dhcp6(kind, own, words):
    fields = {**DEFAULTS6, "client": (b"\0\3\0\1" + mac(own)).hex(), **words}
    options = option6(1, bytes.fromhex(fields["client"])) + option6(2, bytes.fromhex(fields["server"]))
    options += status6(fields["status"])
    if fields["preference"]:
        options += option6(7, bytes([int(fields["preference"])]))
    if fields["rapid"]:
        options += option6(14, b"")
    if fields["solmax"]:
        options += option6(82, seconds(fields["solmax"]))
    if fields["dns"]:
        options += option6(23, b"".join(ipaddress.IPv6Address(a).packed for a in fields["dns"].split(",")))
    if fields["search"]:
        options += option6(24, names(fields["search"]))
    for word in ASSOCIATIONS6:
        for text in fields[word].split(";") if fields[word] else []:
            options += association6(word, text)
    said = bytes([KINDS6[kind]]) + struct.pack(">I", int(fields["xid"]))[1:] + options
    packet = udp6(link_local(fields["from"]), link_local(own), 547, 546, said)
    return ethernet(own, fields["from"], 0x86DD, packet)


def arp(own, words):
    fields = {**ARP, "target_mac": own, **words}
    body = struct.pack(">HHBBH", 1, 0x0800, 6, 4, int(fields["op"]))
    body += mac(fields["from"]) + ips(fields["sender"]) + mac(fields["target_mac"]) + ips(fields["target"])
    return ethernet(fields["to"], fields["from"], 0x0806, body)


def frame(kind, own, words):
    """The frame of an event on the interface with this hardware address."""
    cut = words.pop("cut", None)
    if kind == "arp":
        spelled = arp(own, words)
    elif kind in KINDS6:
        spelled = dhcp6(kind, own, words)
    else:
        spelled = dhcp(kind, own, words)
    return spelled if cut is None else spelled[: int(cut)]


def words_of(words):
    return dict(word.split("=", 1) for word in words)


def kept(kind, name, own, words):
    """The file of a kept lease of either family. The hardware address is the interface's own where none is named."""
    version = words.pop("version", "2")
    again = words.pop("again", "")
    count = int(words.pop("lines", "99"))
    lease = {**KEPT[kind], "mac": own, **words}
    lines = [f"dhcpcd-{kind} {version}", f"interface {name}"]
    for key, value in lease.items():
        if value and not (version == "1" and key in ("mac", "confirmed")):
            lines += [f"option {key} {value}" if key.isdigit() else f"{key} {value}"] * (2 if key == again else 1)
    text = "".join(line + "\n" for line in [*lines, "end"][:count])
    return f"file {name}.{kind} {text.encode().hex() or '-'}\n"


def spell(lines):
    """The lines of the script of a draft."""
    own = {}
    for line in lines:
        words = line.split()
        if words[:1] == ["if"]:
            own[words[1]] = own[words[2]] = words[3]
        if words[:1] == ["turn"] and (words[3] in OPTIONS or words[3] in KINDS6 or words[3] == "arp"):
            spelled = frame(words[3], own[words[4]], words_of(words[5:]))
            line = " ".join(words[:3] + ["frame", words[4], spelled.hex() or "-"]) + "\n"
        if words[:1] == ["lease4"]:
            line = kept("lease4", words[1], own[words[1]], words_of(words[2:]))
        if words[:1] == ["lease6"]:
            said = [word.replace("/", " ") if word.startswith(("ia=", "addr=")) else word for word in words[2:]]
            line = kept("lease6", words[1], own[words[1]], words_of(said))
        if words[:1] == ["duid"]:
            line = f"file duid {(words[1] + chr(10)).encode().hex()}\n"
        yield line


if __name__ == "__main__":
    sys.stdout.writelines(spell(sys.stdin))
