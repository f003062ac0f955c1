"""Options of DHCPv4 (RFC 2132 and others) and DHCPv6 (RFC 8415 and others): their names, and of which form they are."""

from __future__ import annotations

from enum import Enum, auto


class Form(Enum):
    """What a value is."""

    PLAIN = auto()  # a number, or what tells nothing of anybody
    SECONDS = auto()
    MASK = auto()
    CODES = auto()  # of options, a byte each
    CODES6 = auto()  # two bytes each
    MAC = auto()
    IP4 = auto()  # one address, or several
    IP6 = auto()
    PREFIX = auto()  # a length and an address
    ROUTES = auto()  # RFC 3442
    NAME = auto()  # as text
    NAMES = auto()  # RFC 1035, section 3.1, perhaps compressed
    CLIENT = auto()  # option 61
    DUID = auto()
    STATUS = auto()  # RFC 8415, section 21.13
    HIDDEN = auto()  # anything else


OPTIONS4 = {
    1: ("subnet mask", Form.MASK),
    2: ("time offset", Form.PLAIN),
    3: ("routers", Form.IP4),
    4: ("time servers", Form.IP4),
    6: ("name servers", Form.IP4),
    7: ("log servers", Form.IP4),
    12: ("host name", Form.NAME),
    15: ("domain name", Form.NAME),
    26: ("mtu", Form.PLAIN),
    28: ("broadcast", Form.IP4),
    33: ("static routes", Form.IP4),
    42: ("ntp servers", Form.IP4),
    44: ("netbios servers", Form.IP4),
    46: ("netbios node", Form.PLAIN),
    50: ("requested", Form.IP4),
    51: ("lease time", Form.SECONDS),
    52: ("overload", Form.PLAIN),
    53: ("message", Form.PLAIN),
    54: ("server", Form.IP4),
    55: ("asked for", Form.CODES),
    56: ("text", Form.HIDDEN),
    57: ("largest message", Form.PLAIN),
    58: ("t1", Form.SECONDS),
    59: ("t2", Form.SECONDS),
    60: ("vendor class", Form.HIDDEN),
    61: ("client", Form.CLIENT),
    66: ("tftp server", Form.HIDDEN),
    67: ("boot file", Form.HIDDEN),
    81: ("full name", Form.HIDDEN),
    82: ("relay agent", Form.HIDDEN),
    116: ("auto-configure", Form.PLAIN),
    119: ("search", Form.NAMES),
    121: ("classless routes", Form.ROUTES),
}
OPTIONS6 = {
    1: ("client", Form.DUID),
    2: ("server", Form.DUID),
    6: ("asked for", Form.CODES6),
    7: ("preference", Form.PLAIN),
    8: ("elapsed", Form.PLAIN),
    13: ("status", Form.STATUS),
    14: ("rapid commit", Form.PLAIN),
    23: ("name servers", Form.IP6),
    24: ("search", Form.NAMES),
    31: ("sntp servers", Form.IP6),
    32: ("refresh", Form.SECONDS),
    82: ("solicit max rt", Form.SECONDS),
    83: ("information max rt", Form.SECONDS),
}
