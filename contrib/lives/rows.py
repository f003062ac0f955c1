"""Rows of the host (docs/FORMATS.md), and their order."""

from __future__ import annotations

import ipaddress
import re
from functools import lru_cache

NUMBER = "(?:0|[1-9][0-9]*)"
FORM = rf"(?:addr {NUMBER} \S+/{NUMBER}|route {NUMBER} \S+/{NUMBER}(?: via \S+| reject)? metric {NUMBER})"
ROW = re.compile(FORM)
KINDS = {"addr": 0, "link": 1, "reject": 2, "via": 3}


def way_of(words: list[str]) -> str:
    """`link`, `reject` or `via`, of the words of a route."""
    return "link" if words[3] == "metric" else words[3]


@lru_cache(maxsize=4096)
def is_row(row: str) -> bool:
    """Whether a text is a row, with addresses."""
    try:
        return ROW.fullmatch(row) is not None and bool(order(row))
    except ValueError:
        return False


def order(row: str) -> tuple[int, ...]:
    """What two rows are compared by."""
    words = row.split(" ")
    net = ipaddress.ip_interface(words[2])
    kind = words[0] if words[0] == "addr" else way_of(words)
    metric = 0 if kind == "addr" else int(words[-1])
    hop = int(ipaddress.ip_address(words[4])) if kind == "via" else 0
    return KINDS[kind], net.version, int(words[1]), int(net.ip), net.network.prefixlen, metric, hop


def in_order(rows: list[str]) -> bool:
    """Whether rows stand in their order, each once."""
    keys = [order(row) for row in rows]
    return all(one < other for one, other in zip(keys, keys[1:]))
