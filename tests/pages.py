#!/usr/bin/env python3
"""Whether contrib/timeline makes pages that stand alone, and draws on them what transcripts tell.

    tests/pages.py              pages of examples/, as tests/run looks at them
    tests/pages.py --browser    also opens one in Chromium, where that is there, and uses it by its keys; how long a browser takes is
                                its own affair, so this is no part of tests/run

The states that some examples are to show are in STATES. Ends with a line for each fault, and status 1 where there is one.
"""

import base64
import gzip
import os
import re
import subprocess
import sys
import tempfile

import browser

TESTS = os.path.dirname(os.path.abspath(__file__))
EXAMPLES = os.path.join(TESTS, "..", "examples")
CONTRIB = os.path.join(TESTS, "..", "contrib")
sys.path.insert(0, CONTRIB)

from lives import model, transcript  # noqa: E402

# By example, life, interface and lane the states in their order.
STATES = {
    ("lease", 1, "eth0", "dhcp4"): "begins selecting requesting checking bound renewing bound renewing",
    ("lease-conflict", 1, "eth0", "dhcp4"): "begins selecting requesting checking waiting selecting",
    ("lease-carrier", 1, "eth0", "carrier"): "carrier no-carrier carrier",
    ("nak", 1, "eth0", "dhcp4"): "begins selecting requesting not-known selecting",
    ("no-server", 1, "eth0", "local"): "not-known probing held off",
    ("renewal-unanswered", 1, "eth0", "dhcp4"):
        "begins selecting requesting checking bound renewing rebinding begins selecting",
    ("restart-old", 2, "eth0", "dhcp4"): "rebooting",
    ("v6-lease", 1, "eth0", "dhcp6"): "begins soliciting requesting bound renewing bound off",
}  # fmt: skip
# By example, life, interface and address what its bar says of the basis that is found.
BASES = {
    ("lease", 1, "eth0", "10.0.0.50/24"): "lease4 request turn 9 (line 46) ack turn 10 (line 49) probes turn 4 (line 20)",
    ("persistent-v6", 2, "wan0", "2001:db8::5/128"): "lease6 1 reply turn 1 (line 66)",
    ("persistent-v6", 2, "lan1", "2001:db8:0:ab01::1/64"): "share 1",
}
FETCHES = re.compile(r"(?:src|href)=|url\((?!#)|https?://|@import|\bfetch\(|XMLHttpRequest")
# Where the first band of a life is, and its line.
PLACE = """(() => {
    const band = document.querySelector('.life [data-span]'), box = band.getBoundingClientRect();
    return [box.x + box.width / 2, box.y + box.height / 2, band.dataset.line];
})()"""
faults = []


def expect(what, holds):
    if not holds:
        faults.append(what)


def read(name):
    with open(os.path.join(EXAMPLES, name), "rb") as file:
        return file.read()


def lanes(name, life, interface, bases):
    panels, _ = model.panels(transcript.read(read(name + ".transcript")), bases)
    return next(group for group in panels[life - 1].groups if group.title == interface).lanes


def basis(name, life, interface, net):
    bases = model.bases_of(read(name + ".why").decode())
    bars = [bar for lane in lanes(name, life, interface, bases) for bar in lane.bars if bar.label == net]
    return bars[-1].note.partition("found: ")[2]


def states(name, life, interface, lane):
    bands = next(one for one in lanes(name, life, interface, {}) if one.name == lane).bands
    return " ".join(band.state.replace(" ", "-") for band in bands)


def make(name, room):
    """The page of an example."""
    path = os.path.join(room, name + ".html")
    with open(path, "wb") as file:
        command = [os.path.join(CONTRIB, "timeline"), os.path.join(EXAMPLES, name + ".transcript")]
        subprocess.run(command, stdout=file, check=True)
    return path


def look_inside(path, name):
    with open(path, encoding="utf8") as file:
        page = file.read()
    found = FETCHES.search(page)
    expect(f"{name}: the page fetches {found and found[0]}", found is None)
    text = re.search('id="text">([^<]*)<', page)[1]
    expect(
        f"{name}: its lines aren't those of the transcript",
        gzip.decompress(base64.b64decode(text)) == read(name + ".transcript"),
    )


def use(window, path):
    """Keys and clicks, as a reader has them."""
    window.open(path)
    window.wait("document.documentElement.dataset.ready")
    expect("no marks are drawn", window.value("document.querySelectorAll('.mark').length") > 10)
    expect(
        "marks have no names", window.value("[...document.querySelectorAll('.life .mark')].every(one => one.ariaLabel)")
    )
    size = window.value("current.to - current.from")
    window.key("+", 187, "+")
    expect("plus doesn't come nearer", window.value("current.to - current.from") < size)
    begin = window.value("current.from")
    window.key("ArrowRight", 39)
    expect("the arrow doesn't move", window.value("current.from") > begin)
    window.key("0", 48, "0")
    expect("0 doesn't show all", window.value("current.to - current.from") == size)
    window.value("document.querySelector('.life svg').focus()")
    window.key("Tab", 9)
    expect("Tab leads to no mark", window.value("document.activeElement.classList.contains('mark')"))
    expect("a mark says nothing", not window.value("document.getElementById('tip').hidden"))
    window.key("Enter", 13, "\r")
    line = window.value("document.activeElement.dataset.line")
    expect("Enter leads to no line", window.value("document.querySelector('.line.picked').dataset.number") == line)
    window.key("n", 78, "n")
    expect("n leads to no failure", window.value("document.querySelector('.line.picked.bad') !== null"))
    x, y, line = window.value(PLACE)
    window.click(x, y)
    expect("a click leads to no line", window.value("document.querySelector('.line.picked').dataset.number") == line)
    window.key("+", 187, "+")
    begin = window.value("current.from")
    window.drag(x, y, -120)
    expect("the mouse doesn't move it", window.value("current.from") > begin)
    window.key("f", 70, "f")
    expect("f doesn't unfold", window.value("document.getElementById('fold').ariaPressed") == "false")


def main():
    for place, wanted in STATES.items():
        found = states(*place)
        expect(f"{place}: {found}", found == wanted)
    for place, wanted in BASES.items():
        found = basis(*place)
        expect(f"{place}: {found}", found.startswith(wanted))
    # a browser may still write into its profile when it is told to go
    with tempfile.TemporaryDirectory(ignore_cleanup_errors=True) as room:
        for name in ["lease", "hooks", "host-failures"]:
            look_inside(make(name, room), name)
        if "--browser" in sys.argv[1:] and browser.found():
            window = browser.Browser(os.path.join(room, "profile"))
            try:
                use(window, make("hook-hangs", room))
            finally:
                window.close()
        elif "--browser" in sys.argv[1:]:
            print("pages: none is opened, for there is no Chromium")
    for fault in faults:
        print(f"pages: {fault}")
    return 1 if faults else 0


if __name__ == "__main__":
    sys.exit(main())
