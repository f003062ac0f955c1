#!/usr/bin/env python3
"""Whether the scripts that contrib/scripted makes of the transcripts of examples/ are lived again as these were.

    tests/lives.py write FOLDER     writes the scripts of all transcripts into the folder, and other ones, with NAME.args
    tests/lives.py judge FOLDER     reads `== NAME` and a transcript for each, and judges them

A script `again-NAME` is that of a transcript: its replay is to be that transcript, byte for byte. Where it is the example's own
script there is nothing to replay, since that is an example already. Of the examples of BLURRED
`plain-NAME` is the script in public networks, where it has a draft, and `other-NAME` that one with other names and addresses: what
comes of both is to have the same shape, that is the same lines but for what was to be another.
"""

import os
import re
import sys

import frames

TESTS = os.path.dirname(os.path.abspath(__file__))
EXAMPLES = os.path.join(TESTS, "..", "examples")
CONTRIB = os.path.join(TESTS, "..", "contrib")
sys.path.insert(0, CONTRIB)

from lives import blur, script, transcript  # noqa: E402

SEED = "tests"
BLURRED = set(
    """classless-routes foreign-rows known-by-duid lease lease-defended metrics resolver restart-old servers-not-heard shared-prefix-hooks
    stock v6-declined v6-restart what-is-asked""".split()
)
FRAME = re.compile(rb"([0-9a-f]{2}){8,}")
FILE = re.compile(rb".*(\.lease[46](\.new)?)")
ADDRESS = re.compile(rb"(\d+\.\d+\.\d+\.\d+|[0-9a-f]*:[0-9a-f:]*)(/\d+)?")
# Public networks in place of those of the drafts.
PUBLIC = {"10.0.0.": "81.2.69.", "2001:db8:": "2a02:c78:", "example.net": "secret.example.net"}


def transcripts():
    """Names and texts; scripts that are refused have no transcript."""
    for name in sorted(os.listdir(EXAMPLES)):
        if name.endswith(".transcript"):
            with open(os.path.join(EXAMPLES, name), "rb") as file:
                text = file.read()
            if text:
                yield name[: -len(".transcript")], text


def lines_of(text):
    """The script of a transcript, and what can't be so."""
    made = script.script_of(transcript.read(text)[0])
    return made.lines, made.remarks


def stored(name):
    """The script of an example."""
    with open(os.path.join(EXAMPLES, name + ".script"), "rb") as file:
        return file.read()


def joined(lines):
    return b"".join(line + b"\n" for line in lines)


def use_public_networks():
    """Has what drafts leave out be of public networks too."""
    for table in (frames.DEFAULTS, frames.DEFAULTS6, frames.ARP, *frames.KEPT.values(), *frames.OPTIONS.values()):
        table.update({key: replaced(value) for key, value in table.items()})


def public(name):
    """The script of a draft in public networks, where there is one."""
    path = os.path.join(EXAMPLES, name + ".draft")
    if not os.path.exists(path):
        return None
    with open(path, encoding="ascii") as file:
        draft = replaced(file.read())
    return "".join(frames.spell(draft.splitlines(True))).encode().splitlines()


def replaced(text):
    for one, other in PUBLIC.items():
        text = text.replace(one, other)
    return text


def scripts():
    """Name and text of each script."""
    use_public_networks()
    for name, text in transcripts():
        lines, remarks = lines_of(text)
        assert not remarks, (name, remarks)
        if joined(lines) != stored(name):
            yield f"again-{name}", joined(lines)
        if name in BLURRED:
            plain = public(name) or lines
            yield f"plain-{name}", joined(plain)
            yield f"other-{name}", joined(blur.blurred(plain, SEED))


def write(folder):
    for name, text in scripts():
        with open(os.path.join(folder, name), "wb") as file:
            file.write(text)
        with open(os.path.join(folder, name + ".args"), "w", encoding="ascii") as file:
            file.write("replay\n")


def shape(line):
    """A line without names, addresses and what files hold."""
    words = line.split(b" ")
    if line.startswith(b"c:"):
        return b"c:"
    if words[0] == b"var":
        return line.partition(b"=")[0]
    if words[0] == b"if" or words[:2] in ([b"hook", b"start"], [b"hook", b"drop"]):
        words[2 if words[0] == b"if" else 4] = b"name"
    if words[0] == b"store" and len(words) > 3 and words[1] in (b"read", b"write"):
        words[3] = b"content" if FRAME.fullmatch(words[3]) else words[3]
    return b" ".join(map(without_value, words))


def without_value(word):
    """How long a frame is, what kind of a file, an address with its length alone."""
    if FRAME.fullmatch(word):
        return b"%d" % len(word)
    file, address = FILE.fullmatch(word), ADDRESS.fullmatch(word)
    return file[1] if file else b"ip" + (address[2] or b"") if address else word


def first_unlike(one, other):
    """The first place at which two lists differ."""
    pairs = zip([*one, None], [*other, None])
    return next((place for place, (left, right) in enumerate(pairs, 1) if left != right), None)


def judge(folder):
    """Judges the transcripts, and names those that are missing or wrong."""
    parts = ("\n" + sys.stdin.buffer.read().decode("latin-1")).split("\n== ")[1:]
    said = {name: text.encode("latin-1") for name, _, text in (part.partition("\n") for part in parts)}
    lines = {name: text.strip(b"\n").split(b"\n") for name, text in said.items()}
    texts, good = dict(transcripts()), True
    for kind, name in (label.split("-", 1) for label, _ in scripts()):
        one = lines.get(f"{kind}-{name}", [])
        wanted = texts[name].strip(b"\n").split(b"\n") if kind == "again" else lines.get(f"plain-{name}", [])
        if kind != "again":
            one, wanted = list(map(shape, one)), list(map(shape, wanted))
        place = first_unlike(one, wanted) if one else 1
        if place is not None:
            print(f"lives: {kind}-{name}: line {place} of the replay is another one")
            good = False
    return good


if __name__ == "__main__":
    if sys.argv[1] == "write":
        write(sys.argv[2])
    else:
        sys.exit(0 if judge(sys.argv[2]) else 1)
