#!/usr/bin/env python3
"""Random schedules for `dhcpcd lab`, and a picture of what came of one.

    tests/schedules.py write PROGRAM [--seed N] [--clients N] [--rounds N] [--pool N] [--seconds N]
                       [--loss P] [--again P] [--late P] [--astray P] [--mishap P] > SCHEDULE
    tests/schedules.py show < LABTEXT
    tests/schedules.py judge < LABTEXT

write   lets the clients have a turn, sees by PROGRAM which frames are new, and decides for each of them: it is lost, is
        delivered soon, again some time later, or only later, when others have overtaken it; a frame of the server may go
        astray, to another interface. In each round an interface may lose its carrier, get it back, or be told to release.
        All by weights from 0 to 1 and a seed: the same words give the same schedule.
show    prints who held what when: a line for each moment at which that changed, a column for each interface.
judge   ends with 1 where two interfaces hold one address after one line, though no transaction number came again.

PROGRAM is the built program, or a command with blanks that reads a schedule from standard input after the word `lab`.
"""
import argparse
import random
import subprocess
import sys

SERVER = '0200000000fe'


def lived(program, lines):
    """What the program writes for a schedule of these lines."""
    done = subprocess.run(program.split() + ['lab'], input='\n'.join(lines) + '\n', stdout=subprocess.PIPE,
                          stderr=subprocess.PIPE, text=True)
    if done.returncode != 0:
        sys.exit(done.stderr.strip() or 'the program ended with %d' % done.returncode)
    return done.stdout.splitlines()


def head(o, r):
    """The lines up to the start."""
    lines = ['dhcpcd-lab 1', 'c:nodelay', 'c:script /dev/null', 'c:noipv4ll', 'c:reboot 2', 'c:timeout 5']
    lines += ['c:noarp'] if r.random() < 0.5 else []
    lines += ['c:release'] if r.random() < 0.5 else []
    lines += ['if %d eth%d 02:00:00:00:01:%02x' % (i, i, i) for i in range(1, o.clients + 1)]
    lines += ['pool 10.0.0.50 10.0.0.%d %d' % (49 + o.pool, o.seconds)]
    return lines + ['start 0 %d up %s' % (r.randrange(2 ** 64), ','.join(str(i) for i in range(1, o.clients + 1)))]


class Post:
    """The frames that are under way."""

    def __init__(self, o, r):
        self.o, self.r, self.due = o, r, []
        self.seen = {'client': 0, 'peer': 0}

    def put(self, now, kind, number, to):
        """A new frame: when it comes to whom, if at all."""
        o, r = self.o, self.r
        if r.random() < o.loss:
            return
        soon = now + r.randrange(1, 40)
        self.due.append((soon + (r.randrange(500, 20000) if r.random() < o.late else 0), kind, number, to))
        while r.random() < o.again:
            self.due.append((soon + r.randrange(1, 30000), kind, number, to))

    def look(self, now, text):
        """Takes the new frames of the text."""
        for line in text:
            words = line.split(' ')
            if words[0] not in self.seen or int(words[1]) <= self.seen[words[0]]:
                continue
            self.seen[words[0]] = int(words[1])
            if words[0] == 'client':
                self.put(now, 'peer', int(words[1]), None)
            else:
                own = int(words[2][10:12], 16)
                astray = self.r.random() < self.o.astray
                self.put(now, 'give', int(words[1]), self.r.randrange(1, self.o.clients + 1) if astray else own)

    def come(self, until):
        """The lines of the frames that come up to a moment."""
        self.due.sort()
        lines = []
        while self.due and self.due[0][0] <= until:
            at, kind, number, to = self.due.pop(0)
            lines.append('peer %d %d' % (at, number) if kind == 'peer'
                         else 'give %d %d %d %d' % (at, self.r.randrange(2 ** 64), to, number))
        return lines


def mishap(o, r, now):
    """A carrier that goes or comes, or a release."""
    iface, salt = r.randrange(1, o.clients + 1), r.randrange(2 ** 64)
    kind = r.choice(['down', 'up', 'up', 'release'])
    if kind == 'release':
        return 'release %d %d %d' % (now, salt, iface)
    return 'carrier %d %d %d %s' % (now, salt, iface, kind)


def write(o):
    r = random.Random(o.seed)
    lines, post, now = head(o, r), Post(o, r), 0
    for _ in range(o.rounds):
        post.look(now, lived(o.program, lines))
        later = now + r.choice([30, 100, 500, 1500, 4000])
        lines += post.come(later)
        now = later
        lines.append(mishap(o, r, now) if r.random() < o.mishap else 'tick %d %d' % (now, r.randrange(2 ** 64)))
    print('\n'.join(lines))


def leases(text):
    """[(moment, {interface: address})], one for each line of the schedule."""
    out = []
    for line in text:
        words = line.split(' ')
        if words[0] == 'at':
            out.append((int(words[1]), {}))
        elif words[0] == 'lease':
            out[-1][1][int(words[1])] = words[2].split('/')[0]
    return out


def show(text):
    steps = leases(text)
    ifaces = sorted({i for _, held in steps for i in held})
    print('%12s' % 'at' + ''.join('%16d' % i for i in ifaces))
    before = None
    for at, held in steps:
        if held != before:
            print('%12d' % at + ''.join('%16s' % held.get(i, '-') for i in ifaces))
        before = held
    print(text[-1] if text else '')


def judge(text):
    if not text or text[-1] != 'xids unlike':
        return
    for at, held in leases(text):
        if len(set(held.values())) != len(held):
            sys.exit('at %d: one address twice: %s' % (at, held))


def main():
    parser = argparse.ArgumentParser(description=__doc__, formatter_class=argparse.RawDescriptionHelpFormatter)
    words = parser.add_subparsers(dest='word', required=True)
    writing = words.add_parser('write')
    writing.add_argument('program')
    for name, kind, value in [('seed', int, 1), ('clients', int, 3), ('rounds', int, 40), ('pool', int, 2),
                              ('seconds', int, 30), ('loss', float, 0.1), ('again', float, 0.2), ('late', float, 0.2),
                              ('astray', float, 0.05), ('mishap', float, 0.1)]:
        writing.add_argument('--' + name, type=kind, default=value)
    words.add_parser('show')
    words.add_parser('judge')
    o = parser.parse_args()
    if o.word == 'write':
        return write(o)
    text = sys.stdin.read().splitlines()
    return show(text) if o.word == 'show' else judge(text)


if __name__ == '__main__':
    main()
