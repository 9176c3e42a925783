#!/usr/bin/env python3
"""Plays sessions made by chance with `relayplay` and with session_reference.py, and compares the traces.

usage: random_sessions.py KIND FIRST LAST [LINES]
KIND is one (one bearer uplink), direct (all bearers on direct paths), relay or switch; FIRST and LAST are seeds. A session that
differs is left in the folder for temporary files.
"""
import os
import random
import subprocess
import sys
import tempfile

import session_reference as ref

RELAYPLAY = os.path.join(os.path.dirname(os.path.abspath(__file__)), '..', 'relayplay')


def tables(rng, kind):
    lines = ['relayscript 1']
    if rng.random() < 0.5:
        lines.append('set pollpdu %d' % rng.choice([0, 1, 3, 32]))
    if rng.random() < 0.3:
        lines.append('set pollbyte %d' % rng.choice([0, 1, 50, 300]))
    if rng.random() < 0.5:
        lines.append('set maxretx %d' % rng.choice([1, 2, 3]))
    if kind != 'one':
        if rng.random() < 0.5:
            lines.append('set report %d' % rng.choice([0, 1, 2, 5]))
    if kind in ('relay', 'switch') and rng.random() < 0.5:
        lines.append('set queue %d' % rng.choice([1, 2, 5]))
    remotes = [1] if kind == 'one' else sorted(rng.sample(range(1, 65536), rng.randint(1, 4)))
    bearers = []
    for r in remotes:
        lines.append('remote %d' % r)
        for d in ([1] if kind == 'one' else sorted(rng.sample(range(1, 33), rng.randint(1, 4)))):
            p = 12 if kind == 'one' else rng.choice([12, 18])
            lines.append('bearer %d %d %d %d' % (r, d, p, rng.choice([12, 18])))
            bearers.append((r, d))
            for way in ('ul', 'dl'):
                if kind != 'one' and rng.random() < 0.4:
                    first = rng.choice([0, 1, 4095, 4096, 262143, 4294967280, 4294967293, 4294967294])
                    lines.append('start %d %d %s %d' % (r, d, way, first))
    if kind in ('relay', 'switch'):
        uus = sorted(rng.sample(range(1, 9), rng.randint(1, 3)))
        lines += ['uu %d %d' % (u, rng.choice([12, 18])) for u in uus]
        ids = rng.sample(range(256), len(remotes))
        for r, i in zip(remotes, ids):
            chans = sorted(rng.sample(range(1, 9), rng.randint(1, 2)))
            lines += ['pc5 %d %d %d' % (r, c, rng.choice([12, 18])) for c in chans]
            lines += ['map %d %d %d %d' % (r, d, rng.choice(chans), rng.choice(uus)) for q, d in bearers if q == r]
            if rng.random() < (0.8 if kind == 'relay' else 0.6):
                lines.append('path %d relay %d' % (r, i))
    return lines + ['go']


class Maker:
    """Chooses lines for a chain that the reference plays beside."""

    def __init__(self, rng, kind):
        self.rng, self.kind = rng, kind
        self.lines = tables(rng, kind)
        self.chain = ref.Chain()
        for line in self.lines[1:-1]:
            ref.table_line(self.chain, line.split(' '))
        self.chain.open()
        self.loss = rng.choice([0, 0.05, 0.3])
        self.keep = rng.choice([0, 0.1, 0.3])
        self.sizes = rng.choice([[1], [1, 2, 40], [40, 300], [1, 9000]])
        self.grants = rng.choice([[9100], [3, 7, 20, 9100], [5, 6, 7, 8]])

    def port(self):
        names = [p for n in self.chain.nodes.values() for p, e in n.ports.items() if e or self.rng.random() < 0.05]
        return self.rng.choice(names) if names else ('d', 1, 1)

    def ticket(self):
        here = [t for t, p in self.chain.air.items() if p]
        if not here or self.rng.random() < 0.02:
            return self.rng.randint(1, self.chain.made + 2)
        return self.rng.choice(here[:3] if self.rng.random() < 0.7 else here)

    def move(self):
        """A push or a pull of the relay, mostly one that moves an SDU."""
        relay, rng = self.chain.nodes['relay'], self.rng
        moves = ['push ' + ref.port_text(p) for p, slot in relay.slot.items() if slot]
        moves += ['pull ' + ref.port_text(p) for p, queue in relay.queue.items() if queue]
        if moves and rng.random() < 0.9:
            return rng.choice(moves)
        return '%s %s' % (rng.choice(['push', 'pull']), ref.port_text(self.port()))

    def choose(self):
        rng, chain = self.rng, self.chain
        if self.kind in ('relay', 'switch') and rng.random() < 0.2:
            return self.move()
        keys = list(chain.keys())
        if self.kind == 'one':
            keys = keys[:1]
        key = rng.choice(keys)
        what = rng.random()
        if what < 0.2:
            n = rng.choice(self.sizes)
            sdu = bytes(rng.randrange(256) for _ in range(min(n, 40))) * (n // 40 + 1)
            return 'submit %d %d %s %s' % (key + (ref.hexed(sdu[:n] if rng.random() > 0.01 else b''),))
        if what < 0.55:
            return 'grant %s %s %d' % (ref.port_text(self.port()), rng.choice(['ul', 'dl']), rng.choice(self.grants))
        if what < 0.8:
            t = self.ticket()
            dice = rng.random()
            return ('lose %d' if dice < self.loss else 'repeat %d' if dice < self.loss + self.keep else 'deliver %d') % t
        if what < 0.9:
            return 'expire %s %s %s' % (ref.port_text(self.port()), rng.choice(['low', 'high']), rng.choice(['poll', 'reasm', 'prohibit']))
        if self.kind == 'one':
            return 'expire d1.1 low poll'
        if what < 0.93:
            return 'report %d %d %s' % key
        if self.kind == 'switch' and what < 0.96:
            r = key[0]
            if chain.is_open(r):
                return 'apply %d %s' % (r, rng.choice(['remote', 'relay', 'gnb']))
            return 'plan %d %s' % (r, rng.choice(['direct', 'relay %d' % rng.randrange(4)]))
        return 'expire %s high prohibit' % ref.port_text(self.port())

    def make(self, count):
        for _ in range(count):
            line = self.choose()
            self.lines.append(line)
            self.chain.line(line.split(' '))
            self.chain.feed()
        self.lines.append('end')
        return self.lines


def first_difference(expected, got):
    for i, (a, b) in enumerate(zip(expected, got)):
        if a != b:
            return 'line %d of the trace is %s, the reference has %s' % (i + 1, b[:200], a[:200])
    return 'the trace has %d lines, the reference %d' % (len(got), len(expected))


def main():
    kind, first, last = sys.argv[1], int(sys.argv[2]), int(sys.argv[3])
    count = int(sys.argv[4]) if len(sys.argv) > 4 else 300
    differing = total = 0
    for seed in range(first, last + 1):
        lines = Maker(random.Random(seed), kind).make(count)
        total += len(lines)
        expected = []
        ref.play(lines, expected)
        text = '\n'.join(lines) + '\n'
        got = subprocess.run([RELAYPLAY, 'play'], input=text, capture_output=True, text=True).stdout.splitlines()
        if got != expected:
            differing += 1
            path = os.path.join(tempfile.gettempdir(), 'session-%s-%d.script' % (kind, seed))
            with open(path, 'w') as file:
                file.write(text)
            print('%s: %s' % (path, first_difference(expected, got)))
    print('%d sessions, %d lines, %d differ' % (last - first + 1, total, differing))
    return 1 if differing else 0


if __name__ == '__main__':
    sys.exit(main())
