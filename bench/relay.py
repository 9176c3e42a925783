#!/usr/bin/env python3
"""What an SDU costs over the relay beside one on the direct path, in instructions of callgrind.

usage: relay.py [SDUS]
Each session submits so many SDUs of 40 bytes (4,000 where nothing is said) each way, in turn over its bearers, and has each sent,
delivered, moved on at the relay and confirmed. The instructions are those of a session with twice as many SDUs less those of the
session, for each SDU more. Over the relay they are wanted at most 2.5 times those on the direct path with as many bearers, and
at most 1.5 times as many with 64 bearers, which share one Uu channel, or with 1,000 SDUs in each queue, as with one and none.
"""
import sys

import session_reference as ref
from bearers import SDU, instructions

MOST_BESIDE_DIRECT, MOST_BESIDE_ONE = 2.5, 1.5


class Session:
    """The lines of a session, which a reference plays beside."""

    def __init__(self, remotes, bearers, is_relayed, backlog):
        self.names = [(r, d) for r in range(1, remotes + 1) for d in range(1, bearers + 1)]
        self.is_relayed, self.backlog = is_relayed, backlog
        self.waiting = {}
        self.lines = ['relayscript 1', 'set queue 1024', 'uu 1 18']
        for r in range(1, remotes + 1):
            self.lines += ['remote %d' % r, 'pc5 %d 1 18' % r]
            self.lines += ['bearer %d %d 18 18' % (r, d) for d in range(1, bearers + 1)]
            self.lines += ['map %d %d 1 1' % (r, d) for d in range(1, bearers + 1)]
            if is_relayed:
                self.lines.append('path %d relay %d' % (r, r))
        self.chain = ref.Chain()
        for line in self.lines[1:]:
            ref.table_line(self.chain, line.split(' '))
        self.chain.open()
        self.lines.append('go')

    def play(self, line):
        self.lines.append(line)
        _, reply = self.chain.line(line.split(' '))
        self.chain.feed()
        return reply

    def ports(self, name, way):
        """The ports of a bearer in the order in which an SDU of a way goes over them."""
        if not self.is_relayed:
            return ['d%d.%d' % name]
        hops = ['p%d.1' % name[0], 'u1']
        return hops if way == 'ul' else hops[::-1]

    def arrive(self, port, ticket):
        """A PDU comes. An SDU that is in a slot then goes on to its queue, and the first of the queue to the transmitter."""
        reply = self.play('deliver %d' % ticket)
        if not reply.startswith('ok slot '):
            return
        egress = reply.split(' ')[2]
        self.play('push ' + port)
        self.waiting[egress] = self.waiting.get(egress, 0) + 1
        if self.waiting[egress] > self.backlog:
            self.play('pull ' + egress)
            self.waiting[egress] -= 1

    def pass_on(self, name, way):
        """An SDU is submitted, and each of its ports sends all that it has."""
        self.play('submit %d %d %s %s' % (name + (way, SDU)))
        for port in self.ports(name, way):
            while True:
                reply = self.play('grant %s %s 9100' % (port, way))
                if reply == 'idle':
                    break
                self.arrive(port, self.chain.made)

    def run(self, count):
        """So many SDUs each way. A STATUS may go every eighth time round."""
        for i in range(count):
            name = self.names[i % len(self.names)]
            for way in ('ul', 'dl'):
                self.pass_on(name, way)
            if i // len(self.names) % 8 == 7:
                for port in self.ports(name, 'ul'):
                    self.play('expire %s low prohibit' % port)
                    self.play('expire %s high prohibit' % port)
        return self.lines + ['end']


def cost(count, *form):
    """The instructions of one SDU more."""
    less, more = Session(*form).run(count), Session(*form).run(2 * count)
    return (instructions(more) - instructions(less)) / (2 * count)


def main():
    count = int(sys.argv[1]) if len(sys.argv) > 1 else 4000
    one = {}
    is_dearer = False
    for words, remotes, bearers, backlog in (('1 bearer', 1, 1, 0), ('64 bearers', 8, 8, 0), ('1,000 SDUs in each queue', 1, 1, 1000)):
        direct, relayed = cost(count, remotes, bearers, False, 0), cost(count, remotes, bearers, True, backlog)
        one = one or dict(direct=direct, relayed=relayed)
        print('%s: %.0f instructions an SDU on the direct path, %.0f over the relay, %.2f times; beside 1 bearer %.2f and %.2f times'
              % (words, direct, relayed, relayed / direct, direct / one['direct'], relayed / one['relayed']), flush=True)
        is_dearer |= relayed > MOST_BESIDE_DIRECT * direct or relayed > MOST_BESIDE_ONE * one['relayed']
    return 1 if is_dearer else 0


if __name__ == '__main__':
    sys.exit(main())
