#!/usr/bin/env python3
"""What a line costs with one bearer and with 64, in instructions of callgrind.

usage: bearers.py [SDUS]
Each session submits so many SDUs of 40 bytes (20,000 where nothing is said) each way, over one bearer or in turn over 8 bearers of 8
remotes, and has each sent, delivered and confirmed. The instructions are those of a session with twice as many SDUs less those of the
session, for each line more.
"""
import os
import re
import subprocess
import sys
import tempfile

import session_reference as ref

RELAYPLAY = os.path.join(os.path.dirname(os.path.abspath(__file__)), '..', 'crates', 'relayplay', 'out', 'relayplay')
SDU = '61' * 40


def session(remotes, bearers, count):
    """The lines of a session of count SDUs each way."""
    names = [(r, d) for r in range(1, remotes + 1) for d in range(1, bearers + 1)]
    lines = ['relayscript 1']
    lines += ['remote %d' % r for r in range(1, remotes + 1)]
    lines += ['bearer %d %d 18 12' % name for name in names]
    chain = ref.Chain()
    for line in lines[1:]:
        ref.table_line(chain, line.split(' '))
    chain.open()
    lines.append('go')

    def play(line):
        lines.append(line)
        chain.line(line.split(' '))
        chain.feed()

    for i in range(count):
        r, d = names[i % len(names)]
        for way in ('ul', 'dl'):
            play('submit %d %d %s %s' % (r, d, way, SDU))
            made = chain.made
            # A STATUS that is due goes first, and then the SDU.
            for _ in range(2):
                play('grant d%d.%d %s 9100' % (r, d, way))
            for ticket in range(made + 1, chain.made + 1):
                play('deliver %d' % ticket)
        if i // len(names) % 8 == 7:
            play('expire d%d.%d low prohibit' % (r, d))
            play('expire d%d.%d high prohibit' % (r, d))
    lines.append('end')
    return lines


def instructions(lines):
    with tempfile.TemporaryDirectory() as folder:
        script = os.path.join(folder, 'script')
        with open(script, 'w') as file:
            file.write('\n'.join(lines) + '\n')
        with open(script) as source:
            run = subprocess.run(['valgrind', '--tool=callgrind', '--callgrind-out-file=/dev/null', RELAYPLAY, 'play'],
                                 stdin=source, stdout=subprocess.DEVNULL, stderr=subprocess.PIPE, text=True, check=True)
    return int(re.search(r'Collected : (\d+)', run.stderr).group(1))


def main():
    count = int(sys.argv[1]) if len(sys.argv) > 1 else 20000
    costs = []
    for remotes, bearers in ((1, 1), (8, 8)):
        less, more = session(remotes, bearers, count), session(remotes, bearers, 2 * count)
        cost = (instructions(more) - instructions(less)) / (len(more) - len(less))
        costs.append(cost)
        print('%2d bearers: %d lines, %.0f instructions a line' % (remotes * bearers, len(less), cost), flush=True)
    print('ratio %.2f' % (costs[1] / costs[0]))


if __name__ == '__main__':
    main()
