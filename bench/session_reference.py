#!/usr/bin/env python3
"""A plain player of scripts: the rules of the whole chain once more, for comparing traces.

It shares no code with the program, and reads only scripts that the program takes. `drain` and `burst` aren't in it, since what
they do leaves room.

usage: session_reference.py < SCRIPT
"""
import sys

MODULUS = {12: 4096, 18: 262144}
WINDOW = {12: 2048, 18: 131072}
LIMIT = {12: 2048, 18: 65536}
COUNT_END = 2**32 - 1


def near(sn, base, size):
    """The number with this SN that is at most a window below base, and less than one above; or None."""
    m, w = MODULUS[size], WINDOW[size]
    low = base - w
    c = low + (sn - low) % m
    return c if c >= 0 else None


class Kept:
    def __init__(self, tag, sdu):
        self.tag, self.sdu, self.sent, self.pending, self.retx = tag, sdu, 0, set(), None


class Tx:
    """An RLC AM transmitter (TS 38.322)."""

    def __init__(self, size, s):
        self.size, self.s = size, s
        self.kept, self.next, self.ack = {}, 0, 0
        self.pdus = self.bytes = 0
        self.poll_sn, self.owed, self.running = None, False, False

    def room(self):
        return WINDOW[self.size] - (self.next - self.ack)

    def give(self, tag, sdu):
        self.kept[self.next] = Kept(tag, sdu)
        self.next += 1

    def numbers(self):
        return sorted(self.kept)

    def sent(self):
        return 1 + max([n for n, k in self.kept.items() if k.sent] + [self.high if hasattr(self, 'high') else -1])

    def is_pending(self):
        return any(k.pending for k in self.kept.values())

    def is_unsent(self):
        return any(k.sent < len(k.sdu) for k in self.kept.values())

    def grant(self, n):
        number = start = end = None
        for m in self.numbers():
            k = self.kept[m]
            if k.pending:
                number, start = m, min(k.pending)
                end = start
                while end in k.pending:
                    end += 1
                break
        else:
            for m in self.numbers():
                k = self.kept[m]
                if k.sent < len(k.sdu):
                    number, start, end = m, k.sent, len(k.sdu)
                    break
        if number is None:
            return 'idle'
        h = (2 if self.size == 12 else 3) + (2 if start else 0)
        if n < h + 1:
            return 'small %d' % (h + 1)
        k = self.kept[number]
        e = min(end, start + n - h)
        fresh = max(0, e - max(start, k.sent))
        k.pending -= set(range(start, e))
        k.sent = max(k.sent, e)
        self.high = max(getattr(self, 'high', -1), number)
        if fresh:
            self.pdus += 1
            self.bytes += fresh
        poll = False
        if fresh and self.s['pollpdu'] and self.pdus >= self.s['pollpdu']:
            poll = True
        if fresh and self.s['pollbyte'] and self.bytes >= self.s['pollbyte']:
            poll = True
        unsent = self.is_unsent()
        if not unsent and (not self.is_pending() or self.room() == 0):
            poll = True
        poll = poll or self.owed
        if poll:
            self.pdus = self.bytes = 0
            self.owed, self.running, self.poll_sn = False, True, self.high
        si = (0 if e == len(k.sdu) else 1) if start == 0 else (2 if e == len(k.sdu) else 3)
        sn = number % MODULUS[self.size]
        first = 0x80 | (0x40 if poll else 0) | si << 4
        if self.size == 12:
            head = bytes([first | sn >> 8, sn & 255])
        else:
            head = bytes([first | sn >> 16, sn >> 8 & 255, sn & 255])
        if start:
            head += start.to_bytes(2, 'big')
        return number, head + k.sdu[start:e]

    def pend(self, n, places, marks):
        k = self.kept[n]
        new = places - k.pending
        k.pending |= places
        if k.retx is None:
            k.retx = 0
        elif new:
            k.retx += 1
            if k.retx == self.s['maxretx']:
                marks.append(n)

    def wake(self, marks):
        if not self.is_unsent() and not self.is_pending() and self.kept:
            n = self.ack
            self.pend(n, set(range(self.kept[n].sent)), marks)

    def expire(self):
        if not self.running:
            return None
        self.running, self.owed = False, True
        marks = []
        self.wake(marks)
        return marks

    def hear(self, ack_sn, nacks):
        ack = near(ack_sn, self.ack + 1, self.size)
        high = getattr(self, 'high', -1) + 1
        if ack is None or ack > high:
            return 'beyond', [], []
        named = {}
        for sn, part, count in nacks:
            m = MODULUS[self.size]
            n = ack - 1 - (ack - 1 - sn) % m
            if n < 0:
                return 'beyond', [], []
            last = n + (count or 1) - 1
            if last >= ack:
                return 'beyond', [], []
            for i in range(n, last + 1):
                a, b = 0, 0xFFFF
                if part and i == n:
                    a = part[0]
                if part and i == last:
                    b = part[1]
                k = self.kept.get(i)
                if k is not None:
                    if part and i == n and a >= len(k.sdu):
                        return 'beyond', [], []
                    if part and i == last and b != 0xFFFF and b >= len(k.sdu):
                        return 'beyond', [], []
                    top = len(k.sdu) if b == 0xFFFF else b + 1
                    named.setdefault(i, set()).update(range(a, min(top, len(k.sdu))))
                else:
                    named.setdefault(i, set())
        for n in self.numbers():
            if n < ack and n not in named and self.kept[n].sent < len(self.kept[n].sdu):
                return 'beyond', [], []
        if ack < self.ack:
            return 'old', [], []
        tags, marks = [], []
        for n in self.numbers():
            if n >= ack:
                break
            if n not in named:
                tags.append(self.kept.pop(n).tag)
            else:
                k = self.kept[n]
                self.pend(n, {p for p in named[n] if p < k.sent}, marks)
        self.ack = min(self.kept) if self.kept else self.next
        if self.poll_sn is not None and self.poll_sn < ack:
            self.running = False
        if self.owed:
            self.wake(marks)
        return 'acked', tags, sorted(marks)


class Rx:
    """An RLC AM receiver."""

    def __init__(self, size):
        self.size = size
        self.next = self.highest = self.highest_status = 0
        self.trigger_at, self.reasm = 0, False
        self.got, self.done = {}, set()
        self.polls, self.triggered, self.prohibit = set(), False, False

    def first_open(self, n):
        while n in self.done:
            n += 1
        return n

    def has_gap(self, n):
        held = self.got.get(n, [{}, None])[0]
        return bool(held) and len(held) != max(held) + 1

    def start_reasm(self, base):
        if self.highest > base + 1 or (self.highest == base + 1 and self.has_gap(base)):
            self.reasm, self.trigger_at = True, self.highest

    def poll(self, x):
        self.polls.add(x)
        self.check_polls()

    def check_polls(self):
        due = {x for x in self.polls if x < self.highest_status or x >= self.next + WINDOW[self.size]}
        if due:
            self.triggered = True
            self.polls -= due

    def hear(self, sn, si, so, poll, body):
        x = near(sn, self.next, self.size)
        answer, sdu = self.place(x, si, so, body)
        if poll:
            if answer in ('outside', 'repeat', 'conflict'):
                self.triggered = True
            else:
                self.poll(x)
        self.check_polls()
        return answer, sdu

    def place(self, x, si, so, body):
        if x is None:
            return 'outside', None
        held, length = self.got.get(x, [{}, None])
        ends = si in (0, 2)
        end = so + len(body)
        if x < self.next or x in self.done or (all(p in held for p in range(so, end)) and not (ends and length is None)):
            return 'repeat', None
        if ends and length is not None and length != end:
            return 'conflict', None
        if ends and length is None and held and max(held) >= end:
            return 'conflict', None
        if length is not None and end > length:
            return 'conflict', None
        if length is not None and not ends and end == length:
            return 'conflict', None
        entry = self.got.setdefault(x, [{}, None])
        for i, b in enumerate(body):
            entry[0].setdefault(so + i, b)
        if ends:
            entry[1] = end
        if x >= self.highest:
            self.highest = x + 1
        sdu = None
        if entry[1] is not None and len(entry[0]) == entry[1]:
            sdu = bytes(entry[0][i] for i in range(entry[1]))
            del self.got[x]
            self.done.add(x)
            if x == self.highest_status:
                self.highest_status = self.first_open(x)
            if x == self.next:
                self.next = self.first_open(x)
        w = WINDOW[self.size]
        if self.reasm:
            t = self.trigger_at
            if t == self.next or (t == self.next + 1 and not self.has_gap(self.next)):
                self.reasm = False
            elif not (self.next <= t < self.next + w) and t != self.next + w:
                self.reasm = False
        if not self.reasm:
            self.start_reasm(self.next)
        return ('complete', sdu) if sdu is not None else ('stored', None)

    def expire_reasm(self):
        if not self.reasm:
            return False
        self.highest_status = self.first_open(self.trigger_at)
        self.triggered, self.reasm = True, False
        self.start_reasm(self.highest_status)
        self.check_polls()
        return True

    def expire_prohibit(self):
        if not self.prohibit:
            return False
        self.prohibit = False
        return True

    def due(self):
        return self.triggered and not self.prohibit

    def status(self, n):
        if n < 3:
            return 'small 3'
        wide = self.size == 18
        size, out, ack = 3, [], self.highest_status
        groups, x = [], self.next
        while x < self.highest_status:
            if x in self.done:
                x += 1
                continue
            if x in self.got:
                held, length = self.got[x]
                gaps, p, top = [], 0, (length if length is not None else max(held) + 1)
                while p < top:
                    if p in held:
                        p += 1
                        continue
                    q = p
                    while q < top and q not in held:
                        q += 1
                    gaps.append((x, (p, q - 1), None))
                    p = q
                if length is None:
                    gaps.append((x, (max(held) + 1, 0xFFFF), None))
                groups.append((x, gaps))
                x += 1
                continue
            y = x
            while y < self.highest_status and y not in self.done and y not in self.got:
                y += 1
            while x < y:
                k = min(255, y - x)
                groups.append((x, [(x, None, k if k > 1 else None)]))
                x += k
        for first, elements in groups:
            cost = sum((3 if wide else 2) + (4 if p else 0) + (1 if r else 0) for _, p, r in elements)
            if size + cost > n:
                ack = first
                break
            size += cost
            out += elements
        self.triggered, self.prohibit = False, True
        return ack, status_bytes(self.size, ack % MODULUS[self.size], out)


def status_bytes(size, ack, elements):
    e1 = 1 if elements else 0
    if size == 12:
        b = bytes([ack >> 8, ack & 255, e1 << 7])
    else:
        b = bytes([ack >> 14, ack >> 6 & 255, (ack & 63) << 2 | e1 << 1])
    for i, (n, part, count) in enumerate(elements):
        sn = n % MODULUS[size]
        flags = (4 if i + 1 < len(elements) else 0) | (2 if part else 0) | (1 if count else 0)
        if size == 12:
            b += bytes([sn >> 4, (sn & 15) << 4 | flags << 1])
        else:
            b += bytes([sn >> 10, sn >> 2 & 255, (sn & 3) << 6 | flags << 3])
        if part:
            b += part[0].to_bytes(2, 'big') + part[1].to_bytes(2, 'big')
        if count:
            b += bytes([count])
    return b


def read_status(size, b):
    if size == 12:
        ack, more, i = b[0] << 8 | b[1], b[2] >> 7, 3
    else:
        ack, more, i = b[0] << 14 | b[1] << 6 | b[2] >> 2, b[2] >> 1 & 1, 3
    out = []
    while more:
        if size == 12:
            sn, flags = b[i] << 4 | b[i + 1] >> 4, b[i + 1] >> 1 & 7
            i += 2
        else:
            sn, flags = b[i] << 10 | b[i + 1] << 2 | b[i + 2] >> 6, b[i + 2] >> 3 & 7
            i += 3
        more, part, count = flags & 4, None, None
        if flags & 2:
            part = (b[i] << 8 | b[i + 1], b[i + 2] << 8 | b[i + 3])
            i += 4
        if flags & 1:
            count = b[i]
            i += 1
        out.append((sn, part, count))
    return ack, out


class Sender:
    """The transmitting side of a PDCP entity (TS 38.323)."""

    def __init__(self, size, first):
        self.size, self.first = size, first
        self.sdus, self.done = [], set()
        self.place, self.waits = 0, False

    def confirmed(self):
        n = 0
        while n in self.done:
            n += 1
        return n

    def submit(self, sdu):
        if not sdu:
            return 'empty'
        if len(sdu) > 9000:
            return 'long'
        count = self.first + len(self.sdus)
        if count >= COUNT_END:
            return 'spent'
        c = self.confirmed()
        if len(self.sdus) - c == LIMIT[self.size]:
            return 'full %d' % c
        self.sdus.append(sdu)
        return 'ok %d' % count

    def next(self):
        if self.waits:
            return None
        n = self.place
        while n in self.done:
            n += 1
        return n if n < len(self.sdus) else None

    def pdu(self, n):
        sn = (self.first + n) % MODULUS[self.size]
        if self.size == 12:
            head = bytes([0x80 | sn >> 8, sn & 255])
        else:
            head = bytes([0x80 | sn >> 16, sn >> 8 & 255, sn & 255])
        return head + self.sdus[n]

    def confirm(self, count):
        n = count - self.first
        if 0 <= n < len(self.sdus):
            self.done.add(n)

    def report(self, fmc, bits):
        nxt = self.first + len(self.sdus)
        named = [fmc + i for i in bits]
        if fmc > nxt or any(c >= nxt for c in named):
            return False
        for n in range(len(self.sdus)):
            c = self.first + n
            if c < fmc or c in set(named):
                self.done.add(n)
        if self.waits:
            self.waits, self.place = False, self.confirmed()
        return True


class Receiver:
    """The receiving side of a PDCP entity."""

    def __init__(self, size, first):
        self.size, self.first = size, first
        self.deliv, self.stored = first, {}
        self.wanted = self.held_back = False
        self.reported = 0

    def handed(self):
        return self.deliv - self.first

    def hear(self, sn, sdu):
        c = near(sn, self.deliv, self.size)
        if c is None or c >= COUNT_END:
            return 'ok nocount', []
        if c < self.deliv:
            return 'ok old', []
        if c in self.stored:
            return 'ok twice', []
        self.stored[c] = sdu
        ups = []
        while self.deliv in self.stored:
            ups.append(self.stored.pop(self.deliv))
            self.deliv += 1
        return ('ok up %d' % len(ups), ups) if ups else ('ok waiting', [])

    def make_report(self):
        b = self.deliv.to_bytes(4, 'big')
        if self.stored:
            m = [0] * ((max(self.stored) - self.deliv + 7) // 8)
            for c in self.stored:
                i = c - self.deliv - 1
                m[i // 8] |= 0x80 >> i % 8
            b += bytes(m)
        return b'\0' + b


class Entity:
    def __init__(self, size, settings, epoch):
        self.tx, self.rx, self.epoch = Tx(size, settings), Rx(size), epoch


class Node:
    def __init__(self, name):
        self.name = name
        self.ports, self.sizes, self.slot, self.queue = {}, {}, {}, {}
        self.ids, self.senders, self.receivers = {}, {}, {}


def hexed(b):
    return b.hex() if b else '-'


def port_text(p):
    return {'d': 'd%d.%d', 'p': 'p%d.%d'}[p[0]] % p[1:] if p[0] != 'u' else 'u%d' % p[1]


def port_of(word):
    kind, rest = word[0], word[1:]
    return (kind,) + tuple(int(x) for x in rest.split('.'))


class Chain:
    def __init__(self):
        self.settings = dict(queue=64, report=512, pollpdu=32, pollbyte=0, maxretx=32)
        self.remotes, self.bearers, self.uus, self.pc5s, self.maps = {}, {}, {}, {}, {}
        self.air, self.made, self.on_air = {}, 0, 0
        self.staged = []

    def open(self):
        s = self.settings
        self.nodes = {('r', r): Node(('r', r)) for r in sorted(self.remotes)}
        relay, gnb = Node('relay'), Node('gnb')
        self.nodes['relay'], self.nodes['gnb'] = relay, gnb
        self.plans = {r: [0, g, {'remote', 'relay', 'gnb'}] for r, g in self.remotes.items()}

        def side(node, port, size, is_open):
            node.sizes[port] = size
            node.ports[port] = Entity(size, s, 0) if is_open else None
            node.slot[port], node.queue[port] = None, []

        for (r, d), b in sorted(self.bearers.items()):
            at = self.nodes[('r', r)]
            is_open = self.remotes[r] == 'direct'
            for n in (at, gnb):
                side(n, ('d', r, d), b['direct'], is_open)
            for way, src, dst in (('ul', at, gnb), ('dl', gnb, at)):
                src.senders[(r, d, way)] = Sender(b['pdcp'], b[way])
                dst.receivers[(r, d, way)] = Receiver(b['pdcp'], b[way])
        for (r, c), size in sorted(self.pc5s.items()):
            for n in (self.nodes[('r', r)], relay):
                side(n, ('p', r, c), size, self.remotes[r] != 'direct')
        for u, size in sorted(self.uus.items()):
            for n in (relay, gnb):
                side(n, ('u', u), size, True)
        for r, g in self.remotes.items():
            if g != 'direct':
                for n in (self.nodes[('r', r)], relay, gnb):
                    n.ids[r] = g

    def keys(self):
        for r, d in sorted(self.bearers):
            yield (r, d, 'ul')
            yield (r, d, 'dl')

    def source(self, key):
        return self.nodes[('r', key[0])] if key[2] == 'ul' else self.nodes['gnb']

    def sink(self, key):
        return self.nodes['gnb'] if key[2] == 'ul' else self.nodes[('r', key[0])]

    def owner(self, side, port):
        if port[0] == 'u':
            return self.nodes['relay' if side == 'low' else 'gnb']
        if side == 'low':
            return self.nodes.get(('r', port[1]))
        return self.nodes['gnb' if port[0] == 'd' else 'relay']

    def entity(self, side, port):
        n = self.owner(side, port)
        return n.ports.get(port) if n else None

    # feeding

    def feed(self):
        reps = set()
        for node in self.nodes.values():
            for key in sorted(node.receivers, key=key_order):
                if self.feed_report(node, key):
                    reps.add(key)
            for key in sorted(node.senders, key=key_order):
                self.feed_data(node, key)
        return [k for k in self.keys() if k in reps]

    def first_hop(self, node, key):
        r, d, way = key
        if r not in node.ids:
            return ('d', r, d)
        pc5, uu = self.maps[(r, d)]
        return ('p', r, pc5) if way == 'ul' else ('u', uu)

    def give(self, node, key, tag, pdu):
        if key[0] in node.ids:
            pdu = bytes([0x80 | key[1] - 1, node.ids[key[0]]]) + pdu
        node.ports[self.first_hop(node, key)].tx.give(tag + (node.ids.get(key[0]),), pdu)

    def has_room(self, node, key):
        e = node.ports.get(self.first_hop(node, key))
        return e is not None and e.tx.room() > 0

    def feed_report(self, node, key):
        rx = node.receivers[key]
        every = self.settings['report']
        enough = every and key[0] in node.ids and rx.handed() >= rx.reported + every
        if rx.held_back or not (rx.wanted or enough):
            return False
        if rx.stored and max(rx.stored) >= rx.deliv + 65536:
            rx.wanted = False
            return False
        back = (key[0], key[1], 'dl' if key[2] == 'ul' else 'ul')
        if not self.has_room(node, back):
            return False
        self.give(node, back, (key, None), rx.make_report())
        rx.wanted, rx.reported = False, rx.handed()
        return True

    def feed_data(self, node, key):
        tx = node.senders[key]
        while True:
            n = tx.next()
            if n is None or not self.has_room(node, key):
                return
            self.give(node, key, (key, tx.first + n), tx.pdu(n))
            tx.place = n + 1

    # hearing

    def hear(self, ticket, events):
        pdu = self.air.get(ticket)
        if pdu is None:
            return 'noair', False
        port, way, epoch, is_status, number, octets = pdu
        side = 'high' if way == 'ul' else 'low'
        node, e = self.owner(side, port), self.entity(side, port)
        if e is None or e.epoch != epoch:
            return 'gone', False
        size = node.sizes[port]
        base = e.tx.ack if is_status else e.rx.next
        stale = number + WINDOW[size] <= base if is_status else number + WINDOW[size] < base
        if stale:
            return 'stale %d %d' % (number, base), False
        if not is_status and node.name == 'relay' and node.slot[port] is not None:
            return 'held', False
        if is_status:
            answer, tags, marks = e.tx.hear(*read_status(size, octets))
            if answer != 'acked':
                return {'old': 'ok past', 'beyond': 'ok beyond'}[answer], True
            back = 'dl' if side == 'high' else 'ul'
            events += ['maxretx %s %s %d' % (port_text(port), back, m) for m in marks]
            if port[0] == 'd':
                for key, count, _ in tags:
                    if count is not None and key in node.senders:
                        node.senders[key].confirm(count)
            return 'ok acks %d' % len(tags), True
        h = 2 if size == 12 else 3
        sn = (octets[0] & 15) << 8 | octets[1] if size == 12 else (octets[0] & 3) << 16 | octets[1] << 8 | octets[2]
        si, so = octets[0] >> 4 & 3, 0
        if si in (2, 3):
            so = octets[h] << 8 | octets[h + 1]
            h += 2
        answer, sdu = e.rx.hear(sn, si, so, octets[0] >> 6 & 1, octets[h:])
        if answer != 'complete':
            return 'ok ' + answer, True
        return self.passes(node, side, port, sdu, events), True

    def passes(self, node, side, port, sdu, events):
        if port[0] == 'd':
            return self.to_pdcp(node, (port[1], port[2], 'ul' if side == 'high' else 'dl'), sdu, events)
        bearer, ue, body = sdu[0] & 31, sdu[1], sdu[2:]
        remote = next((r for r, i in node.ids.items() if i == ue), None)
        if remote is None:
            return 'discard unknown-ue'
        d = bearer + 1
        row = self.maps.get((remote, d))
        if side == 'high' and port[0] == 'p' and remote != port[1]:
            return 'discard foreign-ue'
        if row is None or (row[0] != port[2] if port[0] == 'p' else row[1] != port[1]):
            return 'discard unknown-bearer'
        if node.name == 'relay':
            egress = ('u', row[1]) if port[0] == 'p' else ('p', remote, row[0])
            way = 'ul' if port[0] == 'p' else 'dl'
            node.slot[port] = (port, egress, (remote, d, way), sdu)
            return 'ok slot ' + port_text(egress)
        return self.to_pdcp(node, (remote, d, 'ul' if node.name == 'gnb' else 'dl'), body, events)

    def to_pdcp(self, node, key, pdu, events):
        rx = node.receivers[key]
        if pdu[0] & 0x80:
            if rx.size == 12:
                sn, body = (pdu[0] & 15) << 8 | pdu[1], pdu[2:]
            else:
                sn, body = (pdu[0] & 3) << 16 | pdu[1] << 8 | pdu[2], pdu[3:]
            reply, ups = rx.hear(sn, body)
            events += ['up %d %d %s %s' % (key + (hexed(u),)) for u in ups]
            return reply
        back = (key[0], key[1], 'dl' if key[2] == 'ul' else 'ul')
        fmc = int.from_bytes(pdu[1:5], 'big')
        bits = [8 * i + j + 1 for i, b in enumerate(pdu[5:]) for j in range(8) if b & 0x80 >> j]
        if not node.senders[back].report(fmc, bits):
            return 'discard report-beyond'
        return 'ok report'

    # plans

    def is_open(self, r):
        return len(self.plans[r][2]) < 3

    def busy(self, i):
        for r in sorted(self.remotes):
            if any(n.ids.get(r) == i for n in self.nodes.values()):
                return 'attach %d' % r
        for r in sorted(self.remotes):
            if self.is_open(r) and self.plans[r][1] == i:
                return 'plan %d' % r
        relay, gnb = self.nodes['relay'], self.nodes['gnb']
        ports = sorted(relay.sizes, key=port_order)
        for p in ports:
            if relay.slot[p] and relay.slot[p][3][1] == i:
                return 'slot ' + port_text(p)
        for p in ports:
            if any(x[3][1] == i for x in relay.queue[p]):
                return 'queue ' + port_text(p)
        for u in sorted(self.uus):
            for n in (relay, gnb):
                if any(k.tag[2] == i for k in n.ports[('u', u)].tx.kept.values()):
                    return 'uu %d' % u
        return None

    def apply(self, r, kind):
        epoch, goal, done = self.plans[r]
        node = self.nodes[('r', r)] if kind == 'remote' else self.nodes[kind]
        dropped = 0
        for p in node.sizes:
            own = p[0] != 'u' and p[1] == r
            slot = node.slot[p]
            if slot and (own or slot[2][0] == r):
                node.slot[p] = None
                dropped += 1
            if own:
                e = node.ports[p]
                dropped += len(node.queue[p]) + (len(e.tx.kept) if e else 0)
                node.queue[p] = []
                is_open = p[0] == 'd' if goal == 'direct' else p[0] == 'p'
                node.ports[p] = Entity(node.sizes[p], self.settings, epoch) if is_open else None
        node.ids.pop(r, None)
        if goal != 'direct':
            node.ids[r] = goal
        for k, tx in node.senders.items():
            if k[0] == r:
                tx.waits = True
        for k, rx in node.receivers.items():
            if k[0] == r:
                rx.wanted, rx.held_back = False, True
        done.add(kind)
        if len(done) == 3:
            for n in self.nodes.values():
                for k, rx in n.receivers.items():
                    if k[0] == r:
                        rx.wanted, rx.held_back = True, False
        return 'ok %d' % dropped if kind == 'relay' else 'ok'

    # lines

    def line(self, w):
        """The events and the reply of a line, before the ends feed."""
        events, word = [], w[0]
        if word == 'submit':
            key = (int(w[1]), int(w[2]), w[3])
            if key[:2] not in self.bearers:
                return events, 'nobearer'
            return events, self.source(key).senders[key].submit(b'' if w[4] == '-' else bytes.fromhex(w[4]))
        if word == 'grant':
            return events, self.grant(port_of(w[1]), w[2], int(w[3]))
        if word in ('deliver', 'repeat'):
            reply, heard = self.hear(int(w[1]), events)
            if heard and word == 'deliver':
                self.air[int(w[1])] = None
                self.on_air -= 1
            return events, reply
        if word == 'lose':
            if self.air.get(int(w[1])) is None:
                return events, 'noair'
            self.air[int(w[1])] = None
            self.on_air -= 1
            return events, 'ok'
        if word == 'stage':
            pdu = self.air.get(int(w[1]))
            if pdu is None:
                return events, 'noair'
            if pdu[3]:
                return events, 'status'
            n = self.owner('high' if pdu[1] == 'ul' else 'low', pdu[0])
            return events, 'ok' if n.name == 'relay' else 'notrelay'
        if word == 'expire':
            return self.expire(port_of(w[1]), w[2], w[3])
        if word in ('push', 'pull'):
            return events, self.relay(word, port_of(w[1]))
        if word == 'report':
            key = (int(w[1]), int(w[2]), w[3])
            if key[:2] not in self.bearers:
                return events, 'nobearer'
            if self.is_open(key[0]):
                return events, 'open %d' % key[0]
            self.sink(key).receivers[key].wanted = True
            return events, 'ok'
        if word == 'plan':
            return events, self.plan(int(w[1]), 'direct' if w[2] == 'direct' else int(w[3]))
        if word == 'apply':
            r = int(w[1])
            if r not in self.remotes:
                return events, 'noremote'
            if not self.is_open(r):
                return events, 'noplan'
            if w[2] in self.plans[r][2]:
                return events, 'already'
            return events, self.apply(r, w[2])
        raise ValueError(word)

    def grant(self, port, way, n):
        e = self.entity('low' if way == 'ul' else 'high', port)
        if e is None:
            return 'noport'
        if self.on_air >= 16384:
            return 'airfull'
        is_status = e.rx.due()
        sent = e.rx.status(n) if is_status else e.tx.grant(n)
        if isinstance(sent, str):
            return sent
        number, octets = sent
        self.made += 1
        self.on_air += 1
        self.air[self.made] = (port, way, e.epoch, is_status, number, octets)
        return 'air %d %s %d %s' % (self.made, 'status' if is_status else 'data', number, octets.hex())

    def expire(self, port, side, timer):
        e = self.entity(side, port)
        if e is None:
            return [], 'noport'
        if timer == 'poll':
            marks = e.tx.expire()
            if marks is None:
                return [], 'stopped'
            way = 'ul' if side == 'low' else 'dl'
            return ['maxretx %s %s %d' % (port_text(port), way, m) for m in marks], 'ok'
        done = e.rx.expire_reasm() if timer == 'reasm' else e.rx.expire_prohibit()
        return [], 'ok' if done else 'stopped'

    def relay(self, word, port):
        relay = self.nodes['relay']
        e = relay.ports.get(port)
        if e is None:
            return 'noport'
        if word == 'push':
            if relay.slot[port] is None:
                return 'nothing'
            egress = relay.slot[port][1]
            if len(relay.queue[egress]) >= self.settings['queue']:
                return 'queuefull'
            relay.queue[egress].append(relay.slot[port])
            relay.slot[port] = None
            return 'ok ' + port_text(egress)
        if not relay.queue[port]:
            return 'empty'
        if e.tx.room() == 0:
            return 'stalled'
        _, _, key, sdu = relay.queue[port].pop(0)
        e.tx.give((key, None, sdu[1]), sdu)
        return 'ok %d' % (e.tx.next - 1)

    def plan(self, r, goal):
        if r not in self.remotes:
            return 'noremote'
        if self.is_open(r):
            return 'open %d' % r
        if goal != 'direct':
            if any(b not in self.maps for b in self.bearers if b[0] == r):
                return 'notable'
            place = self.busy(goal)
            if place:
                return 'idbusy ' + place
        self.plans[r] = [self.plans[r][0] + 1, goal, set()]
        return 'ok %d' % self.plans[r][0]

    def confirmed(self):
        return {k: self.source(k).senders[k].confirmed() for k in self.keys()}


def key_order(key):
    return key[0], key[1], key[2] == 'dl'


def port_order(port):
    return 'dpu'.index(port[0]), port[1:]


def table_line(chain, w):
    word = w[0]
    if word == 'set':
        chain.settings[w[1]] = int(w[2])
    elif word == 'remote':
        chain.remotes[int(w[1])] = 'direct'
    elif word == 'bearer':
        chain.bearers[(int(w[1]), int(w[2]))] = dict(pdcp=int(w[3]), direct=int(w[4]), ul=0, dl=0)
    elif word == 'uu':
        chain.uus[int(w[1])] = int(w[2])
    elif word == 'pc5':
        chain.pc5s[(int(w[1]), int(w[2]))] = int(w[3])
    elif word == 'map':
        chain.maps[(int(w[1]), int(w[2]))] = (int(w[3]), int(w[4]))
    elif word == 'start':
        chain.bearers[(int(w[1]), int(w[2]))][w[3]] = int(w[4])
    elif word == 'path':
        chain.remotes[int(w[1])] = 'direct' if w[2] == 'direct' else int(w[3])


def play(lines, out):
    chain, running = Chain(), False
    for line in lines:
        if not line or line.startswith('#'):
            continue
        w = line.split(' ')
        if not running:
            if w[0] == 'go':
                chain.open()
                running = True
                before = chain.confirmed()
            else:
                table_line(chain, w)
            continue
        if w[0] == 'end':
            break
        events, reply = chain.line(w)
        now = chain.confirmed()
        events += ['conf %d %d %s %d' % (k + (now[k],)) for k in chain.keys() if now[k] > before[k]]
        before = now
        events += ['rep %d %d %s' % k for k in chain.feed()]
        for e in events:
            out.append('  ' + e)
        out.append(reply)
    for k in chain.keys():
        tx, rx = chain.source(k).senders[k], chain.sink(k).receivers[k]
        out.append('total %d %d %s %d %d %d' % (k + (len(tx.sdus), rx.handed(), tx.confirmed())))
    out.append('done')


if __name__ == '__main__':
    text = []
    play(sys.stdin.read().split('\n'), text)
    print('\n'.join(text))
