// One acknowledged hop of RLC (TS 38.322) as an engineer writes it by hand, with no contract: what the proved hop is
// measured against. It has the words and the run of crates/hop_bench, and writes the same line.
use std::collections::{BTreeSet, VecDeque};
use std::process::ExitCode;

// ---- Sequence numbers (clauses 6.2.3.3 and 7.2)

#[derive(Clone, Copy, PartialEq)]
enum SnSize {
    S12,
    S18,
}

impl SnSize {
    fn modulus(self) -> u64 {
        match self {
            SnSize::S12 => 1 << 12,
            SnSize::S18 => 1 << 18,
        }
    }

    fn window(self) -> u64 {
        self.modulus() / 2
    }

    fn sn(self, number: u64) -> u32 {
        (number % self.modulus()) as u32
    }

    /// The octets of a header with no segment offset, and of an element of a STATUS with neither offsets nor range.
    fn octets(self) -> usize {
        match self {
            SnSize::S12 => 2,
            SnSize::S18 => 3,
        }
    }

    /// The number near `base` that a sequence number stands for.
    fn near(self, sn: u32, base: u64) -> Option<u64> {
        let lowest = base as i64 - self.window() as i64;
        let number = lowest + (i64::from(sn) - lowest).rem_euclid(self.modulus() as i64);
        u64::try_from(number).ok()
    }
}

// ---- Sets of places of bytes, as ranges in order that don't touch

#[derive(Default)]
struct Spans(Vec<(u32, u32)>);

impl Spans {
    fn add(&mut self, from: u32, to: u32) -> bool {
        let ranges = &mut self.0;
        let first = ranges.partition_point(|range| range.1 < from);
        let stop = ranges.partition_point(|range| range.0 <= to);
        if first == stop {
            ranges.insert(first, (from, to));
            return true;
        }
        if stop == first + 1 && ranges[first].0 <= from && to <= ranges[first].1 {
            return false;
        }
        ranges[first] = (from.min(ranges[first].0), to.max(ranges[stop - 1].1));
        ranges.drain(first + 1..stop);
        true
    }

    /// Removes the places below `to`, which is above the first range's start and no more than its end.
    fn remove_front(&mut self, to: u32) {
        if to == self.0[0].1 {
            self.0.remove(0);
        } else {
            self.0[0].0 = to;
        }
    }

    fn covers(&self, from: u32, to: u32) -> bool {
        let at = self.0.partition_point(|range| range.1 < to);
        self.0.get(at).is_some_and(|range| range.0 <= from)
    }

    fn end(&self) -> u32 {
        self.0.last().map_or(0, |range| range.1)
    }

    fn has_gap(&self) -> bool {
        self.0.len() > 1 || self.0.first().is_some_and(|range| range.0 > 0)
    }

    /// The runs that are missing below `until`.
    fn gaps(&self, until: u32) -> Vec<(u32, u32)> {
        let mut gaps = Vec::new();
        let mut from = 0;
        for &(start, end) in &self.0 {
            if from < start {
                gaps.push((from, start));
            }
            from = end;
        }
        if from < until {
            gaps.push((from, until));
        }
        gaps
    }
}

// ---- Formats (clauses 6.2.2.4 and 6.2.2.5)

/// The segment offset that stands for the last byte of an SDU whose length isn't known.
const TO_THE_END: u16 = 0xffff;

struct Amd<'a> {
    poll: bool,
    sn: u32,
    first: bool,
    last: bool,
    offset: u32,
    body: &'a [u8],
}

struct Nack {
    sn: u32,
    part: Option<(u16, u16)>,
    range: Option<u8>,
}

struct Status {
    ack: u32,
    nacks: Vec<Nack>,
}

fn write_amd(size: SnSize, pdu: &Amd) -> Vec<u8> {
    let mut octets = Vec::with_capacity(pdu.body.len() + 5);
    let flags = 0x80 | u8::from(pdu.poll) << 6 | u8::from(!pdu.first) << 5 | u8::from(!pdu.last) << 4;
    let [_, high, middle, low] = pdu.sn.to_be_bytes();
    match size {
        SnSize::S12 => octets.extend_from_slice(&[flags | middle, low]),
        SnSize::S18 => octets.extend_from_slice(&[flags | high, middle, low]),
    }
    if !pdu.first {
        octets.extend_from_slice(&(pdu.offset as u16).to_be_bytes());
    }
    octets.extend_from_slice(pdu.body);
    octets
}

fn read_amd(size: SnSize, octets: &[u8]) -> Option<Amd<'_>> {
    let (header, rest) = octets.split_at_checked(size.octets())?;
    let (first, last) = (header[0] & 0x20 == 0, header[0] & 0x10 == 0);
    let sn = match *header {
        [a, b] => u32::from_be_bytes([0, 0, a & 0x0f, b]),
        [a, b, c] => u32::from_be_bytes([0, a & 0x03, b, c]),
        _ => return None,
    };
    let (offset, body) = match rest {
        [a, b, body @ ..] if !first => (u32::from(*a) << 8 | u32::from(*b), body),
        body if first => (0, body),
        _ => return None,
    };
    if body.is_empty() || !first && offset == 0 || offset as usize + body.len() > 9_005 {
        return None;
    }
    let poll = header[0] & 0x40 != 0;
    Some(Amd { poll, sn, first, last, offset, body })
}

fn write_status(size: SnSize, status: &Status) -> Vec<u8> {
    let mut octets = Vec::with_capacity(3 + 8 * status.nacks.len());
    let more = u32::from(!status.nacks.is_empty());
    let head = match size {
        SnSize::S12 => status.ack << 8 | more << 7,
        SnSize::S18 => status.ack << 2 | more << 1,
    };
    octets.extend_from_slice(&head.to_be_bytes()[1..]);
    for (index, nack) in status.nacks.iter().enumerate() {
        let more = u32::from(index + 1 < status.nacks.len());
        let flags = more << 2 | u32::from(nack.part.is_some()) << 1 | u32::from(nack.range.is_some());
        match size {
            SnSize::S12 => octets.extend_from_slice(&(nack.sn << 4 | flags << 1).to_be_bytes()[2..]),
            SnSize::S18 => octets.extend_from_slice(&(nack.sn << 6 | flags << 3).to_be_bytes()[1..]),
        }
        if let Some((start, end)) = nack.part {
            octets.extend_from_slice(&start.to_be_bytes());
            octets.extend_from_slice(&end.to_be_bytes());
        }
        octets.extend(nack.range);
    }
    octets
}

fn read_status(size: SnSize, octets: &[u8]) -> Option<Status> {
    let [a, b, c, rest @ ..] = octets else { return None };
    let head = u32::from_be_bytes([0, *a, *b, *c]);
    let (ack, mut more) = match size {
        SnSize::S12 => (head >> 8, head & 0x80 != 0),
        SnSize::S18 => (head >> 2, head & 0x02 != 0),
    };
    let mut rest = rest;
    let mut nacks = Vec::new();
    while more {
        let (element, behind) = rest.split_at_checked(size.octets())?;
        let element = element.iter().fold(0, |bits, octet| bits << 8 | u32::from(*octet));
        let (sn, flags) = match size {
            SnSize::S12 => (element >> 4, element >> 1 & 7),
            SnSize::S18 => (element >> 6, element >> 3 & 7),
        };
        rest = behind;
        more = flags & 4 != 0;
        let mut nack = Nack { sn, part: None, range: None };
        if flags & 2 != 0 {
            let (part, behind) = rest.split_at_checked(4)?;
            nack.part = Some((u16::from_be_bytes([part[0], part[1]]), u16::from_be_bytes([part[2], part[3]])));
            rest = behind;
        }
        if flags & 1 != 0 {
            let (range, behind) = rest.split_first()?;
            nack.range = Some(*range);
            rest = behind;
        }
        nacks.push(nack);
    }
    rest.is_empty().then_some(Status { ack, nacks })
}

// ---- The transmitting side (clauses 5.2.3.1, 5.3.2 and 5.3.3)

struct Outgoing {
    sdu: Vec<u8>,
    sent: u32,
    pending: Spans,
    retransmissions: Option<u32>,
    confirmed: bool,
}

struct Transmitter {
    size: SnSize,
    poll_pdu: u32,
    max_retransmissions: u32,
    /// From TX_Next_Ack on.
    window: VecDeque<Outgoing>,
    next_ack: u64,
    next: u64,
    unconfirmed: u64,
    /// The lowest number with a byte that was never sent, or TX_Next.
    unsent: u64,
    /// The numbers with pending bytes.
    pending: BTreeSet<u64>,
    pdus_without_poll: u32,
    poll_owed: bool,
    poll_sn: u64,
    poll_retransmit_runs: bool,
}

/// What an element of a STATUS names: numbers from `first` to `last`, of the first the places from `from` on, and of the
/// last those below `to`.
struct Named {
    first: u64,
    last: u64,
    from: u32,
    to: u32,
}

impl Transmitter {
    fn new(size: SnSize, poll_pdu: u32, max_retransmissions: u32) -> Self {
        Transmitter {
            size,
            poll_pdu,
            max_retransmissions,
            window: VecDeque::new(),
            next_ack: 0,
            next: 0,
            unconfirmed: 0,
            unsent: 0,
            pending: BTreeSet::new(),
            pdus_without_poll: 0,
            poll_owed: false,
            poll_sn: 0,
            poll_retransmit_runs: false,
        }
    }

    fn has_room(&self) -> bool {
        self.next - self.next_ack < self.size.window()
    }

    fn give(&mut self, sdu: Vec<u8>) {
        self.window.push_back(Outgoing {
            sdu,
            sent: 0,
            pending: Spans::default(),
            retransmissions: None,
            confirmed: false,
        });
        self.next += 1;
        self.unconfirmed += 1;
    }

    fn at(&self, number: u64) -> &Outgoing {
        &self.window[(number - self.next_ack) as usize]
    }

    /// One more than the highest number of which a byte was sent.
    fn sent_count(&self) -> u64 {
        let begun = self.unsent < self.next && self.at(self.unsent).sent > 0;
        self.unsent + u64::from(begun)
    }

    fn waits(&self) -> bool {
        self.unsent < self.next || !self.pending.is_empty()
    }

    fn grant(&mut self, octets: u32) -> Option<Vec<u8>> {
        let (number, from, to) = if let Some(&number) = self.pending.first() {
            let (from, to) = self.at(number).pending.0[0];
            (number, from, to)
        } else if self.unsent < self.next {
            let outgoing = self.at(self.unsent);
            (self.unsent, outgoing.sent, outgoing.sdu.len() as u32)
        } else {
            return None;
        };
        let header = self.size.octets() as u32 + if from > 0 { 2 } else { 0 };
        if octets <= header {
            return None;
        }
        let end = to.min(from + octets - header);
        let index = (number - self.next_ack) as usize;
        let outgoing = &mut self.window[index];
        let len = outgoing.sdu.len() as u32;
        let is_new = outgoing.sent < end;
        if is_new {
            self.pdus_without_poll += 1;
            outgoing.sent = end;
            self.unsent += u64::from(end == len);
        } else {
            outgoing.pending.remove_front(end);
            if outgoing.pending.0.is_empty() {
                self.pending.remove(&number);
            }
        }
        let window_stalls = self.unsent == self.next && !self.has_room();
        let counted = is_new && self.poll_pdu != 0 && self.poll_pdu <= self.pdus_without_poll;
        let poll = counted || !self.waits() || window_stalls || self.poll_owed;
        if poll {
            self.pdus_without_poll = 0;
            self.poll_owed = false;
            self.poll_sn = self.sent_count() - 1;
            self.poll_retransmit_runs = true;
        }
        let body = &self.window[index].sdu[from as usize..end as usize];
        let sn = self.size.sn(number);
        let pdu = Amd { poll, sn, first: from == 0, last: end == len, offset: from, body };
        Some(write_amd(self.size, &pdu))
    }

    fn expire_poll(&mut self) {
        if self.poll_retransmit_runs {
            self.poll_retransmit_runs = false;
            self.poll_owed = true;
            self.retransmit_lowest();
        }
    }

    /// Where a poll is owed and nothing waits, the lowest SDU that isn't confirmed is sent again. It answers whether that
    /// SDU came to the threshold.
    fn retransmit_lowest(&mut self) -> bool {
        if self.waits() || self.unconfirmed == 0 {
            return false;
        }
        let lowest = &mut self.window[0];
        let is_new = lowest.pending.add(0, lowest.sdu.len() as u32);
        self.pending.insert(self.next_ack);
        lowest.count(is_new, self.max_retransmissions)
    }

    /// Hears a STATUS, and answers how many SDUs came to the threshold. None where it speaks of what was never sent.
    fn hear(&mut self, status: &Status) -> Option<u64> {
        let ack = self.size.near(status.ack, self.next_ack + 1)?;
        if ack > self.sent_count() {
            return None;
        }
        let named = self.named(status, ack)?;
        let mut marks = 0;
        let mut below = 0;
        for number in self.next_ack..ack {
            while named.get(below).is_some_and(|names| names.last < number) {
                below += 1;
            }
            let outgoing = &mut self.window[(number - self.next_ack) as usize];
            if outgoing.confirmed {
                continue;
            }
            let (mut is_named, mut is_new) = (false, false);
            for names in named[below..].iter().take_while(|names| names.first <= number) {
                let from = if number == names.first { names.from } else { 0 };
                let to = if number == names.last { names.to } else { u32::MAX };
                let to = to.min(outgoing.sent);
                is_named = true;
                is_new |= from < to && outgoing.pending.add(from, to);
            }
            if is_named {
                if !outgoing.pending.0.is_empty() {
                    self.pending.insert(number);
                }
                marks += u64::from(outgoing.count(is_new, self.max_retransmissions));
            } else {
                if !outgoing.pending.0.is_empty() {
                    self.pending.remove(&number);
                }
                *outgoing = Outgoing { sdu: Vec::new(), sent: 0, pending: Spans::default(), retransmissions: None, confirmed: true };
                self.unconfirmed -= 1;
            }
        }
        while self.window.front().is_some_and(|outgoing| outgoing.confirmed) {
            self.window.pop_front();
            self.next_ack += 1;
        }
        self.poll_retransmit_runs &= ack <= self.poll_sn;
        if self.poll_owed {
            marks += u64::from(self.retransmit_lowest());
        }
        Some(marks)
    }

    /// What the elements name. None where that was never sent.
    fn named(&self, status: &Status, ack: u64) -> Option<Vec<Named>> {
        let mut named = Vec::with_capacity(status.nacks.len());
        for nack in &status.nacks {
            let back = (ack + self.size.modulus() - 1 - u64::from(nack.sn)) % self.size.modulus();
            let first = (ack - 1).checked_sub(back)?;
            let last = first + u64::from(nack.range.unwrap_or(1)) - 1;
            if ack <= last {
                return None;
            }
            let (from, to) = match nack.part {
                None => (0, u32::MAX),
                Some((start, TO_THE_END)) => (u32::from(start), u32::MAX),
                Some((start, end)) => (u32::from(start), u32::from(end) + 1),
            };
            let lacks = |number: u64, place: u32| {
                self.next_ack <= number && !self.at(number).confirmed && self.at(number).sdu.len() <= place as usize
            };
            if lacks(first, from) || to != u32::MAX && lacks(last, to - 1) {
                return None;
            }
            named.push(Named { first, last, from, to });
        }
        if !named.is_sorted_by_key(|names| names.first) {
            named.sort_by_key(|names| (names.first, names.last));
        }
        let begun = |names: &Named| names.first <= self.unsent && self.unsent <= names.last;
        (ack <= self.unsent || named.iter().any(begun)).then_some(named)
    }
}

impl Outgoing {
    /// Counts a retransmission, and says whether that comes to the threshold (clause 5.3.2).
    fn count(&mut self, is_new: bool, threshold: u32) -> bool {
        match self.retransmissions {
            None => self.retransmissions = Some(0),
            Some(count) if is_new => self.retransmissions = Some(count + 1),
            Some(_) => return false,
        }
        self.retransmissions == Some(threshold)
    }
}

// ---- The receiving side (clauses 5.2.3.2 and 5.3.4)

#[derive(Default)]
struct Incoming {
    held: Spans,
    bytes: Vec<u8>,
    len: Option<u32>,
    done: bool,
}

struct Receiver {
    size: SnSize,
    /// From RX_Next on.
    window: VecDeque<Incoming>,
    next: u64,
    next_highest: u64,
    highest_status: u64,
    /// RX_Next_Status_Trigger, where t-Reassembly runs.
    trigger: Option<u64>,
    prohibit_runs: bool,
    status_triggered: bool,
    /// The numbers of polls that don't trigger a STATUS yet.
    polls: BTreeSet<u64>,
}

enum Heard {
    Outside,
    Repeat,
    Conflict,
    Stored,
    Complete(u64, Vec<u8>),
}

impl Receiver {
    fn new(size: SnSize) -> Self {
        Receiver {
            size,
            window: VecDeque::new(),
            next: 0,
            next_highest: 0,
            highest_status: 0,
            trigger: None,
            prohibit_runs: false,
            status_triggered: false,
            polls: BTreeSet::new(),
        }
    }

    fn incoming(&self, number: u64) -> Option<&Incoming> {
        self.window.get((number - self.next) as usize)
    }

    fn is_done(&self, number: u64) -> bool {
        number < self.next || self.incoming(number).is_some_and(|incoming| incoming.done)
    }

    fn first_open(&self, number: u64) -> u64 {
        (number..).find(|number| !self.is_done(*number)).unwrap_or(number)
    }

    fn has_gap(&self, number: u64) -> bool {
        self.incoming(number).is_some_and(|incoming| incoming.held.has_gap())
    }

    fn hear(&mut self, pdu: &Amd) -> Heard {
        let number = self.size.near(pdu.sn, self.next);
        let heard = number.map_or(Heard::Outside, |number| self.place(number, pdu));
        if let Some(number) = number.filter(|_| pdu.poll) {
            let kept = matches!(heard, Heard::Stored | Heard::Complete(..))
                && self.highest_status <= number
                && number < self.next + self.size.window();
            if kept {
                self.polls.insert(number);
            } else {
                self.status_triggered = true;
            }
        } else {
            self.status_triggered |= pdu.poll;
        }
        self.take_polls();
        heard
    }

    fn take_polls(&mut self) {
        while self.polls.first().is_some_and(|number| *number < self.highest_status) {
            self.polls.pop_first();
            self.status_triggered = true;
        }
    }

    fn place(&mut self, number: u64, pdu: &Amd) -> Heard {
        if self.is_done(number) {
            return Heard::Repeat;
        }
        let index = (number - self.next) as usize;
        if self.window.len() <= index {
            self.window.resize_with(index + 1, Incoming::default);
        }
        let heard = self.window[index].place(number, pdu);
        if matches!(heard, Heard::Stored | Heard::Complete(..)) {
            self.next_highest = self.next_highest.max(number + 1);
            if matches!(heard, Heard::Complete(..)) {
                self.pass(number);
            }
            self.run_reassembly();
        }
        heard
    }

    /// A number is complete: the windows move.
    fn pass(&mut self, number: u64) {
        if number == self.highest_status {
            self.highest_status = self.first_open(number + 1);
        }
        while self.window.front().is_some_and(|incoming| incoming.done) {
            self.window.pop_front();
            self.next += 1;
        }
    }

    /// t-Reassembly stops or starts behind a PDU that was placed.
    fn run_reassembly(&mut self) {
        let stops = |trigger: u64| {
            trigger <= self.next
                || trigger == self.next + 1 && !self.has_gap(self.next)
                || trigger > self.next + self.size.window()
        };
        if self.trigger.is_none_or(stops) {
            self.trigger = self.trigger_above(self.next);
        }
    }

    fn trigger_above(&self, number: u64) -> Option<u64> {
        let missing = self.next_highest > number + 1 || self.next_highest == number + 1 && self.has_gap(number);
        missing.then_some(self.next_highest)
    }

    fn expire_reassembly(&mut self) {
        if let Some(trigger) = self.trigger {
            self.highest_status = self.first_open(trigger);
            self.trigger = self.trigger_above(self.highest_status);
            self.status_triggered = true;
            self.take_polls();
        }
    }

    fn status_due(&self) -> bool {
        self.status_triggered && !self.prohibit_runs
    }

    fn make_status(&mut self, octets: usize) -> Status {
        let mut left = octets - 3;
        let mut nacks = Vec::new();
        let mut number = self.next;
        while number < self.highest_status {
            if self.is_done(number) {
                number += 1;
                continue;
            }
            let (elements, behind) = self.elements(number);
            let len: usize = elements.iter().map(|nack| nack_octets(self.size, nack)).sum();
            if left < len {
                break;
            }
            left -= len;
            nacks.extend(elements);
            number = behind;
        }
        self.status_triggered = false;
        self.prohibit_runs = true;
        Status { ack: self.size.sn(number), nacks }
    }

    /// The elements of a number that is missing, and the number behind those that they name.
    fn elements(&self, number: u64) -> (Vec<Nack>, u64) {
        let sn = self.size.sn(number);
        let partly = self.incoming(number).filter(|incoming| !incoming.held.0.is_empty());
        if let Some(incoming) = partly {
            let until = incoming.len.unwrap_or(u32::from(TO_THE_END) + 1);
            let gaps = incoming.held.gaps(until).into_iter();
            let element = |(from, to): (u32, u32)| Nack { sn, part: Some((from as u16, (to - 1) as u16)), range: None };
            return (gaps.map(element).collect(), number + 1);
        }
        let nothing = |number: &u64| {
            self.incoming(*number).is_none_or(|incoming| !incoming.done && incoming.held.0.is_empty())
        };
        let count = (number..self.highest_status).take(255).take_while(nothing).count();
        let range = (count > 1).then_some(count as u8);
        (vec![Nack { sn, part: None, range }], number + count as u64)
    }
}

fn nack_octets(size: SnSize, nack: &Nack) -> usize {
    size.octets() + if nack.part.is_some() { 4 } else { 0 } + usize::from(nack.range.is_some())
}

impl Incoming {
    fn place(&mut self, number: u64, pdu: &Amd) -> Heard {
        let end = pdu.offset + pdu.body.len() as u32;
        let tells_len = pdu.last && self.len.is_none();
        if !tells_len && self.held.covers(pdu.offset, end) {
            return Heard::Repeat;
        }
        let too_long = self.len.is_some_and(|len| if pdu.last { end != len } else { end >= len });
        if too_long || pdu.last && self.held.end() > end {
            return Heard::Conflict;
        }
        if pdu.first && pdu.last && self.held.0.is_empty() {
            self.done = true;
            return Heard::Complete(number, pdu.body.to_vec());
        }
        if pdu.last {
            self.len = Some(end);
        }
        self.copy(pdu.offset, pdu.body);
        self.held.add(pdu.offset, end);
        match self.len {
            Some(len) if self.held.covers(0, len) => {
                let sdu = std::mem::take(&mut self.bytes);
                *self = Incoming { done: true, ..Incoming::default() };
                Heard::Complete(number, sdu)
            }
            _ => Heard::Stored,
        }
    }

    /// Bytes that are held stay.
    fn copy(&mut self, from: u32, body: &[u8]) {
        let end = from + body.len() as u32;
        if self.bytes.len() < end as usize {
            self.bytes.resize(end as usize, 0);
        }
        let mut at = from;
        let first = self.held.0.partition_point(|range| range.1 <= from);
        for &(start, stop) in self.held.0[first..].iter().take_while(|range| range.0 < end) {
            if at < start {
                self.bytes[at as usize..start as usize].copy_from_slice(&body[(at - from) as usize..(start - from) as usize]);
            }
            at = stop;
        }
        if at < end {
            self.bytes[at as usize..end as usize].copy_from_slice(&body[(at - from) as usize..]);
        }
    }
}

// ---- A run, as crates/hop_bench has it

struct Case {
    size: SnSize,
    sdus: u64,
    sdu_bytes: usize,
    grant: u32,
    lost_permille: u64,
    outstanding: u64,
    turn: u64,
    summed: bool,
}

fn case_of(words: &[String]) -> Option<Case> {
    let number = |at: usize| words.get(at)?.parse::<u64>().ok();
    let size = match number(0)? {
        12 => SnSize::S12,
        18 => SnSize::S18,
        _ => return None,
    };
    Some(Case {
        size,
        sdus: number(1)?,
        sdu_bytes: number(2).filter(|bytes| (1..=9_000).contains(bytes))? as usize,
        grant: number(3).filter(|grant| (size.octets() as u64 + 3..=65_535).contains(grant))? as u32,
        lost_permille: number(4).filter(|lost| *lost < 1_000)?,
        outstanding: number(5).filter(|outstanding| *outstanding > 0)?,
        turn: number(6).filter(|turn| *turn > 0)?,
        summed: match words.get(7..).unwrap_or_default() {
            [] => false,
            [word] if word == "sum" => true,
            _ => return None,
        },
    })
}

/// Which PDUs the air loses.
struct Losses(u64);

impl Losses {
    fn hits(&mut self, permille: u64) -> bool {
        self.0 ^= self.0 << 13;
        self.0 ^= self.0 >> 7;
        self.0 ^= self.0 << 17;
        (self.0 >> 11) % 1_000 < permille
    }
}

struct Tally {
    up: u64,
    pdus: u64,
    statuses: u64,
    marks: u64,
    sum: Option<u64>,
}

impl Tally {
    fn add(&mut self, octets: &[u8]) {
        if let Some(sum) = &mut self.sum {
            for octet in octets {
                *sum = (*sum ^ u64::from(*octet)).wrapping_mul(1_099_511_628_211);
            }
            *sum = (*sum ^ 256).wrapping_mul(1_099_511_628_211);
        }
    }
}

fn play(case: &Case) -> Option<Tally> {
    let mut transmitter = Transmitter::new(case.size, 32, 32);
    let mut receiver = Receiver::new(case.size);
    let mut losses = Losses(99);
    let sum = case.summed.then_some(14_695_981_039_346_656_037);
    let mut tally = Tally { up: 0, pdus: 0, statuses: 0, marks: 0, sum };
    let mut given = 0;
    while transmitter.unconfirmed > 0 || given < case.sdus {
        let outstanding = |transmitter: &Transmitter| transmitter.next - transmitter.next_ack;
        while given < case.sdus && outstanding(&transmitter) < case.outstanding && transmitter.has_room() {
            transmitter.give(vec![(given % 251) as u8; case.sdu_bytes]);
            given += 1;
        }
        let mut moved = false;
        for _ in 0..case.turn {
            let Some(pdu) = transmitter.grant(case.grant) else { break };
            moved = true;
            tally.pdus += 1;
            tally.add(&pdu);
            if losses.hits(case.lost_permille) {
                continue;
            }
            if let Heard::Complete(number, sdu) = receiver.hear(&read_amd(case.size, &pdu)?) {
                tally.up += 1;
                tally.add(&number.to_le_bytes());
                tally.add(&sdu);
            }
        }
        receiver.prohibit_runs = false;
        if !receiver.status_due() {
            receiver.expire_reassembly();
        }
        if receiver.status_due() {
            let pdu = write_status(case.size, &receiver.make_status(9_100));
            tally.statuses += 1;
            tally.add(&pdu);
            if !losses.hits(case.lost_permille) {
                tally.marks += transmitter.hear(&read_status(case.size, &pdu)?)?;
                moved = true;
            }
        }
        if !moved {
            transmitter.expire_poll();
        }
    }
    Some(tally)
}

fn main() -> ExitCode {
    let words: Vec<String> = std::env::args().skip(1).collect();
    let Some(case) = case_of(&words) else {
        eprintln!("words: 12|18 SDUS BYTES GRANT LOST OUTSTANDING TURN [sum]");
        return ExitCode::from(2);
    };
    let Some(tally) = play(&case) else {
        return ExitCode::from(1);
    };
    let Tally { up, pdus, statuses, marks, sum } = tally;
    print!("{up} SDUs up, {pdus} data PDUs, {statuses} STATUS PDUs, {marks} marks");
    match sum {
        Some(sum) => println!(", sum {sum}"),
        None => println!(),
    }
    ExitCode::SUCCESS
}
