//! Inputs that are worth comparing: presses driven through faults, votes around the quorum, frames, tables, steps on a register block, and damage to each.
use crate::paper::checks::frame_check;
use crate::paper::faults::{arriving, cycle, Cycle, Faults};
use crate::paper::frames::{frame, heartbeat, parts_of, vote_frame, vote_payload, Header, VOTES_BYTES, VOTE_BYTES};
use crate::paper::mode::Mode;
use crate::paper::registers::{block_of, written, Flags, Machine, BLOCK_BYTES, COMMAND, ENABLES, FLAGS};
use crate::paper::rules::{rule3, Heard, Rules, Sign, Vote};
use crate::paper::sets::{all, has, nodes, only};
use crate::paper::state::{beginning_from, image, row_image, Group, Reason, State, Unit, IMAGE_BYTES};
use crate::paper::table::{write_cycle, write_first};
use crate::random::Random;

/// a number of nodes, small ones and the greatest more often
pub fn count(random: &mut Random) -> usize {
    match random.below(4) {
        0 => random.pick(&[2, 3, 4, 5]),
        1 => random.pick(&[5, 6, 7, 8, 9, 16]),
        2 => random.pick(&[31, 32, 33, 63, 64, 64]),
        _ => 2 + random.below(63),
    }
}

/// a small one
pub fn small_count(random: &mut Random) -> usize {
    2 + random.below(7)
}

/// a group number, often near the wrap
pub fn group_number(random: &mut Random) -> u32 {
    match random.below(4) {
        0 => random.below(3) as u32,
        1 => u32::MAX - random.below(3) as u32,
        2 => random.pick(&[255, 256, 65535, 65536, 1 << 31]),
        _ => random.bits() as u32,
    }
}

/// a founding set: all, one, or some
pub fn founding(random: &mut Random, n: usize) -> u64 {
    let some = match random.below(4) {
        0 | 1 => all(n),
        2 => only(random.below(n)),
        _ => random.bits() & all(n),
    };
    if some == 0 {
        only(random.below(n))
    } else {
        some
    }
}

/// a few nodes
fn few(random: &mut Random, n: usize) -> u64 {
    (0..1 + random.below(2)).fold(0, |set, _| set | only(random.below(n)))
}

/// the faults of one cycle: none, a few marks, some receivers that miss some senders, or many marks
pub fn faults(random: &mut Random, n: usize) -> Faults {
    let mut faults = Faults::none();
    match random.below(8) {
        0 => {}
        1 => faults.start = all(n),
        2 | 3 => {
            for _ in 0..1 + random.below(3) {
                mark(random, n, &mut faults);
            }
        }
        4 => {
            let (receivers, senders) = (random.bits() & random.bits() & all(n), random.bits() & all(n));
            let phase = if random.once_in(3) { &mut faults.missed_heartbeat } else { &mut faults.missed_vote };
            for q in nodes(receivers) {
                phase[q] = senders & !only(q);
            }
        }
        5 => {
            // half of the nodes, or one more or less, are lost
            let half = (n / 2 + random.below(3)).saturating_sub(1).min(n);
            let chosen = shuffled(random, n)[..half].iter().fold(0, |set, &q| set | only(q));
            match random.below(3) {
                0 => faults.stop = chosen,
                1 => faults.lost_heartbeat = chosen,
                _ => faults.lost_vote = chosen,
            }
        }
        6 => {
            faults.stop = few(random, n);
            faults.start = faults.stop | few(random, n);
            for _ in 0..random.below(n + 1) {
                let q = random.below(n);
                faults.missed_heartbeat[q] |= only(random.below(n)) & !only(q);
            }
        }
        _ => {
            let rare = 1 + random.below(6);
            let sparse = |random: &mut Random| (0..rare).fold(all(n), |mask, _| mask & random.bits());
            faults.stop = sparse(random);
            faults.start = sparse(random);
            faults.lost_heartbeat = sparse(random);
            faults.lost_vote = sparse(random);
            for q in 0..n {
                faults.missed_heartbeat[q] = sparse(random) & !only(q);
                faults.missed_vote[q] = sparse(random) & !only(q);
            }
        }
    }
    if random.once_in(3) {
        faults.start |= few(random, n);
    }
    faults
}

/// one more mark
pub fn mark(random: &mut Random, n: usize, faults: &mut Faults) {
    let (q, p) = (random.below(n), random.below(n));
    match random.below(6) {
        0 => faults.stop |= only(q),
        1 => faults.start |= only(q),
        2 => faults.lost_heartbeat |= only(q),
        3 => faults.lost_vote |= only(q),
        4 => faults.missed_heartbeat[q] |= only(p) & !only(q),
        _ => faults.missed_vote[q] |= only(p) & !only(q),
    }
}

pub fn shuffled(random: &mut Random, n: usize) -> Vec<usize> {
    let mut order: Vec<usize> = (0..n).collect();
    for k in (1..n).rev() {
        order.swap(k, random.below(k + 1));
    }
    order
}

/// a press in some cycle: the row before it, the faults, and what the cycle is by the rules
pub struct Press {
    pub n: usize,
    pub mode: Mode,
    pub before: Vec<State>,
    pub faults: Faults,
    pub cycle: Cycle,
}

impl Press {
    pub fn new(random: &mut Random, mode: Mode, n: usize) -> Press {
        let founding = founding(random, n);
        let number = group_number(random);
        Press::at(random, mode, beginning_from(n, founding, number))
    }

    fn at(random: &mut Random, mode: Mode, before: Vec<State>) -> Press {
        let n = before.len();
        let faults = if before.iter().all(|state| matches!(state, State::Out(_))) { Faults::none() } else { faults(random, n) };
        let cycle = cycle(&before, &faults, Rules::of(mode));
        Press { n, mode, before, faults, cycle }
    }

    /// the next cycle; a press of which nobody is left begins again
    pub fn next(&self, random: &mut Random) -> Press {
        if self.cycle.after.iter().any(|state| matches!(state, State::Member { .. })) {
            Press::at(random, self.mode, self.cycle.after.clone())
        } else {
            Press::new(random, self.mode, self.n)
        }
    }

    /// a node after rule 1
    pub fn unit(&self, node: usize) -> Unit {
        Unit { n: self.n, node, state: self.cycle.stood[node] }
    }

    /// the lent votes of a receiver: 1,792 bytes and a mask; slots that did not arrive hold anything
    pub fn arrived(&self, random: &mut Random, node: usize) -> (Vec<u8>, u64) {
        let mut slots = if random.once_in(2) { vec![0; VOTES_BYTES] } else { random.bytes(VOTES_BYTES) };
        let mut mask = 0;
        for (q, vote) in arriving(&self.cycle.votes, &self.faults, node).iter().enumerate() {
            if let Some(vote) = vote {
                put_vote(&mut slots, q, vote);
                mask |= only(q);
            }
        }
        (slots, mask)
    }
}

pub fn put_vote(slots: &mut [u8], q: usize, vote: &Vote) {
    slots[VOTE_BYTES * q..VOTE_BYTES * (q + 1)].copy_from_slice(&vote_payload(vote));
}

/// the own slot and bit, and bits at N or above, are not looked at
pub fn put_unlooked(random: &mut Random, unit: &Unit, slots: &mut [u8], mask: &mut u64) {
    let own = vote(random, unit.n, unit.node);
    put_vote(slots, unit.node, &own);
    *mask ^= only(unit.node) | random.bits() & !all(unit.n);
}

/// a well-formed unit, of any kind, that no press need have reached
pub fn unit(random: &mut Random, mode: Mode, n: usize) -> Unit {
    let node = random.below(n);
    let state = match random.below(6) {
        0 => State::Out(random.pick(&[Reason::Stopped, Reason::NoQuorum, Reason::Outvoted])),
        1 => State::Joining,
        _ => {
            let set = random.mask() & all(n) | only(node);
            let group = Group { number: group_number(random), set, base: set | random.mask() & all(n) };
            State::Member { group, request: mode.is_quiet() && random.once_in(2) }
        }
    };
    Unit { n, node, state }
}

/// an image: mostly well formed, else with a byte or bit changed, or of any bytes
pub fn any_image(random: &mut Random, unit: &Unit) -> Vec<u8> {
    let mut bytes = image(unit).to_vec();
    match random.below(24) {
        0 => bytes[random.below(4)] = random.pick(&[0, 1, 2, 3, 63, 64, 65, 128, 255]),
        1 => bytes[random.below(24)] ^= 1 << random.below(8),
        2 => bytes = random.bytes(24),
        3 => {
            let len = random.below(50);
            bytes.resize(len, 0);
        }
        4 => {
            // the marks of another kind
            bytes[0] = random.below(4) as u8;
            bytes[1] = random.below(4) as u8;
        }
        5 => {
            // a bit at N or above, or a base that lacks part of the set
            let at = 8 + 8 * random.below(2);
            let mask = u64::from_be_bytes(bytes[at..at + 8].try_into().unwrap());
            let changed = if random.once_in(2) { mask | only(unit.n.min(63)) } else { mask & random.bits() };
            bytes[at..at + 8].copy_from_slice(&changed.to_be_bytes());
        }
        _ => {}
    }
    bytes
}

/// what a member sees; it is the same in both modes
pub fn view(unit: &Unit, group: &Group, heard: Heard) -> u64 {
    rule3(unit.n, unit.node, group, heard, Rules::of(Mode::Always))
}

/// votes around the quorum, for a unit that is a member or joining: some agree with it, some have another view, some are of another group
pub fn votes_for(random: &mut Random, unit: &Unit, heard: Heard) -> (Vec<u8>, u64) {
    let n = unit.n;
    if unit.state == State::Joining && n > 2 && random.once_in(3) {
        return camps(random, unit);
    }
    let mut slots = random.bytes(VOTES_BYTES);
    let mut values: Vec<Vote> = Vec::new();
    if let State::Member { group, .. } = unit.state {
        let view = view(unit, &group, heard);
        values.push(Vote { group, view });
        values.push(Vote { group, view: view ^ only(random.below(n)) });
        values.push(Vote { group: Group { number: group.number.wrapping_add(1), ..group }, view });
        values.push(Vote { group: Group { base: group.base | only(random.below(n)), ..group }, view });
        values.push(Vote { group: Group { set: group.set & !only(random.below(n)), ..group }, view });
    } else {
        for _ in 0..1 + random.below(3) {
            let outside = if random.once_in(6) { 0 } else { only(unit.node) };
            let set = random.mask() & all(n) & !outside;
            let group = Group { number: group_number(random), set, base: set | random.bits() & random.bits() & all(n) };
            let inside = if random.once_in(6) { 0 } else { only(unit.node) };
            values.push(Vote { group, view: (random.bits() & all(n)) | set | inside });
        }
        // values that differ in one field
        let first = values[0];
        values.push(Vote { group: Group { number: first.group.number ^ 1, ..first.group }, view: first.view });
    }
    // how many of the base agree: half of it, one more or less, or any number
    let first = values[0];
    let half = first.group.base.count_ones() as usize / 2;
    let agree = match random.below(4) {
        0 => random.below(n + 1),
        k => (half + k).saturating_sub(2),
    };
    let mut mask = if random.once_in(2) { random.bits() & !all(n) } else { 0 };
    let mut agreeing = if matches!(unit.state, State::Member { .. }) { 1 } else { 0 };
    let rival = 1 + random.below(values.len() - 1);
    let mixed = random.once_in(3);
    for q in shuffled(random, n) {
        let agrees = agreeing < agree && has(first.group.set, q) && q != unit.node;
        let mut vote = if agrees {
            agreeing += 1;
            first
        } else if mixed {
            random.pick(&values)
        } else {
            values[rival]
        };
        if !agrees || random.once_in(8) {
            // a sender is in its own view and set
            vote.view |= if random.once_in(10) { 0 } else { only(q) };
            if random.once_in(20) {
                vote.group.set |= only(q);
                vote.group.base |= only(q);
            }
        }
        if random.once_in(40) {
            damage_vote(random, n, q, &mut vote);
        }
        put_vote(&mut slots, q, &vote);
        if agrees || !random.once_in(4) {
            mask |= only(q);
        }
    }
    if random.once_in(10) {
        mask ^= random.mask();
    }
    (slots, mask)
}

/// votes for a joiner from two camps, each of which may be a quorum of its own base
fn camps(random: &mut Random, unit: &Unit) -> (Vec<u8>, u64) {
    let n = unit.n;
    let (mut slots, mut mask) = (random.bytes(VOTES_BYTES), 0);
    let others = all(n) & !only(unit.node);
    let first = random.mask() & others;
    // now and then they are alike but for one field
    let alike = random.once_in(4);
    for (k, camp) in [first, others & !first].into_iter().enumerate() {
        let set = if alike { others } else { camp };
        // none, some or half of a camp are silent
        let half = nodes(camp).take(camp.count_ones() as usize / 2).fold(0, |set, q| set | only(q));
        let silent = match random.below(3) {
            0 => 0,
            1 => random.bits() & random.bits() & camp,
            _ => half,
        };
        let more = random.bits() & random.bits() & all(n);
        let base = set | if random.once_in(2) { 0 } else { more };
        let group = Group { number: if alike { k as u32 } else { group_number(random) }, set, base };
        let wanted = if random.once_in(8) { 0 } else { only(unit.node) };
        let vote = Vote { group, view: set | wanted };
        for q in nodes(camp & !silent) {
            put_vote(&mut slots, q, &vote);
            mask |= only(q);
        }
    }
    (slots, mask)
}

/// a vote that meets condition 10, or nearly
pub fn damage_vote(random: &mut Random, n: usize, sender: usize, vote: &mut Vote) {
    let beyond = if n < 64 { only(n + random.below(64 - n)) } else { 0 };
    match random.below(7) {
        0 => vote.view &= !only(sender),
        1 => vote.group.set &= !only(sender),
        2 => vote.group.base &= random.bits(),
        3 => vote.view |= beyond,
        4 => vote.group.base |= beyond,
        5 => {
            vote.group.set |= beyond;
            vote.group.base |= beyond;
        }
        _ => vote.group.number ^= 1 << random.below(32),
    }
}

/// a sound vote of a sender
pub fn vote(random: &mut Random, n: usize, sender: usize) -> Vote {
    let set = random.mask() & all(n) | only(sender);
    let group = Group { number: group_number(random), set, base: set | random.mask() & all(n) };
    Vote { group, view: random.mask() & all(n) | only(sender) }
}

/// a frame that a reader of heartbeats or votes gets: right, off in one field with good checks, with bits changed, cut, or nonsense
pub fn any_frame(random: &mut Random, good: &[u8], channel: u32) -> Vec<u8> {
    let mut bytes = good.to_vec();
    match random.below(12) {
        0..=2 => {}
        3 => {
            // another field, the checks made again
            let (mut header, payload) = parts_of(good);
            let mut payload = payload.to_vec();
            change_field(random, &mut header, &mut payload);
            bytes = frame(&header, &payload, channel);
        }
        4 | 5 => {
            let (mut header, payload) = parts_of(good);
            let mut payload = payload.to_vec();
            if !payload.is_empty() {
                let at = random.below(payload.len());
                payload[at] ^= 1 << random.below(8);
            }
            if random.once_in(3) {
                change_field(random, &mut header, &mut payload);
            }
            bytes = frame(&header, &payload, channel);
        }
        6 => {
            for _ in 0..1 + random.below(3) {
                let at = random.below(bytes.len());
                bytes[at] ^= 1 << random.below(8);
            }
        }
        7 => {
            let len = random.below(bytes.len() + 4);
            bytes.resize(len, 0);
        }
        8 => bytes = Vec::new(),
        9 => {
            // whole frames of any length
            let words = random.pick(&[0, 1, 2, 13, 14, 15, 126, 127]);
            let bits = random.bits();
            let flag = |k: u32| bits >> k & 1 == 1;
            let header = Header {
                reserved: flag(0) && flag(1),
                preamble: flag(2) && flag(3),
                null_frame: flag(4) || flag(5),
                sync: flag(6),
                startup: flag(7),
                frame_number: (bits >> 8) as u32 & if flag(9) { 0x7ff } else { 0x7f },
                words,
                cycle: (bits >> 40) as u32 & 63,
            };
            bytes = frame(&header, &random.bytes(2 * words as usize), channel);
        }
        10 => {
            let len = random.below(300);
            bytes = random.bytes(len);
        }
        _ => {
            // a good check for whatever stands before it
            let at = random.below(bytes.len() - 3);
            bytes[at] ^= 1 << random.below(8);
            let covered = bytes.len() - 3;
            let check = frame_check(channel, &bytes[..covered]);
            bytes[covered..].copy_from_slice(&check.to_be_bytes()[1..]);
        }
    }
    bytes
}

fn change_field(random: &mut Random, header: &mut Header, payload: &mut Vec<u8>) {
    match random.below(9) {
        0 => header.reserved = true,
        1 => header.preamble = true,
        2 => header.null_frame = false,
        3 => header.sync = !header.sync,
        4 => header.startup = !header.startup,
        5 => header.frame_number = random.below(2048) as u32,
        6 => header.frame_number ^= 1 << random.below(11),
        7 => header.cycle ^= 1 << random.below(6),
        _ => {
            header.words = random.pick(&[0, 1, 2, 13, 14, 15, 127]);
            payload.resize(2 * header.words as usize, 0);
        }
    }
}

/// drive bytes of a heartbeat: none half of the time, else a few or any number
pub fn drive(random: &mut Random) -> Vec<u8> {
    let words = match random.below(8) {
        0 => random.pick(&[1, 2, 63, 125, 126]),
        1 => 1 + random.below(126),
        2 | 3 => 1 + random.below(6),
        _ => 0,
    };
    random.bytes(2 * words)
}

/// what heartbeats of a mode say
pub fn signs(mode: Mode) -> &'static [Sign] {
    match mode {
        Mode::Always => &[Sign::Member, Sign::Joining],
        Mode::Quiet => &[Sign::Member, Sign::Joining, Sign::Request],
    }
}

/// a heartbeat of a node on a channel
pub fn good_heartbeat(random: &mut Random, mode: Mode, node: usize, cycle: u32, channel: u32, drive: &[u8]) -> Vec<u8> {
    let sync = random.once_in(2);
    let sign = random.pick(signs(mode));
    let startup = sync && random.once_in(2);
    heartbeat(node, sign, sync, startup, cycle, channel, drive)
}

/// both copies of a heartbeat of a node; in one of four pairs they say different things
pub fn two_heartbeats(random: &mut Random, mode: Mode, node: usize, cycle: u32) -> [Vec<u8>; 2] {
    let (sign, drive) = (random.pick(signs(mode)), drive(random));
    let mut copies = [0, 1].map(|channel| {
        let sync = random.once_in(2);
        heartbeat(node, sign, sync, sync && random.once_in(2), cycle, channel, &drive)
    });
    if random.once_in(4) {
        let channel = random.below(2);
        copies[channel] = other_heartbeat(random, mode, &copies[channel], channel as u32);
    }
    copies
}

/// the first byte of a good heartbeat that says something else
pub fn other_first_byte(random: &mut Random, mode: Mode, first: u8) -> u8 {
    let good: &[u8] = if mode.is_quiet() { &[0, 0x40, 0x80] } else { &[0, 0x80] };
    let others: Vec<u8> = good.iter().copied().filter(|byte| *byte != first).collect();
    random.pick(&others)
}

/// a good heartbeat that differs from another one in what it says, in a drive byte, or in how many there are
pub fn other_heartbeat(random: &mut Random, mode: Mode, good: &[u8], channel: u32) -> Vec<u8> {
    let (header, payload) = parts_of(good);
    let (mut payload, len) = (payload.to_vec(), payload.len());
    match random.below(4) {
        0 => payload[0] = other_first_byte(random, mode, payload[0]),
        1 if len > 2 => payload[2 + random.below(len - 2)] ^= 1 << random.below(8),
        2 if len > 2 => payload.truncate(len - 2),
        _ if len < 254 => payload.extend([random.pick(&[0, 0x5a]); 2]),
        _ => payload[len - 1] ^= 1,
    }
    frame(&Header { words: payload.len() as u32 / 2, ..header }, &payload, channel)
}

/// a vote frame of a node on a channel
pub fn good_vote(random: &mut Random, n: usize, node: usize, cycle: u32, channel: u32) -> Vec<u8> {
    let vote = vote(random, n, node);
    vote_frame(node, &vote, cycle, channel)
}

/// the faults of a cycle in one of three styles: always, mostly or never just a few marks, so that the promise is kept for longer
pub fn faults_in_style(random: &mut Random, n: usize, style: usize) -> Faults {
    let mut faults = faults(random, n);
    if style == 0 || style == 1 && !random.once_in(3) {
        faults = Faults::none();
        for _ in 0..random.below(3) {
            mark(random, n, &mut faults);
        }
    }
    faults
}

/// a table with `cycles` cycles
pub fn table(random: &mut Random, n: usize, cycles: usize) -> Vec<u8> {
    let mut bytes = write_first(n as u8, founding(random, n));
    let style = random.below(3);
    for _ in 0..cycles {
        let faults = faults_in_style(random, n, style);
        if faults.missed_heartbeat.iter().chain(&faults.missed_vote).filter(|mask| **mask != 0).count() <= 128 {
            bytes.extend(write_cycle(&faults));
        }
    }
    bytes
}

/// where each record of a table that was made here begins
pub fn record_starts(table: &[u8]) -> Vec<usize> {
    let mut starts = vec![0];
    let mut at = 12;
    while at + 36 <= table.len() {
        starts.push(at);
        at += 36 + 9 * usize::from(table[at + 35]);
    }
    starts
}

/// one change to a table, or to a record of it that begins at `at`
pub fn damage_table(random: &mut Random, bytes: &mut Vec<u8>) {
    let starts = record_starts(bytes);
    let at = random.pick(&starts);
    match random.below(9) {
        0 => {
            let len = random.below(bytes.len() + 1);
            bytes.truncate(len);
        }
        1 => {
            let len = 1 + random.below(12);
            bytes.extend(random.bytes(len));
        }
        2 => {
            let place = random.below(bytes.len());
            bytes[place] ^= 1 << random.below(8);
        }
        3 => bytes[at + random.below(3)] = random.pick(&[0, 1, 2, 3, 0x47, 0x4d, 255]),
        4 => bytes[3] = random.pick(&[0, 1, 2, 3, 63, 64, 65, 128, 254, 255]),
        5 => {
            // the last record again, or the first one
            let again: Vec<u8> = bytes[random.pick(&[at, 0])..].to_vec();
            bytes.extend(again);
        }
        6 => {
            if at + 36 <= bytes.len() {
                bytes[at + 35] = random.pick(&[0, 1, 2, 127, 128, 129, 255]);
                if random.once_in(2) {
                    let more = random.below(2400);
                    bytes.extend(random.bytes(more));
                }
            }
        }
        7 => damage_entry(random, bytes, at),
        _ => {
            // a bit of a mask
            let place = at + 3 + random.below(32);
            if place < bytes.len() {
                bytes[place] |= 1 << random.below(8);
            }
        }
    }
}

/// a change to the entries of the cycle record at `at`
pub fn damage_entry(random: &mut Random, bytes: &mut Vec<u8>, at: usize) {
    if at == 0 || at + 36 > bytes.len() {
        return;
    }
    let count = usize::from(bytes[at + 35]);
    if count == 0 || at + 36 + 9 * count > bytes.len() {
        // an entry where there was none
        bytes[at + 35] = 1;
        let entry = random.bytes(9);
        bytes.splice(at + 36..at + 36, entry);
        return;
    }
    let entry = at + 36 + 9 * random.below(count);
    match random.below(7) {
        0 => bytes[entry] |= 0x40,
        1 => bytes[entry] = random.bits() as u8,
        2 => bytes[entry + 1..entry + 9].fill(0),
        3 => {
            let receiver = usize::from(bytes[entry] & 0x3f);
            let mask = u64::from_be_bytes(bytes[entry + 1..entry + 9].try_into().unwrap()) | only(receiver);
            bytes[entry + 1..entry + 9].copy_from_slice(&mask.to_be_bytes());
        }
        4 => bytes[entry] ^= 0x80,
        5 => {
            let other = at + 36 + 9 * random.below(count);
            for k in 0..9 {
                bytes.swap(entry + k, other + k);
            }
        }
        _ => bytes[entry + 1 + random.below(8)] |= 1 << random.below(8),
    }
}

/// the image of a row, damaged now and then
pub fn any_row(random: &mut Random, row: &[State]) -> Vec<u8> {
    let mut bytes = row_image(row);
    let n = row.len();
    match random.below(12) {
        0 => {
            let (p, q) = (random.below(n), random.below(n));
            for k in 0..24 {
                bytes.swap(24 * p + k, 24 * q + k);
            }
        }
        1 => {
            let q = random.below(n);
            bytes[24 * q + random.below(4)] = random.pick(&[0, 1, 2, 3, 64, 65, 255]);
        }
        2 => {
            let place = random.below(bytes.len());
            bytes[place] ^= 1 << random.below(8);
        }
        3 => {
            let len = random.below(bytes.len() + 50);
            bytes.resize(len, 0);
        }
        4 => {
            // another number of entries
            let len = 24 * random.below(66);
            bytes.resize(len, 2);
        }
        _ => {}
    }
    bytes
}

/// what a unit hears in a cycle, and the votes that are lent to it
#[derive(Clone)]
pub struct Offer {
    pub heard: Heard,
    pub slots: Vec<u8>,
    pub arrived: u64,
}

/// votes of a cycle under which a unit stays as it is, has another set, halts for either reason, or enters; or any around the quorum
pub fn offer(random: &mut Random, unit: &Unit) -> Offer {
    let (heard, vote, voters) = match unit.state {
        State::Member { group, .. } => vote_of_members(random, unit, group),
        _ => vote_for_joiner(random, unit),
    };
    let (mut slots, mut arrived) = if random.once_in(8) {
        votes_for(random, unit, heard)
    } else {
        let mut slots = vec![random.bits() as u8; VOTES_BYTES];
        nodes(voters).for_each(|q| put_vote(&mut slots, q, &vote));
        (slots, voters)
    };
    if random.once_in(4) {
        put_unlooked(random, unit, &mut slots, &mut arrived);
    }
    Offer { heard, slots, arrived }
}

/// what a member hears, and one vote and who of the others sends it: they agree, are silent, or outvote the member
fn vote_of_members(random: &mut Random, unit: &Unit, group: Group) -> (Heard, Vote, u64) {
    // one other node goes or comes
    let moved = if random.once_in(2) { only(random.below(unit.n)) & !only(unit.node) } else { 0 };
    let view = group.set ^ moved;
    // join 0 from outside the set and join 1 from inside count for nothing
    let (join0, join1) = (view & group.set | random.bits() & !group.set, view & !group.set | random.bits() & group.set);
    // a request from outside the set, of the unit itself or of nobody who is heard counts for nothing
    let unlooked = random.bits() & (!group.set | !join0 | only(unit.node));
    let heard = Heard { join0, join1, requests: if random.once_in(2) { random.mask() } else { unlooked } };
    let voters = group.set & view & !only(unit.node);
    match random.below(6) {
        0 => (heard, Vote { group, view }, 0),
        1 => (heard, Vote { group, view: view & !only(unit.node) }, voters),
        _ => (heard, Vote { group, view }, voters),
    }
}

/// the same for a unit that is joining, or will be: mostly the members of some group let it in
fn vote_for_joiner(random: &mut Random, unit: &Unit) -> (Heard, Vote, u64) {
    let others = all(unit.n) & !only(unit.node);
    let set = match random.mask() & others {
        0 => others,
        some => some,
    };
    let lost = if random.once_in(4) { random.mask() & others } else { 0 };
    let group = Group { number: group_number(random), set, base: set | lost };
    let wanted = if random.once_in(6) { 0 } else { only(unit.node) };
    (Heard { join0: random.bits(), join1: random.bits(), requests: random.bits() }, Vote { group, view: set | wanted }, set)
}

/// a step on a register block, a write with its address and value
#[derive(Clone)]
pub enum Step {
    Read(u32),
    Write(u32, u8),
    Cycle(Offer),
    WriteCycle(u32, u8, Offer),
}

/// a step on the block of a machine, its votes now and then of another length
pub fn step(random: &mut Random, machine: &Machine) -> Step {
    let any = random.bits() as u8;
    // a unit that is out comes back soon
    let (address, value) = if matches!(machine.unit.state, State::Out(_)) && random.once_in(2) {
        (COMMAND as u32, 2)
    } else {
        (address(random), random.pick(&[0, 1, 1, 2, 2, 3, 4, 6, 7, 8, 255, any]))
    };
    match random.below(8) {
        0 => Step::Read(address),
        1 | 2 => Step::Write(address, value),
        3 | 4 => Step::Cycle(lent_offer(random, &machine.unit)),
        _ => {
            let unit = written(machine, address as usize, value).unit;
            Step::WriteCycle(address, value, lent_offer(random, &unit))
        }
    }
}

/// mostly that of a register that takes writes, now and then of another or of none
fn address(random: &mut Random) -> u32 {
    match random.below(12) {
        0..=4 => FLAGS as u32,
        5 | 6 => ENABLES as u32,
        7 | 8 => COMMAND as u32,
        9 | 10 => random.below(BLOCK_BYTES) as u32,
        _ => random.pick(&[64, 65, 64 + 24, 64 + 27, 256 + 24, (1 << 16) + 25, 1 << 31, u32::MAX]),
    }
}

fn lent_offer(random: &mut Random, unit: &Unit) -> Offer {
    let mut offer = offer(random, unit);
    if random.once_in(60) {
        offer.slots.resize(random.pick(&[0, 1, 28, 64, 1791, 1793, 3584]), 0);
    }
    offer
}

/// a machine with a unit at its beginning, or of any kind
pub fn machine(random: &mut Random, mode: Mode) -> Machine {
    let n = count(random);
    let unit = if random.once_in(3) {
        unit(random, mode, n)
    } else {
        let (node, founding, number) = (random.below(n), founding(random, n), group_number(random));
        Unit { n, node, state: beginning_from(n, founding, number)[node] }
    };
    let [flags, enables] = [0; 2].map(|_| Flags::of(random.bits() as u8));
    Machine { unit, flags, enables }
}

/// the block of a machine with a bit changed, a register set or of another length
pub fn damaged_block(random: &mut Random, machine: &Machine) -> Vec<u8> {
    let mut bytes = block_of(machine).to_vec();
    match random.below(4) {
        0 => bytes[random.below(BLOCK_BYTES)] ^= 1 << random.below(8),
        1 => bytes[FLAGS + random.below(4)] = random.pick(&[0, 1, 2, 4, 7, 8, 255]),
        2 => drop(bytes.splice(..IMAGE_BYTES, any_image(random, &machine.unit))),
        _ => {
            let len = random.below(2 * BLOCK_BYTES);
            bytes.resize(len, 0);
        }
    }
    bytes
}
