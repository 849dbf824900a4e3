//! Whole presses by the node entries of the archive, in both modes, each unit for itself, over a bus that damages copies. After each cycle all units hold what
//! gm_cycle gives for the cycle's record, and after some the frames that they wrote are those that gm_run_frames shows. Of a heartbeat heard, a unit gets the drive
//! bytes that were sent, and of one missed none. A host with a mistake must be noticed.
//! SEED (or the first argument) chooses the presses, PRESSES their number.
use host::archive::Archive;
use host::generate as make;
use host::paper::faults::Faults;
use host::paper::frames::{
    frame, heartbeat, parts_of, vote_frame, vote_payload, DRIVE_BYTES, HEARTBEAT_BYTES, VOTES_BYTES, VOTE_BYTES, VOTE_FRAME_BYTES,
};
use host::paper::mode::Mode;
use host::paper::rules::{Heard, Sign};
use host::paper::run::{Sent, SentFrames, FRAMES_BYTES};
use host::paper::sets::{all, has, only, those, Set};
use host::paper::state::IMAGE_BYTES;
use host::paper::table::{write_cycle, write_first};
use host::random::Random;
use host::{hex, NodeEnd};
use std::collections::BTreeMap;

/// what the host or the bus of a press does wrong, to see that it is noticed
#[derive(Clone, Copy, PartialEq, Eq, Debug)]
enum Mistake {
    /// where one copy is damaged so is the other, and no record says it
    DamageOnBothChannels,
    /// no receive call where one copy came
    SenderSkipped,
    /// the masks are not 0 before a cycle
    MasksKept,
    /// a decision with other heard masks than the vote
    OtherMasksDecide,
    /// the frame for channel A goes out on both
    ChannelAOnBoth,
    /// every cycle has count 0
    CountStands,
    /// a unit that lost its memory begins as a founder
    BeginsAsFounder,
    /// a unit has other drive bytes for channel B, and no record says it
    OtherDriveOnB,
    /// the bus changes a drive byte in both copies alike, and their checks fit
    DriveChangedAlike,
    /// a request that is heard goes into heard0 alone
    RequestsForgotten,
    /// a request that is heard goes into the requests alone
    RequestsAlone,
    /// a decision gets no requests
    DecidesWithoutRequests,
    /// one unit is given the other mode
    OtherMode,
}

const MISTAKES: [Mistake; 13] = [
    Mistake::DamageOnBothChannels,
    Mistake::SenderSkipped,
    Mistake::MasksKept,
    Mistake::OtherMasksDecide,
    Mistake::ChannelAOnBoth,
    Mistake::CountStands,
    Mistake::BeginsAsFounder,
    Mistake::OtherDriveOnB,
    Mistake::DriveChangedAlike,
    Mistake::RequestsForgotten,
    Mistake::RequestsAlone,
    Mistake::DecidesWithoutRequests,
    Mistake::OtherMode,
];

#[derive(Clone, Copy)]
enum Phase {
    Heartbeats,
    Votes,
}

/// what happens to a copy on its way
#[derive(Clone, Copy)]
enum Damage {
    Lost,
    Cut,
    Flipped,
    Null,
    OfAnotherCycle,
    OfAnotherNode,
}

const DAMAGES: [Damage; 6] = [Damage::Lost, Damage::Cut, Damage::Flipped, Damage::Null, Damage::OfAnotherCycle, Damage::OfAnotherNode];

/// what was gone through
#[derive(Default)]
struct Counts {
    presses: u64,
    cycles: u64,
    /// cycles whose frames were compared
    shown: u64,
    /// copies damaged where the other came as sent, and of those frames that were received
    damaged: u64,
    saved: u64,
    /// copies damaged on both channels, where the record says missed or nothing was sent
    both_damaged: u64,
    /// two good heartbeats that say different things, in the same places
    differing: u64,
    /// heartbeats heard that had drive bytes, how many bytes these were, and heartbeats missed by a receive call
    driven: u64,
    drive_bytes: u64,
    missed: u64,
    /// receive calls left out, cycles of a unit that was switched off, units that went off as they were stopped, and units that lost their memory
    left_out: u64,
    off: u64,
    gone: u64,
    forgotten: u64,
    /// units that a decision put out, and that it made members
    halted: u64,
    entered: u64,
    /// cycles in which a member of a quiet press sent no vote, those of them in which it halted, and requests that were heard
    silent: u64,
    silent_halted: u64,
    requests: u64,
    /// damaged copies by the number that refuses them
    refusals: BTreeMap<u32, u64>,
}

/// what one unit keeps
struct Unit {
    mode: u32,
    state: Vec<u8>,
    heard: Heard,
    votes: Vec<u8>,
    arrived: Set,
    /// the drive bytes of its next heartbeat
    drive: Vec<u8>,
    /// switched off in this cycle: it makes no calls
    off: bool,
    /// whether it sent a vote in this cycle
    voted: bool,
}

/// the copies of one frame that come to a unit, whether one of them is as sent, and whether just one was damaged
struct Come {
    copies: [Vec<u8>; 2],
    as_sent: bool,
    one_damaged: bool,
}

struct Press<'a> {
    n: usize,
    mode: Mode,
    units: Vec<Unit>,
    /// the row that gm_cycle works on, and the table of the cycles so far
    row: Vec<u8>,
    table: Vec<u8>,
    cycles: usize,
    /// of one frame in so many a copy is damaged
    damage_rate: usize,
    /// of the fault records
    style: usize,
    /// heartbeats with sync and startup, on each channel its own: gm_run_frames has none
    indicators: bool,
    /// heartbeats have up to so many words of drive bytes: in gm_run_frames they have none
    drive_words: usize,
    random: Random,
    mistake: Option<Mistake>,
    counts: &'a mut Counts,
}

fn must(status: u32, entry: &str) {
    assert_eq!(status, 0, "gm_{entry} is refused");
}

/// a payload that would count for something else, were the frame taken for one of `node`
fn other_payload(random: &mut Random, mode: Mode, n: usize, node: usize, phase: Phase, payload: &[u8]) -> Vec<u8> {
    match phase {
        Phase::Heartbeats => [&[make::other_first_byte(random, mode, payload[0])], &payload[1..]].concat(),
        Phase::Votes => vote_payload(&make::vote(random, n, node)).to_vec(),
    }
}

/// the copy of a frame of `node` after its way
fn damaged(random: &mut Random, mode: Mode, n: usize, node: usize, phase: Phase, copy: &[u8], channel: u32) -> Vec<u8> {
    let (mut header, payload) = parts_of(copy);
    match random.pick(&DAMAGES) {
        Damage::Lost => Vec::new(),
        Damage::Cut => copy[..1 + random.below(copy.len() - 1)].to_vec(),
        Damage::Flipped => {
            let mut one_bit = copy.to_vec();
            one_bit[random.below(copy.len())] ^= 1 << random.below(8);
            one_bit
        }
        Damage::Null => {
            header.null_frame = false;
            frame(&header, &vec![0; payload.len()], channel)
        }
        Damage::OfAnotherCycle => {
            header.cycle = (header.cycle + 1 + random.below(63) as u32) % 64;
            frame(&header, &other_payload(random, mode, n, node, phase, payload), channel)
        }
        Damage::OfAnotherNode => {
            let other = (node + 1 + random.below(n - 1)) % n;
            header.frame_number = header.frame_number - node as u32 + other as u32;
            frame(&header, &other_payload(random, mode, n, other, phase, payload), channel)
        }
    }
}

/// other drive bytes than these
fn other_drive(drive: &[u8]) -> Vec<u8> {
    match drive {
        [] => vec![0; 2],
        [before @ .., last] => [before, &[last ^ 1]].concat(),
    }
}

/// a copy with another drive byte, if it has one
fn with_other_drive(copy: &[u8], channel: u32) -> Vec<u8> {
    match parts_of(copy) {
        (_, [_, _]) => copy.to_vec(),
        (header, payload) => frame(&header, &other_drive(payload), channel),
    }
}

/// the frame that a unit writes for a channel, and whether it sends it
fn write(unit: &Unit, phase: Phase, count: u32, channel: u32, [sync, startup]: [u32; 2], drive: &[u8]) -> (u32, Vec<u8>) {
    let (mut sent, mode, heard) = (9, unit.mode, unit.heard);
    let mut frame = match phase {
        Phase::Heartbeats => vec![0xa5; HEARTBEAT_BYTES + drive.len()],
        Phase::Votes => vec![0xa5; VOTE_FRAME_BYTES],
    };
    match phase {
        Phase::Heartbeats => {
            must(Archive.send_heartbeat(mode, &unit.state, sync, startup, count, channel, drive, &mut frame, &mut sent), "send_heartbeat");
        }
        Phase::Votes => {
            let status = Archive.send_vote(mode, &unit.state, heard.join0, heard.join1, heard.requests, count, channel, &mut frame, &mut sent);
            must(status, "send_vote");
        }
    }
    (sent, frame)
}

impl Press<'_> {
    fn new(seed: u64, mistake: Option<Mistake>, counts: &mut Counts) -> Press<'_> {
        let mut random = Random::new(seed);
        let (mode, n) = (random.pick(&Mode::BOTH), make::count(&mut random));
        let founding = make::founding(&mut random, n);
        // a unit that is given the other mode is the last one
        let unit_mode = |node: usize| if mistake == Some(Mistake::OtherMode) && node + 1 == n { 1 - mode.number() } else { mode.number() };
        let (damage_rate, style, indicators) = (random.pick(&[2, 4, 10, 100]), random.below(3), random.once_in(4));
        let drive_words = random.pick(&[0, 0, 1, 4, 12, 126]);
        let begun = |node: usize| {
            let mut state = vec![0; IMAGE_BYTES];
            must(Archive.begin(n as u32, node as u32, founding, &mut state), "begin");
            let (votes, drive) = (vec![0; VOTES_BYTES], Vec::new());
            Unit { mode: unit_mode(node), state, heard: Heard::default(), votes, arrived: 0, drive, off: false, voted: false }
        };
        let units: Vec<Unit> = (0..n).map(begun).collect();
        let row = units.iter().flat_map(|unit| unit.state.clone()).collect();
        counts.presses += 1;
        Press {
            n,
            mode,
            units,
            row,
            table: write_first(n as u8, founding),
            cycles: 0,
            damage_rate,
            style,
            indicators,
            drive_words,
            random,
            mistake,
            counts,
        }
    }

    fn mistaken(&self, mistake: Mistake) -> bool {
        self.mistake == Some(mistake)
    }

    /// "Cycle n of a run has cycle count n - 1 modulo 64"
    fn count(&self) -> u32 {
        if self.mistaken(Mistake::CountStands) {
            0
        } else {
            (self.cycles % 64) as u32
        }
    }

    /// the faults of the next cycle; now and then everybody who is out is started
    fn next_faults(&mut self) -> Faults {
        let mut faults = make::faults_in_style(&mut self.random, self.n, self.style);
        if self.random.once_in(6) {
            faults.start |= those(self.n, |q| self.units[q].state[0] == 0);
        }
        faults
    }

    /// sync and startup of a heartbeat, "but startup only with sync"
    fn indicators(&self, q: usize, channel: u32) -> [u32; 2] {
        let sync = u32::from(self.indicators) & (q as u32 + self.cycles as u32 + channel);
        [sync, sync & (self.cycles as u32 >> 1)]
    }

    /// the masks are cleared, the vote buffer holds anything, the drive has new bytes; then rule 1. A unit that is out then, and is not started, may be off:
    /// it makes no further call
    fn begin_cycle(&mut self, q: usize, faults: &Faults) {
        let (stop, start) = (has(faults.stop, q), has(faults.start, q));
        let kept = self.mistaken(Mistake::MasksKept);
        let unit = &mut self.units[q];
        if !kept {
            (unit.heard, unit.arrived) = (Heard::default(), 0);
        }
        if self.random.once_in(2) {
            unit.votes = self.random.bytes(VOTES_BYTES);
        }
        let words = self.random.below(self.drive_words + 1);
        unit.drive = self.random.bytes(2 * words);
        if stop && self.random.once_in(3) {
            self.forget(q);
        } else if stop {
            must(Archive.stop(unit.mode, &mut unit.state), "stop");
        }
        if start {
            must(Archive.start(self.units[q].mode, &mut self.units[q].state), "start");
        }
        let off = self.units[q].state[0] == 0 && !start && self.random.once_in(2);
        self.units[q].off = off;
        self.counts.off += u64::from(off);
        self.counts.gone += u64::from(off && stop);
    }

    /// a unit that lost its memory: instead of gm_stop it begins, with a founding set that lacks it
    fn forget(&mut self, q: usize) {
        let others = make::founding(&mut self.random, self.n) & !only(q);
        let founding = match others {
            _ if self.mistaken(Mistake::BeginsAsFounder) => only(q),
            0 => all(self.n) & !only(q),
            some => some,
        };
        let state = &mut self.units[q].state;
        *state = self.random.bytes(IMAGE_BYTES);
        must(Archive.begin(self.n as u32, q as u32, founding, state), "begin");
        self.counts.forgotten += 1;
    }

    /// what unit q sends in a phase, on both channels
    fn send(&self, phase: Phase, q: usize) -> Sent {
        let unit = &self.units[q];
        if unit.off {
            return None;
        }
        let b = if self.mistaken(Mistake::ChannelAOnBoth) { 0 } else { 1 };
        let drive_b = if self.mistaken(Mistake::OtherDriveOnB) { other_drive(&unit.drive) } else { unit.drive.clone() };
        let [(on_a, a), (on_b, b)] =
            [(0, &unit.drive), (b, &drive_b)].map(|(channel, drive)| write(unit, phase, self.count(), channel, self.indicators(q, channel), drive));
        assert_eq!(on_a, on_b, "a unit sends on both channels or on none");
        (on_a == 1).then_some([a, b])
    }

    /// the status of reading a copy of a frame of p
    fn read(&self, phase: Phase, p: usize, copy: &[u8], channel: usize) -> u32 {
        let (n, node, count, channel) = (self.n as u32, p as u32, self.count(), channel as u32);
        match phase {
            Phase::Heartbeats => {
                let mode = self.mode.number();
                Archive.read_heartbeat(n, mode, node, count, channel, copy, &mut [0; DRIVE_BYTES], &mut 0, &mut 0, &mut 0)
            }
            Phase::Votes => Archive.read_vote(n, node, count, channel, copy, &mut [0; VOTE_BYTES]),
        }
    }

    /// a copy that is damaged; reading must refuse it, else it would be no damage
    fn damage(&mut self, phase: Phase, p: usize, copy: &[u8], channel: usize) -> Vec<u8> {
        let bytes = damaged(&mut self.random, self.mode, self.n, p, phase, copy, channel as u32);
        let refusal = self.read(phase, p, &bytes, channel);
        assert_ne!(refusal, 0, "a damaged copy is read");
        *self.counts.refusals.entry(refusal).or_default() += 1;
        bytes
    }

    /// two heartbeats of p that say different things; reading must accept both, else the two-channel rule would not be tried
    fn differing(&mut self, p: usize, copy: &[u8]) -> [Vec<u8>; 2] {
        let (header, payload) = parts_of(copy);
        let mut copies = [0, 1].map(|channel| frame(&header, payload, channel));
        let channel = self.random.below(2);
        copies[channel] = make::other_heartbeat(&mut self.random, self.mode, &copies[channel], channel as u32);
        let refusals = [0, 1].map(|channel| self.read(Phase::Heartbeats, p, &copies[channel], channel));
        assert_eq!(refusals, [0, 0], "a good copy is not read");
        self.counts.differing += 1;
        copies
    }

    /// a frame that node p could send now
    fn due(&mut self, phase: Phase, p: usize) -> [Vec<u8>; 2] {
        let (count, sign, vote) = (self.count(), self.random.pick(make::signs(self.mode)), make::vote(&mut self.random, self.n, p));
        [0, 1].map(|channel| match phase {
            Phase::Heartbeats => heartbeat(p, sign, false, false, count, channel, &self.units[p].drive),
            Phase::Votes => vote_frame(p, &vote, count, channel),
        })
    }

    /// what comes where the frame does not reach, or none was sent: nothing, two damaged copies, or two heartbeats that say different things
    fn nothing_good(&mut self, phase: Phase, p: usize, sent: &Sent) -> [Vec<u8>; 2] {
        if !self.random.once_in(4) {
            return [Vec::new(), Vec::new()];
        }
        let [a, b] = sent.clone().unwrap_or_else(|| self.due(phase, p));
        if matches!(phase, Phase::Heartbeats) && self.random.once_in(2) {
            return self.differing(p, &a);
        }
        self.counts.both_damaged += 2;
        [self.damage(phase, p, &a, 0), self.damage(phase, p, &b, 1)]
    }

    /// the two copies of the frame of p that come to a unit: as sent where it reaches, but for damage to one of them
    fn carry(&mut self, phase: Phase, p: usize, sent: &Sent, reaches: bool) -> Come {
        let Some(sent) = sent.as_ref().filter(|_| reaches) else {
            return Come { copies: self.nothing_good(phase, p, sent), as_sent: false, one_damaged: false };
        };
        let mut copies = sent.clone();
        if self.mistaken(Mistake::DriveChangedAlike) && matches!(phase, Phase::Heartbeats) {
            copies = [0, 1].map(|channel| with_other_drive(&sent[channel], channel as u32));
        }
        let one_damaged = self.random.once_in(self.damage_rate);
        if one_damaged {
            let channel = self.random.below(2);
            copies[channel] = self.damage(phase, p, &sent[channel], channel);
            self.counts.damaged += 1;
            if self.mistaken(Mistake::DamageOnBothChannels) {
                copies[1 - channel] = Vec::new();
            }
        }
        Come { copies, as_sent: true, one_damaged }
    }

    /// whether the receive call is left out: it may be where nothing came on either channel
    fn left_out(&mut self, [a, b]: &[Vec<u8>; 2]) -> bool {
        let left_out = a.is_empty() && b.is_empty() && self.random.once_in(2);
        self.counts.left_out += u64::from(left_out);
        left_out || self.mistaken(Mistake::SenderSkipped) && (a.is_empty() || b.is_empty())
    }

    /// unit q receives the frame of p; whether it got it
    fn receive(&mut self, phase: Phase, q: usize, p: usize, copies: &[Vec<u8>; 2]) -> Result<bool, String> {
        match phase {
            Phase::Heartbeats => self.receive_heartbeat(q, p, copies),
            Phase::Votes => {
                let (n, node, count, unit) = (self.n as u32, p as u32, self.count(), &mut self.units[q]);
                must(Archive.receive_vote(n, node, count, &copies[0], &copies[1], &mut unit.votes, &mut unit.arrived), "receive_vote");
                Ok(has(unit.arrived, p))
            }
        }
    }

    /// of a heartbeat heard come the drive bytes that p sent, and behind them stays what was there; of one missed none
    fn receive_heartbeat(&mut self, q: usize, p: usize, [a, b]: &[Vec<u8>; 2]) -> Result<bool, String> {
        let before = [self.random.bits() as u8; DRIVE_BYTES];
        let (mut drive, mut heard, mut number) = (before, 9, 9);
        let (n, mode) = (self.n as u32, self.units[q].mode);
        must(Archive.receive_heartbeat(n, mode, p as u32, self.count(), a, b, &mut drive, &mut heard, &mut number), "receive_heartbeat");
        self.note_heard(q, p, heard);
        let sent = if heard == 0 { &[] } else { &self.units[p].drive[..] };
        let due = [sent, &before[sent.len()..]].concat();
        if number as usize != sent.len() || drive[..] != due {
            let at = drive.iter().zip(&due).position(|(held, due)| held != due);
            let (n, cycle, len) = (self.n, self.cycles + 1, sent.len());
            return Err(format!(
                "N {n}, cycle {cycle}: unit {q} has {number} drive bytes of unit {p} for {len} sent, the first other byte at {at:?}"
            ));
        }
        self.counts.driven += u64::from(number > 0);
        self.counts.drive_bytes += u64::from(number);
        self.counts.missed += u64::from(heard == 0);
        Ok(heard != 0)
    }

    /// the bits of p that the host sets after a heartbeat
    fn note_heard(&mut self, q: usize, p: usize, heard: u32) {
        let before = self.units[q].heard;
        let noted = &mut self.units[q].heard;
        match heard {
            1 => noted.hear(p, Sign::Member),
            2 => noted.hear(p, Sign::Joining),
            3 => noted.hear(p, Sign::Request),
            _ => {}
        }
        match self.mistake {
            Some(Mistake::RequestsForgotten) => noted.requests = before.requests,
            Some(Mistake::RequestsAlone) if heard == 3 => noted.join0 = before.join0,
            _ => {}
        }
        self.counts.requests += u64::from(heard == 3);
    }

    /// unit q listens to all others, in any order
    fn listen(&mut self, phase: Phase, q: usize, sent: &[Sent], faults: &Faults) -> Result<(), String> {
        for p in make::shuffled(&mut self.random, self.n).into_iter().filter(|&p| p != q) {
            let reaches = match phase {
                Phase::Heartbeats => faults.heartbeat_reaches(p, q),
                Phase::Votes => faults.vote_reaches(p, q),
            };
            let come = self.carry(phase, p, &sent[p], reaches);
            if self.left_out(&come.copies) || !self.receive(phase, q, p, &come.copies)? {
                continue;
            }
            if !come.as_sent {
                return Err(format!("N {}, cycle {}: unit {q} got a frame of unit {p} of which no copy counts", self.n, self.cycles + 1));
            }
            self.counts.saved += u64::from(come.one_damaged);
        }
        Ok(())
    }

    /// all send, and then all that are switched on listen
    fn exchange(&mut self, phase: Phase, faults: &Faults) -> Result<Vec<Sent>, String> {
        let sent: Vec<Sent> = (0..self.n).map(|q| self.send(phase, q)).collect();
        for q in (0..self.n).filter(|&q| !self.units[q].off).collect::<Vec<usize>>() {
            self.listen(phase, q, &sent, faults)?;
        }
        Ok(sent)
    }

    fn decide(&mut self, q: usize) {
        let mistake = self.mistake;
        let unit = &mut self.units[q];
        let heard = match mistake {
            Some(Mistake::OtherMasksDecide) => Heard { join0: unit.heard.join1, join1: unit.heard.join0, ..unit.heard },
            Some(Mistake::DecidesWithoutRequests) => Heard { requests: 0, ..unit.heard },
            _ => unit.heard,
        };
        if unit.off {
            return;
        }
        let before = unit.state[0];
        must(Archive.decide(unit.mode, &mut unit.state, heard.join0, heard.join1, heard.requests, &unit.votes, unit.arrived), "decide");
        let (halted, silent) = ((before, unit.state[0]) == (2, 0), before == 2 && !unit.voted);
        self.counts.halted += u64::from(halted);
        self.counts.entered += u64::from((before, unit.state[0]) == (1, 2));
        self.counts.silent += u64::from(silent);
        self.counts.silent_halted += u64::from(silent && halted);
    }

    /// one cycle of all units, and of the row by the record
    fn cycle(&mut self) -> Result<SentFrames, String> {
        let faults = self.next_faults();
        (0..self.n).for_each(|q| self.begin_cycle(q, &faults));
        let heartbeats = self.exchange(Phase::Heartbeats, &faults)?;
        let votes = self.exchange(Phase::Votes, &faults)?;
        (0..self.n).for_each(|q| self.units[q].voted = votes[q].is_some());
        (0..self.n).for_each(|q| self.decide(q));
        let record = write_cycle(&faults);
        must(Archive.cycle(self.n as u32, self.mode.number(), &mut self.row, &record), "cycle");
        self.table.extend(record);
        self.cycles += 1;
        self.counts.cycles += 1;
        self.same_states()?;
        Ok(SentFrames { heartbeats, votes })
    }

    fn same_states(&self) -> Result<(), String> {
        let by_row = self.row.chunks(IMAGE_BYTES);
        match self.units.iter().zip(by_row).position(|(unit, given)| unit.state != given) {
            None => Ok(()),
            Some(q) => {
                let (held, given) = (hex(&self.units[q].state), hex(&self.row[IMAGE_BYTES * q..IMAGE_BYTES * (q + 1)]));
                let mode = self.mode.number();
                Err(format!("mode {mode}, N {}, cycle {}: unit {q} holds {held} and gm_cycle gives {given}", self.n, self.cycles))
            }
        }
    }

    /// gm_run_frames on the table so far gives the same row, and shows the frames that the units wrote in the last cycle; where heartbeats have indicators or
    /// drive bytes only the votes
    fn same_frames(&mut self, written: &SentFrames) -> Result<(), String> {
        let (mut row, mut frames) = (self.random.bytes(self.row.len()), self.random.bytes(FRAMES_BYTES));
        must(Archive.run_frames(self.mode.number(), &mut row, &self.table, &mut frames), "run_frames");
        self.counts.shown += 1;
        if row != self.row {
            return Err(format!("N {}, cycle {}: gm_run_frames leaves another row", self.n, self.cycles));
        }
        let wrote = written.shown();
        let heartbeats = if self.indicators || self.drive_words > 0 { 128 } else { 0 };
        let mut slots = frames.chunks(VOTE_FRAME_BYTES).zip(wrote.chunks(VOTE_FRAME_BYTES)).enumerate().skip(heartbeats);
        match slots.find(|(_, (shown, wrote))| shown != wrote) {
            None => Ok(()),
            Some((k, (shown, wrote))) => {
                let place = format!("slot {} of part {}", k % 64, k / 64);
                Err(format!("N {}, cycle {}: {place} shows {} and the unit wrote {}", self.n, self.cycles, hex(shown), hex(wrote)))
            }
        }
    }

    /// all its cycles: more than 64 now and then, so that the count begins again, few of many units
    fn run(&mut self) -> Result<(), String> {
        let long = self.n < 6 && self.random.once_in(10);
        let cycles = if long { 60 + self.random.below(80) } else { 1 + self.random.below(4 + 120 / self.n) };
        for k in 1..=cycles {
            let written = self.cycle()?;
            if k == cycles || self.random.once_in(2 * self.n) {
                self.same_frames(&written)?;
            }
        }
        Ok(())
    }
}

/// so many presses, or what is noticed first
fn presses(seed: u64, number: u64, mistake: Option<Mistake>) -> Result<Counts, String> {
    let (mut random, mut counts) = (Random::new(seed), Counts::default());
    for k in 0..number {
        Press::new(random.bits(), mistake, &mut counts).run().map_err(|what| format!("press {k}: {what}"))?;
    }
    Ok(counts)
}

fn print_counts(counts: &Counts) {
    let Counts { presses, cycles, shown, damaged, saved, both_damaged, differing, driven, drive_bytes, missed, .. } = counts;
    let Counts { left_out, off, gone, forgotten, halted, entered, silent, silent_halted, requests, refusals, .. } = counts;
    let refusals: Vec<String> = refusals.iter().map(|(number, count)| format!("{number}: {count}")).collect();
    println!("press: {presses} presses of 2 to 64 units, {cycles} cycles: all units hold what gm_cycle gives; frames of {shown} cycles as gm_run_frames shows");
    println!(
        "press: {damaged} copies damaged on one channel, {saved} frames saved by the other; {both_damaged} copies damaged on both, where nothing comes"
    );
    println!("press: damaged copies by the number that refuses them: {}", refusals.join(", "));
    println!("press: {driven} heartbeats heard with drive bytes, {drive_bytes} bytes, all as sent");
    println!("press: {missed} heartbeats missed and no drive bytes given, {differing} of them with two good copies that differ");
    println!("press: {left_out} receive calls left out, {off} cycles of units switched off, {gone} that went off as they were stopped, {forgotten} that lost their memory");
    println!("press: {halted} units halted, {entered} entered a group");
    println!("press: in quiet presses {silent} times a member sent no vote, {silent_halted} times it halted; {requests} requests were heard");
}

fn main() {
    let argument = std::env::args().nth(1).or_else(|| std::env::var("SEED").ok());
    let seed: u64 = argument.map_or(1, |text| text.parse().expect("SEED is a number"));
    let number: u64 = std::env::var("PRESSES").map_or(5000, |text| text.parse().expect("PRESSES is a number"));
    println!("press: seed {seed}, {number} presses");
    let mut failed = false;
    match presses(seed, number, None) {
        Ok(counts) => {
            print_counts(&counts);
            if counts.saved != counts.damaged {
                println!("press: a frame was missed though one copy came as sent");
                failed = true;
            }
            if [counts.silent, counts.silent_halted, counts.requests].contains(&0) {
                println!("press: no member of a quiet press was silent, halted so, or was heard to request");
                failed = true;
            }
        }
        Err(what) => {
            println!("press: {what}");
            failed = true;
        }
    }
    for mistake in MISTAKES {
        let found = presses(1, 200, Some(mistake)).err();
        println!("press: mistake {mistake:?} is noticed by {}", found.as_deref().unwrap_or("nothing"));
        failed |= found.is_none();
    }
    if failed {
        std::process::exit(1);
    }
    println!("press: all presses agree, and every mistake is noticed");
}
