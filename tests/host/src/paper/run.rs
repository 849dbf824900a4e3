//! A press run over a fault table, plain and through frames.
use super::faults::{after_rule1, cycle, Faults};
use super::frames::{
    decide_on_slots, heartbeat, receive_heartbeat, receive_vote, vote_frame, vote_payload, VOTES_BYTES, VOTE_BYTES, VOTE_FRAME_BYTES,
};
use super::mode::Mode;
use super::rules::{rule2, rule4, Heard, Rules};
use super::sets::{only, Set};
use super::state::{beginning, State, Unit};

/// "a table's run first sets it to the beginning"
pub fn run(mode: Mode, n: usize, founding: Set, cycles: &[Faults]) -> Vec<State> {
    cycles.iter().fold(beginning(n, founding), |row, faults| cycle(&row, faults, Rules::of(mode)).after)
}

/// the frame of a node in one phase, as it goes out on A and on B
pub type Sent = Option<[Vec<u8>; 2]>;

/// what the nodes send in a cycle, whether or not it reaches anybody
pub struct SentFrames {
    pub heartbeats: Vec<Sent>,
    pub votes: Vec<Sent>,
}

/// the lent buffer `frames` of include/gm.h, GM_FRAMES_BYTES: four parts, and how many slots each has
pub const FRAMES_BYTES: usize = 4 * FRAME_SLOTS * VOTE_FRAME_BYTES;
const FRAME_SLOTS: usize = 64;

impl SentFrames {
    /// what an analyser on the bus shows: heartbeats on A, heartbeats on B, votes on A, votes on B, a slot for each node
    pub fn shown(&self) -> Vec<u8> {
        let parts = [(&self.heartbeats, 0), (&self.heartbeats, 1), (&self.votes, 0), (&self.votes, 1)];
        parts.into_iter().flat_map(|(sent, channel)| (0..FRAME_SLOTS).flat_map(move |q| shown_slot(sent.get(q), channel))).collect()
    }
}

/// the frame at the front, zeros behind it and where nothing was sent
fn shown_slot(sent: Option<&Sent>, channel: usize) -> Vec<u8> {
    let mut slot = match sent {
        Some(Some(copies)) => copies[channel].clone(),
        _ => Vec::new(),
    };
    slot.resize(VOTE_FRAME_BYTES, 0);
    slot
}

/// the same, every heartbeat and vote written and read on both channels; and what was sent in the last cycle, if there is one
pub fn run_frames(mode: Mode, n: usize, founding: Set, cycles: &[Faults]) -> (Vec<State>, Option<SentFrames>) {
    let (mut row, mut last) = (beginning(n, founding), None);
    for (k, faults) in cycles.iter().enumerate() {
        let (after, sent) = frames_cycle(mode, &row, faults, k + 1);
        (row, last) = (after, Some(sent));
    }
    (row, last)
}

/// cycle number `cycle_number` through frames
fn frames_cycle(mode: Mode, row: &[State], faults: &Faults, cycle_number: usize) -> (Vec<State>, SentFrames) {
    let n = row.len();
    let row = after_rule1(row, faults);
    // "Cycle n of a run has cycle count n - 1 modulo 64, and its heartbeats have sync and startup 0."; request 2: "A run's heartbeats keep one word."
    let count = ((cycle_number - 1) % 64) as u32;
    let heartbeats: Vec<Sent> =
        (0..n).map(|q| rule2(row[q]).map(|sign| [0, 1].map(|channel| heartbeat(q, sign, false, false, count, channel, &[])))).collect();
    let heard: Vec<Heard> = (0..n).map(|to| hear(mode, &heartbeats, faults, to, count)).collect();
    let votes: Vec<Sent> = (0..n)
        .map(|q| rule4(n, q, row[q], heard[q], Rules::of(mode)).map(|vote| [0, 1].map(|channel| vote_frame(q, &vote, count, channel))))
        .collect();
    let decided = |to: usize| {
        let (slots, mask) = collect(n, &votes, faults, to, count);
        decide_on_slots(mode, &Unit { n, node: to, state: row[to] }, heard[to], &slots, mask)
    };
    ((0..n).map(decided).collect(), SentFrames { heartbeats, votes })
}

/// "Run through frames, a lost or missed one is absent on both channels."
fn copies(frames: &Sent, reaches: bool) -> [&[u8]; 2] {
    match frames {
        Some([a, b]) if reaches => [a, b],
        _ => [&[], &[]],
    }
}

fn hear(mode: Mode, heartbeats: &[Sent], faults: &Faults, to: usize, count: u32) -> Heard {
    let mut heard = Heard::default();
    for (from, frames) in heartbeats.iter().enumerate() {
        let [a, b] = copies(frames, faults.heartbeat_reaches(from, to));
        if let Some(heartbeat) = receive_heartbeat(mode, from, count, a, b) {
            heard.hear(from, heartbeat.sign);
        }
    }
    heard
}

fn collect(n: usize, votes: &[Sent], faults: &Faults, to: usize, count: u32) -> (Vec<u8>, u64) {
    let (mut slots, mut mask) = (vec![0; VOTES_BYTES], 0);
    for (from, frames) in votes.iter().enumerate() {
        let [a, b] = copies(frames, faults.vote_reaches(from, to));
        if let Some(vote) = receive_vote(n, from, count, a, b) {
            slots[VOTE_BYTES * from..VOTE_BYTES * (from + 1)].copy_from_slice(&vote_payload(&vote));
            mask |= only(from);
        }
    }
    (slots, mask)
}
