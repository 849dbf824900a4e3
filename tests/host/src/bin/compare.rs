//! Compares the twenty-one entries of the archive with the paper's implementation, in both modes: first every length, number and place of damage in turn, then
//! random calls and random series of steps on a register block. SEED (or the first argument) chooses the calls, CALLS and SERIES the number of random ones.
use host::archive::Archive;
use host::claims::{each_kept_record, Standing};
use host::generate::{self as make, Press, Step};
use host::paper::checks::frame_check;
use host::paper::entries::Paper;
use host::paper::faults::Faults;
use host::paper::frames::{
    arrived_votes, frame, heartbeat, heartbeat_header, parts_of, vote_frame, vote_header, vote_payload, Header, DRIVE_BYTES, HEARTBEAT_BYTES,
    VOTES_BYTES, VOTE_BYTES, VOTE_FRAME_BYTES,
};
use host::paper::mode::Mode;
use host::paper::registers::{block_of, raised, read_block, written, Flags, Machine, BLOCK_BYTES, COMMAND, ENABLES, FLAGS, PENDING};
use host::paper::rules::{fits, rule4, Heard, Rules, Sign, Vote};
use host::paper::run::FRAMES_BYTES;
use host::paper::sets::{all, has, inside, only, size};
use host::paper::state::{beginning_from, image, row_image, Group, Reason, State, Unit};
use host::paper::table::{write_cycle, write_first};
use host::random::Random;
use host::{hex, NodeEnd};
use std::collections::{BTreeMap, BTreeSet, HashSet};

const ENTRIES: [&str; 21] = [
    "begin",
    "stop",
    "start",
    "state",
    "write_heartbeat",
    "send_heartbeat",
    "read_heartbeat",
    "receive_heartbeat",
    "view",
    "write_vote",
    "send_vote",
    "read_vote",
    "receive_vote",
    "decide",
    "cycle",
    "run",
    "run_frames",
    "register_read",
    "register_write",
    "register_cycle",
    "register_write_cycle",
];
/// the entries that take no mode: a founder's state and a vote's frame are the same in both
const NO_MODE_ASKED: [&str; 4] = ["begin", "write_vote", "read_vote", "receive_vote"];
/// 0 and every refusal of the paper and of the requests made after it
const STATUSES: usize = 22;
const FLAG_NAMES: [&str; 3] = ["changed", "halted", "entered"];
/// what becomes of a flag in a step; the series must show each of these more often than `ENOUGH`
const FLAG_TURNS: [&str; 3] = ["raised", "cleared", "cleared and raised in one step"];
const ENOUGH: u64 = 1000;
const GUARD: usize = 16;
/// for the frames of a run, where nothing hangs on what stands in it before
const FILLED_FRAMES: [u8; FRAMES_BYTES] = [7; FRAMES_BYTES];
/// for the results of a state taken apart
const FILLED_NUMBERS: [u32; 5] = [91, 92, 93, 94, 95];
const FILLED_MASKS: [u64; 2] = [96, 97];
/// for the result of a register read, no byte of it being 0
const FILLED_VALUE: u32 = 0x9192_9394;

/// for drive bytes that are read: no byte of it is 0, and none is as its neighbours are
const FILLED: [u8; 300] = pattern();
const FILLED_DRIVE: &[u8] = FILLED.split_at(DRIVE_BYTES).0;
/// for the results of a heartbeat read, and of one received
const FILLED_READ: [u32; 3] = [0x8182_8384, 0x8586_8788, 0x898a_8b8c];
const FILLED_HEARD: [u32; 2] = [0x8182_8384, 0x8586_8788];
/// numbers that are no mode, and such that would be one if only part of them were looked at
const NO_MODES: [u32; 9] = [2, 3, 255, 256, 257, 1 << 16, (1 << 16) + 1, 1 << 31, u32::MAX];
/// the words of heartbeats of which each byte is changed
const WORDS: [usize; 4] = [1, 2, 64, 127];

const fn pattern<const LEN: usize>() -> [u8; LEN] {
    let (mut bytes, mut k) = ([0; LEN], 0);
    while k < LEN {
        bytes[k] = ((7 * k + 13) % 251 + 1) as u8;
        k += 1;
    }
    bytes
}

/// a buffer to be lent, at any address, with bytes around it that nobody may write
#[derive(Clone, PartialEq)]
struct Lent {
    bytes: Vec<u8>,
    start: usize,
}

impl Lent {
    fn new(bytes: &[u8], shift: usize) -> Lent {
        let start = GUARD + shift % 8;
        let mut all = vec![0xa5; start];
        all.extend_from_slice(bytes);
        all.extend([0x5a; GUARD]);
        Lent { bytes: all, start }
    }

    fn get(&self) -> &[u8] {
        &self.bytes[self.start..self.bytes.len() - GUARD]
    }

    fn lend(&mut self) -> &mut [u8] {
        let end = self.bytes.len() - GUARD;
        &mut self.bytes[self.start..end]
    }
}

/// what a call answered: status, results beside it, and the buffers afterwards
#[derive(PartialEq)]
struct Outcome {
    status: u32,
    results: Vec<u64>,
    buffers: Vec<Lent>,
}

/// what a heartbeat read or received left: status, join and request or heard, the number of drive bytes, and the lent buffer
struct Received {
    status: u32,
    results: Vec<u64>,
    drive: Vec<u8>,
}

impl Received {
    /// this join and request or this heard, just these drive bytes, and behind them what was there
    fn is(&self, said: &[u64], drive: &[u8]) -> bool {
        let left = [drive, &FILLED_DRIVE[drive.len()..]].concat();
        self.status == 0 && self.results == [said, &[drive.len() as u64]].concat() && self.drive == left
    }
}

/// how many drive bytes a heartbeat has, as a report tells it
fn drive_text(number: usize) -> &'static str {
    match number {
        0 => "no drive bytes",
        DRIVE_BYTES => "252 drive bytes",
        _ => "2 to 250 drive bytes",
    }
}

struct Compare {
    random: Random,
    /// per entry and status
    counts: [[u64; STATUSES]; ENTRIES.len()],
    /// moves the buffers of a call to other addresses
    shift: usize,
    /// the mode with which entries are called
    mode: u32,
    /// what accepted calls gave, in words
    given: BTreeMap<String, u64>,
    /// per flag of a register block and what became of it
    flags: [[u64; FLAG_TURNS.len()]; FLAG_NAMES.len()],
}

impl Compare {
    /// makes one call of both, and ends the program if they differ
    fn both(
        &mut self,
        entry: &str,
        numbers: &[u64],
        results: &[u64],
        buffers: &[&[u8]],
        call: impl Fn(&dyn NodeEnd, &mut [u64], &mut [Lent]) -> u32,
    ) -> (u32, Vec<u64>, Vec<u8>) {
        let lent: Vec<Lent> = buffers.iter().enumerate().map(|(k, bytes)| Lent::new(bytes, self.shift + 3 * k)).collect();
        self.shift += 1;
        let outcome = |by: &dyn NodeEnd| {
            let (mut results, mut buffers) = (results.to_vec(), lent.clone());
            let status = call(by, &mut results, &mut buffers);
            Outcome { status, results, buffers }
        };
        let (paper, archive) = (outcome(&Paper), outcome(&Archive));
        let unchanged = |outcome: &Outcome| outcome.results == results && outcome.buffers == lent;
        if paper != archive || archive.status != 0 && !unchanged(&archive) {
            println!("compare: gm_{entry} differs");
            println!("  mode {}, numbers {numbers:x?} (hex)", self.mode);
            println!("  results before {results:x?}");
            buffers.iter().for_each(|bytes| println!("  buffer of {}: {}", bytes.len(), hex(bytes)));
            for (name, outcome) in [("paper", &paper), ("archive", &archive)] {
                println!("  {name}: status {}, results {:x?}", outcome.status, outcome.results);
                outcome
                    .buffers
                    .iter()
                    .zip(&lent)
                    .filter(|(after, before)| after != before)
                    .for_each(|(after, _)| println!("    left {}", hex(&after.bytes)));
            }
            std::process::exit(1);
        }
        let index = ENTRIES.iter().position(|name| *name == entry).expect("a known entry");
        self.counts[index][paper.status as usize] += 1;
        let last = paper.buffers.last().map_or(Vec::new(), |buffer| buffer.get().to_vec());
        if paper.status == 0 {
            self.note(entry, buffers.last().unwrap_or(&&[][..]), &paper.results, results, &last);
        }
        (paper.status, paper.results, last)
    }

    /// counts what an accepted call gave: kinds of states before and after a decision, what was heard and how many drive bytes, whether a frame was sent or a
    /// vote arrived
    fn note(&mut self, entry: &str, before: &[u8], results: &[u64], results_before: &[u64], after: &[u8]) {
        let kind = |state: &[u8]| ["out", "joining", "member"][usize::from(state[0])];
        let text = match entry {
            "decide" | "register_cycle" => match (kind(before), kind(after)) {
                ("member", "out") => format!("member to out with reason {}", after[1]),
                ("member", _) if before[4..8] == after[4..8] => format!("member with the same G{}", request_text(after)),
                ("member", _) if after[4..8] == [0; 4] => format!("member with G from 4294967295 to 0{}", request_text(after)),
                ("member", _) => format!("member with the next G{}", request_text(after)),
                (before, after) => format!("{before} to {after}"),
            },
            "write_heartbeat" => drive_text(after.len() - HEARTBEAT_BYTES).to_string(),
            "read_heartbeat" => format!("join {}, request {}, {}", results[0], results[1], drive_text(results[2] as usize)),
            "receive_heartbeat" if results[0] == 0 => "missed".to_string(),
            "receive_heartbeat" => format!("heard {}, {}", results[0], drive_text(results[1] as usize)),
            "state" => ["out", "joining", "member"][results[0] as usize].to_string(),
            "send_heartbeat" | "send_vote" => ["nothing sent", "sent"][results[0] as usize].to_string(),
            "receive_vote" if before != after => "arrived".to_string(),
            "receive_vote" if results != results_before => "missed, the bit cleared".to_string(),
            "cycle" | "run" | "run_frames" => {
                let mut groups: Vec<&[u8]> = after.chunks(24).filter(|state| state[0] == 2).map(|state| &state[4..]).collect();
                groups.sort();
                groups.dedup();
                format!("{} groups held at the end", groups.len().min(3)).replace('3', "3 or more")
            }
            _ => return,
        };
        let mode = if NO_MODE_ASKED.contains(&entry) { String::new() } else { format!(", mode {}", self.mode) };
        *self.given.entry(format!("gm_{entry}{mode}: {text}")).or_default() += 1;
    }

    /// the mode that entries are called with, of a press
    fn press_mode(&self) -> Mode {
        Mode::of(self.mode).expect("the mode of a press")
    }

    /// what is done with another mode
    fn with_mode<T>(&mut self, mode: u32, done: impl FnOnce(&mut Compare) -> T) -> T {
        let before = std::mem::replace(&mut self.mode, mode);
        let result = done(self);
        self.mode = before;
        result
    }

    fn begin(&mut self, n: u32, node: u32, founding: u64, state: &[u8]) {
        self.both("begin", &[n.into(), node.into(), founding], &[], &[state], |by, _, b| by.begin(n, node, founding, b[0].lend()));
    }

    fn stop(&mut self, state: &[u8]) {
        let mode = self.mode;
        self.both("stop", &[], &[], &[state], |by, _, b| by.stop(mode, b[0].lend()));
    }

    fn start(&mut self, state: &[u8]) {
        let mode = self.mode;
        self.both("start", &[], &[], &[state], |by, _, b| by.start(mode, b[0].lend()));
    }

    fn state(&mut self, state: &[u8], numbers: [u32; 5], masks: [u64; 2]) {
        let mode = self.mode;
        let results: Vec<u64> = numbers.map(u64::from).into_iter().chain(masks).collect();
        self.both("state", &[], &results, &[state], |by, r, b| {
            let [mut kind, mut reason, mut node, mut n, mut number] = numbers;
            let [mut set, mut base] = masks;
            let status = by.state(mode, b[0].get(), &mut kind, &mut reason, &mut node, &mut n, &mut number, &mut set, &mut base);
            r.copy_from_slice(&[kind.into(), reason.into(), node.into(), n.into(), number.into(), set, base]);
            status
        });
    }

    fn write_heartbeat(&mut self, [n, node, join, request, sync, startup, cycle, channel]: [u32; 8], drive: &[u8], frame: &[u8]) -> Vec<u8> {
        let mode = self.mode;
        let numbers = [n, node, join, request, sync, startup, cycle, channel].map(u64::from);
        let (_, _, written) = self.both("write_heartbeat", &numbers, &[], &[drive, frame], |by, _, b| {
            let [drive, frame] = b else { unreachable!() };
            by.write_heartbeat(n, mode, node, join, request, sync, startup, cycle, channel, drive.get(), frame.lend())
        });
        written
    }

    /// what it answers of `sent`, and the frame
    fn send_heartbeat(&mut self, state: &[u8], [sync, startup, cycle, channel]: [u32; 4], drive: &[u8], frame: &[u8], sent: u32) -> (u64, Vec<u8>) {
        let mode = self.mode;
        let numbers = [sync, startup, cycle, channel].map(u64::from);
        let (_, results, frame) = self.both("send_heartbeat", &numbers, &[sent.into()], &[state, drive, frame], |by, r, b| {
            let [state, drive, frame] = b else { unreachable!() };
            let mut sent = r[0] as u32;
            let status = by.send_heartbeat(mode, state.get(), sync, startup, cycle, channel, drive.get(), frame.lend(), &mut sent);
            r[0] = sent.into();
            status
        });
        (results[0], frame)
    }

    fn read_heartbeat(&mut self, [n, node, cycle, channel]: [u32; 4], frame: &[u8], drive: &[u8], before: [u32; 3]) -> Received {
        let mode = self.mode;
        let numbers = [n, node, cycle, channel].map(u64::from);
        let (status, results, drive) = self.both("read_heartbeat", &numbers, &before.map(u64::from), &[frame, drive], |by, r, b| {
            let [frame, drive] = b else { unreachable!() };
            let [mut join, mut request, mut drive_bytes] = before;
            let status = by.read_heartbeat(n, mode, node, cycle, channel, frame.get(), drive.lend(), &mut join, &mut request, &mut drive_bytes);
            r.copy_from_slice(&[join, request, drive_bytes].map(u64::from));
            status
        });
        Received { status, results, drive }
    }

    fn receive_heartbeat(&mut self, [n, node, cycle]: [u32; 3], a: &[u8], b: &[u8], drive: &[u8], before: [u32; 2]) -> Received {
        let mode = self.mode;
        let numbers = [n, node, cycle].map(u64::from);
        let (status, results, drive) = self.both("receive_heartbeat", &numbers, &before.map(u64::from), &[a, b, drive], |by, r, lent| {
            let [a, b, drive] = lent else { unreachable!() };
            let [mut heard, mut drive_bytes] = before;
            let status = by.receive_heartbeat(n, mode, node, cycle, a.get(), b.get(), drive.lend(), &mut heard, &mut drive_bytes);
            r.copy_from_slice(&[heard, drive_bytes].map(u64::from));
            status
        });
        Received { status, results, drive }
    }

    /// the filled buffer and results are lent
    fn read_filled(&mut self, place: [u32; 4], frame: &[u8]) -> Received {
        self.read_heartbeat(place, frame, FILLED_DRIVE, FILLED_READ)
    }

    fn receive_filled(&mut self, sender: [u32; 3], [a, b]: [&[u8]; 2]) -> Received {
        self.receive_heartbeat(sender, a, b, FILLED_DRIVE, FILLED_HEARD)
    }

    fn view(&mut self, state: &[u8], heard: Heard, view: u64) {
        let mode = self.mode;
        self.both("view", &[heard.join0, heard.join1], &[view], &[state], |by, r, b| by.view(mode, b[0].get(), heard.join0, heard.join1, &mut r[0]));
    }

    fn write_vote(&mut self, [n, node, cycle, channel]: [u32; 4], vote: &Vote, frame: &[u8]) {
        let (number, set, base, view) = (vote.group.number, vote.group.set, vote.group.base, vote.view);
        let numbers = [n.into(), node.into(), number.into(), set, base, view, cycle.into(), channel.into()];
        self.both("write_vote", &numbers, &[], &[frame], |by, _, b| by.write_vote(n, node, number, set, base, view, cycle, channel, b[0].lend()));
    }

    /// what it answers of `sent`, and the frame
    fn send_vote(&mut self, state: &[u8], heard: Heard, [cycle, channel]: [u32; 2], frame: &[u8], sent: u32) -> (u64, Vec<u8>) {
        let mode = self.mode;
        let numbers = [heard.join0, heard.join1, heard.requests, cycle.into(), channel.into()];
        let (_, results, frame) = self.both("send_vote", &numbers, &[sent.into()], &[state, frame], |by, r, b| {
            let [state, frame] = b else { unreachable!() };
            let mut sent = r[0] as u32;
            let status = by.send_vote(mode, state.get(), heard.join0, heard.join1, heard.requests, cycle, channel, frame.lend(), &mut sent);
            r[0] = sent.into();
            status
        });
        (results[0], frame)
    }

    fn read_vote(&mut self, [n, node, cycle, channel]: [u32; 4], frame: &[u8], vote: &[u8]) {
        let numbers = [n, node, cycle, channel].map(u64::from);
        self.both("read_vote", &numbers, &[], &[frame, vote], |by, _, b| {
            let [frame, vote] = b else { unreachable!() };
            by.read_vote(n, node, cycle, channel, frame.get(), vote.lend())
        });
    }

    fn receive_vote(&mut self, [n, node, cycle]: [u32; 3], a: &[u8], b: &[u8], votes: &[u8], arrived: u64) -> (u64, Vec<u8>) {
        let numbers = [n, node, cycle].map(u64::from);
        let (_, results, votes) = self.both("receive_vote", &numbers, &[arrived], &[a, b, votes], |by, r, buffers| {
            let [a, b, votes] = buffers else { unreachable!() };
            by.receive_vote(n, node, cycle, a.get(), b.get(), votes.lend(), &mut r[0])
        });
        (results[0], votes)
    }

    fn decide(&mut self, state: &[u8], heard: Heard, votes: &[u8], arrived: u64) -> Vec<u8> {
        let (mode, Heard { join0, join1, requests }) = (self.mode, heard);
        let (_, _, left) = self.both("decide", &[join0, join1, requests, arrived], &[], &[votes, state], |by, _, b| {
            let [votes, state] = b else { unreachable!() };
            by.decide(mode, state.lend(), join0, join1, requests, votes.get(), arrived)
        });
        left
    }

    fn cycle(&mut self, n: u32, row: &[u8], record: &[u8]) -> (u32, Vec<u8>) {
        let mode = self.mode;
        let (status, _, row) = self.both("cycle", &[n.into()], &[], &[record, row], |by, _, b| {
            let [record, row] = b else { unreachable!() };
            by.cycle(n, mode, row.lend(), record.get())
        });
        (status, row)
    }

    fn run(&mut self, row: &[u8], table: &[u8]) -> (u32, Vec<u8>) {
        let mode = self.mode;
        let (status, _, row) = self.both("run", &[], &[], &[table, row], |by, _, b| {
            let [table, row] = b else { unreachable!() };
            by.run(mode, row.lend(), table.get())
        });
        (status, row)
    }

    fn run_frames(&mut self, row: &[u8], table: &[u8], frames: &[u8]) -> (u32, Vec<u8>) {
        let mode = self.mode;
        let (status, _, row) = self.both("run_frames", &[], &[], &[table, frames, row], |by, _, b| {
            let [table, frames, row] = b else { unreachable!() };
            by.run_frames(mode, row.lend(), table.get(), frames.lend())
        });
        (status, row)
    }

    /// a step on a register block, which is left behind
    fn step(&mut self, block: &[u8], step: &Step) -> (u32, Vec<u8>) {
        let mode = self.mode;
        let (status, _, left) = match *step {
            Step::Read(address) => self.both("register_read", &[address.into()], &[FILLED_VALUE.into()], &[block], |by, r, b| {
                let mut value = r[0] as u32;
                let status = by.register_read(mode, b[0].get(), address, &mut value);
                r[0] = value.into();
                status
            }),
            Step::Write(address, value) => {
                let numbers = [address.into(), value.into()];
                self.both("register_write", &numbers, &[], &[block], |by, _, b| by.register_write(mode, b[0].lend(), address, value))
            }
            Step::Cycle(ref offer) => {
                let Heard { join0, join1, requests } = offer.heard;
                self.both("register_cycle", &[join0, join1, requests, offer.arrived], &[], &[&offer.slots, block], |by, _, b| {
                    let [votes, block] = b else { unreachable!() };
                    by.register_cycle(mode, block.lend(), join0, join1, requests, votes.get(), offer.arrived)
                })
            }
            Step::WriteCycle(address, value, ref offer) => {
                let Heard { join0, join1, requests } = offer.heard;
                let numbers = [address.into(), value.into(), join0, join1, requests, offer.arrived];
                self.both("register_write_cycle", &numbers, &[], &[&offer.slots, block], |by, _, b| {
                    let [votes, block] = b else { unreachable!() };
                    by.register_write_cycle(mode, block.lend(), address, value, join0, join1, requests, votes.get(), offer.arrived)
                })
            }
        };
        (status, left)
    }

    fn total(&self) -> u64 {
        self.counts.iter().flatten().sum()
    }
}

/// whether the image of a member says that it will request
fn request_text(image: &[u8]) -> &'static str {
    ["", ", requests"][usize::from(image[1])]
}

/// a mode as a caller gives it, now and then the other one or none
fn lent_mode(random: &mut Random, mode: Mode) -> u32 {
    match random.below(24) {
        0 => random.pick(&NO_MODES),
        1 => 1 - mode.number(),
        _ => mode.number(),
    }
}

/// a number of nodes as a caller gives it, now and then outside 2 to 64
fn lent_count(random: &mut Random, n: usize) -> u32 {
    match random.below(24) {
        0 => random.pick(&[0, 1, 65, 66, 127, 128, 255, 256, 258, 1 << 16, 1 << 31, u32::MAX]),
        1 => random.below(256) as u32,
        _ => n as u32,
    }
}

/// a number with a limit, now and then at or beyond it
fn lent_number(random: &mut Random, value: u32, limit: u32) -> u32 {
    match random.below(24) {
        0 => limit,
        1 => random.pick(&[limit.wrapping_add(1), value.wrapping_add(64), value.wrapping_add(256), 255, 1 << 31, u32::MAX]),
        2 => random.below(limit as usize + 1) as u32,
        _ => value,
    }
}

/// a buffer of a length, now and then of another one, with anything in it
fn lent_buffer(random: &mut Random, len: usize) -> Vec<u8> {
    let len = match random.below(20) {
        0 => random.below(2 * len + 2),
        1 => random.pick(&[0, len - 1, len + 1, len * 2]),
        _ => len,
    };
    random.bytes(len)
}

/// drive bytes to be written, now and then odd in number or too many
fn lent_drive(random: &mut Random) -> Vec<u8> {
    let drive = make::drive(random);
    match random.below(24) {
        0 => random.bytes(drive.len() + 1),
        1 => {
            let len = random.pick(&[253, 254, 255, 256, 258, 508]);
            random.bytes(len)
        }
        _ => drive,
    }
}

/// masks heard, often those that a press gives, and now and then these with other requests
fn heard(random: &mut Random, given: Heard) -> Heard {
    match random.below(7) {
        0 => Heard { join0: random.bits(), join1: random.bits(), requests: random.bits() },
        1 => Heard { join0: given.join0 ^ random.mask(), join1: given.join1 ^ random.mask(), ..given },
        2 => Heard { join0: random.mask(), join1: random.mask(), requests: random.mask() },
        3 => Heard { requests: given.requests ^ random.mask(), ..given },
        _ => given,
    }
}

/// everybody of a set is heard with join 0
fn members(set: u64) -> Heard {
    Heard { join0: set, ..Heard::default() }
}

// every value of one input in turn, the others being right

fn counts_and_numbers(compare: &mut Compare) {
    let wide = (0..=300).chain([511, 512, 1 << 16, (1 << 16) + 5, 1 << 31, u32::MAX - 1, u32::MAX]);
    for x in wide {
        for node in [0, 1, 4, 63, 64, x.wrapping_sub(1), x, x.wrapping_add(1)] {
            compare.begin(x, node, 1, &[7; 24]);
            compare.write_heartbeat([x, node, 0, 0, 0, 0, 0, 0], &[], &[7; 10]);
            let set = if node < 64 { only(node as usize) } else { 1 };
            let vote = Vote { group: Group { number: 1, set, base: set }, view: set };
            compare.write_vote([x, node, 0, 0], &vote, &[7; 36]);
            let beat = heartbeat(node.min(63) as usize, Sign::Joining, false, false, 0, 0, &[]);
            let sent = vote_frame(node.min(63) as usize, &vote, 0, 0);
            compare.read_filled([x, node, 0, 0], &beat);
            compare.receive_filled([x, node, 0], [&beat, &[]]);
            compare.read_vote([x, node, 0, 0], &sent, &[7; 28]);
            compare.receive_vote([x, node, 0], &sent, &[], &[7; VOTES_BYTES], 0);
            compare.cycle(x, &row_image(&beginning_from(5, 0x1f, 0)), &write_cycle(&Faults::none()));
        }
        let five = image(&Unit { n: 5, node: 1, state: beginning_from(5, 0x1f, 3)[1] });
        for channel in [0, 1, 2, x] {
            compare.write_heartbeat([5, 1, 0, 0, 0, 0, x, channel], &[], &[7; 10]);
            compare.send_heartbeat(&five, [0, 0, x, channel], &[], &[7; 10], 9);
            compare.send_vote(&five, members(0x1f), [x, channel], &[7; 36], 9);
            let beat = heartbeat(1, Sign::Joining, false, false, x & 63, channel & 1, &[]);
            compare.read_filled([5, 1, x, channel], &beat);
            compare.receive_filled([5, 1, x], [&beat, &beat]);
            let vote = Vote { group: Group { number: 1, set: 0x1f, base: 0x1f }, view: 3 };
            let sent = vote_frame(1, &vote, x & 63, channel & 1);
            compare.write_vote([5, 1, x, channel], &vote, &[7; 36]);
            compare.read_vote([5, 1, x, channel], &sent, &[7; 28]);
            compare.receive_vote([5, 1, x], &sent, &sent, &[7; VOTES_BYTES], u64::MAX);
        }
        for (sync, startup) in [(0, 0), (0, 1), (1, 0), (1, 1), (x, 0), (x, 1), (1, x), (x, x), (0, x)] {
            compare.write_heartbeat([5, 1, x, 0, sync, startup, 0, 0], &[], &[7; 10]);
            compare.write_heartbeat([5, 1, 0, x, sync, startup, 0, 0], &[], &[7; 10]);
            compare.write_heartbeat([5, 1, 1, 0, sync, startup, 0, 1], &[], &[7; 10]);
            compare.send_heartbeat(&five, [sync, startup, 63, 1], &[], &[7; 10], 9);
        }
    }
}

fn lengths(compare: &mut Compare) {
    let right = image(&Unit { n: 5, node: 1, state: beginning_from(5, 0x1f, u32::MAX)[1] });
    let everyone = members(0x1f);
    let mut votes = vec![0; VOTES_BYTES];
    let vote = Vote { group: Group { number: u32::MAX, set: 0x1f, base: 0x1f }, view: 0x1f };
    (0..5).for_each(|q| make::put_vote(&mut votes, q, &vote));
    let frame = vote_frame(1, &vote, 9, 0);
    let beat = heartbeat(1, Sign::Member, true, true, 9, 0, &[]);
    for len in 0..=200 {
        let mut bytes = right.to_vec();
        bytes.resize(len, 0);
        let filled = vec![7; len];
        compare.begin(5, 1, 0x1f, &filled);
        compare.stop(&bytes);
        compare.start(&bytes);
        compare.state(&bytes, FILLED_NUMBERS, FILLED_MASKS);
        compare.view(&bytes, everyone, 7);
        compare.decide(&bytes, everyone, &votes, 0x1f);
        compare.send_heartbeat(&bytes, [1, 1, 5, 0], &[], &[7; 10], 9);
        compare.send_heartbeat(&right, [1, 1, 5, 0], &[], &filled, 9);
        compare.send_heartbeat(&bytes, [1, 1, 5, 0], &[], &filled, 9);
        compare.send_vote(&bytes, everyone, [5, 0], &[7; 36], 9);
        compare.send_vote(&right, everyone, [5, 0], &filled, 9);
        compare.write_heartbeat([5, 1, 0, 0, 1, 1, 3, 0], &[], &filled);
        compare.write_vote([5, 1, 9, 0], &vote, &filled);
        compare.read_vote([5, 1, 9, 0], &frame, &filled);
        let mut long = frame.clone();
        long.resize(len, 0);
        compare.read_vote([5, 1, 9, 0], &long, &[7; 28]);
        compare.receive_vote([5, 1, 9], &long, &[], &votes, 0);
        compare.receive_vote([5, 1, 9], &frame, &long, &votes, 0);
        let mut long = beat.clone();
        long.resize(len, 0);
        compare.read_filled([5, 1, 9, 0], &long);
        compare.receive_filled([5, 1, 9], [&long, &beat]);
        compare.cycle(5, &filled, &write_cycle(&Faults::none()));
        compare.run(&filled, &write_first(5, 0x1f));
        compare.run_frames(&filled, &write_first(5, 0x1f), &FILLED_FRAMES);
    }
    for len in (0..=VOTES_BYTES + 40).filter(|len| len % 17 == 0 || len.abs_diff(VOTES_BYTES) < 30) {
        let mut slots = votes.clone();
        slots.resize(len, 0);
        compare.decide(&right, everyone, &slots, 0x1f);
        compare.receive_vote([5, 1, 9], &frame, &[], &slots, 0);
    }
    for n in 0..=66_usize {
        for entries in [0, 1, n.saturating_sub(1), n, n + 1, 63, 64, 65] {
            let row = vec![9; 24 * entries];
            compare.run(&row, &write_first(n as u8, 1));
            compare.run_frames(&row, &write_first(n as u8, 1), &FILLED_FRAMES);
            compare.cycle(n as u32, &row, &write_cycle(&Faults::none()));
        }
    }
}

/// a buffer for frames of another length, with a table and row that are right, and that are refused before it and after it
fn lengths_of_frames(compare: &mut Compare) {
    let clean = write_cycle(&Faults::none());
    let table = |n: u8, founding: u64| [&write_first(n, founding)[..], &clean].concat();
    let (right, row) = (table(2, 3), [9; 48]);
    let cut_later = &right[..right.len() - 1];
    let wrong_kind = [&right[..], &right].concat();
    let tables = [&right, &right[..12], &right[..11], &right[..2], cut_later, &wrong_kind, &table(1, 1), &table(65, 1), &table(2, 0), &table(2, 4)];
    let near = FRAMES_BYTES - 40..=FRAMES_BYTES + 40;
    let far = [0, 1, 10, 36, 48, 1792, FRAMES_BYTES / 4, FRAMES_BYTES / 2, 9 * 1024 + 256, 2 * FRAMES_BYTES, (1 << 16) + FRAMES_BYTES];
    for len in near.chain(far) {
        let frames = vec![7; len];
        for table in tables {
            compare.run_frames(&row, table, &frames);
            compare.run_frames(&row[1..], table, &frames);
        }
    }
}

fn every_bit_of_an_image(compare: &mut Compare) {
    let mode = compare.press_mode();
    let mut press = Press::new(&mut compare.random, mode, 5);
    for _ in 0..6 {
        for node in 0..press.n {
            let bytes = image(&press.unit(node));
            for bit in 0..192 {
                let mut changed = bytes.to_vec();
                changed[bit / 8] ^= 0x80 >> (bit % 8);
                let (slots, mask) = press.arrived(&mut compare.random, node);
                compare.stop(&changed);
                compare.start(&changed);
                compare.state(&changed, FILLED_NUMBERS, FILLED_MASKS);
                compare.view(&changed, press.cycle.heard[node], 7);
                compare.send_heartbeat(&changed, [0, 0, 1, 1], &[], &[7; 10], 7);
                compare.send_vote(&changed, press.cycle.heard[node], [1, 1], &[7; 36], 7);
                compare.decide(&changed, press.cycle.heard[node], &slots, mask);
            }
            for byte in 0..4 {
                for value in 0..=255 {
                    let mut changed = bytes.to_vec();
                    changed[byte] = value;
                    compare.stop(&changed);
                    compare.start(&changed);
                    compare.state(&changed, FILLED_NUMBERS, FILLED_MASKS);
                    compare.view(&changed, press.cycle.heard[node], 7);
                }
            }
        }
        press = press.next(&mut compare.random);
    }
}

fn every_bit_of_a_frame(compare: &mut Compare) {
    let mode = compare.press_mode();
    for _ in 0..8 {
        let n = make::count(&mut compare.random);
        let (node, cycle) = (compare.random.below(n), compare.random.below(64) as u32);
        for channel in [0, 1] {
            let beat = make::good_heartbeat(&mut compare.random, mode, node, cycle, channel, &[]);
            let vote = make::good_vote(&mut compare.random, n, node, cycle, channel);
            let place = [n as u32, node as u32, cycle, channel];
            let pair = [n as u32, node as u32, cycle];
            for good in [beat, vote] {
                for bit in 0..8 * good.len() {
                    let mut bad = good.clone();
                    bad[bit / 8] ^= 0x80 >> (bit % 8);
                    for bytes in &checks_made_again(bad, channel) {
                        compare.read_filled(place, bytes);
                        compare.read_vote(place, bytes, &[7; 28]);
                        compare.receive_filled(pair, [bytes, &good]);
                        compare.receive_filled(pair, [&good, bytes]);
                        compare.receive_vote(pair, bytes, &[], &[7; VOTES_BYTES], u64::MAX);
                        compare.receive_vote(pair, &[], bytes, &[7; VOTES_BYTES], 0);
                    }
                }
            }
        }
    }
}

/// a changed frame as it is, with both checks made again, and with the frame check made again
fn checks_made_again(changed: Vec<u8>, channel: u32) -> [Vec<u8>; 3] {
    let covered = changed.len() - 3;
    let (header, payload) = parts_of(&changed);
    let again = frame(&header, payload, channel);
    let check = frame_check(channel, &changed[..covered]).to_be_bytes();
    let framed = [&changed[..covered], &check[1..]].concat();
    [changed, again, framed]
}

// heartbeats with drive bytes: of node 1 of 5, in cycle 9

const SENDER: [u32; 3] = [5, 1, 9];

/// where the copy of a channel is read
fn place(channel: usize) -> [u32; 4] {
    let [n, node, cycle] = SENDER;
    [n, node, cycle, channel as u32]
}

/// the copies of a heartbeat with join 1, their indicators not the same
fn two_copies(drive: &[u8]) -> [Vec<u8>; 2] {
    [0, 1].map(|channel| heartbeat(1, Sign::Joining, channel == 1, false, 9, channel, drive))
}

/// the copies, one of them in the place of what was sent
fn with_copy<'a>(copies: &'a [Vec<u8>; 2], channel: usize, bytes: &'a [u8]) -> [&'a [u8]; 2] {
    let mut pair = [&copies[0][..], &copies[1][..]];
    pair[channel] = bytes;
    pair
}

/// every number of drive bytes to be written, odd ones and some above 252 too, in frame buffers that have room for them and that have not; those written are
/// read as they were
fn every_number_of_drive_bytes(compare: &mut Compare) {
    for len in (0..=260).chain([507, 508, 512, (1 << 16) + 2]) {
        let drive = compare.random.bytes(len);
        let right = HEARTBEAT_BYTES + len;
        for room in [right, right - 1, right + 1, right - 2, right + 2, 0, 8, 10, len, 262] {
            drive_bytes_written(compare, &drive, &vec![7; room]);
        }
        if len % 2 == 0 && len <= DRIVE_BYTES {
            drive_bytes_back(compare, &drive);
        }
    }
}

/// from numbers and from states of each kind, one that is not well formed and one that is cut; and with numbers that are refused before the lengths
fn drive_bytes_written(compare: &mut Compare, drive: &[u8], frame: &[u8]) {
    let [member, joining, out] =
        [beginning_from(5, 0x1f, 3)[1], State::Joining, State::Out(Reason::NoQuorum)].map(|state| image(&Unit { n: 5, node: 1, state }));
    let mut malformed = member;
    malformed[0] = 3;
    for channel in [0, 1] {
        compare.write_heartbeat([5, 1, 1, 0, 1, 0, 9, channel], drive, frame);
        for state in [&member[..], &joining, &out, &malformed, &member[1..]] {
            compare.send_heartbeat(state, [1, 1, 9, channel], drive, frame, 9);
        }
    }
    for numbers in [
        [1, 1, 0, 0, 0, 0, 9, 0],
        [5, 5, 0, 0, 0, 0, 9, 0],
        [5, 1, 2, 0, 0, 0, 9, 0],
        [5, 1, 0, 2, 0, 0, 9, 0],
        [5, 1, 1, 1, 0, 0, 9, 0],
        [5, 1, 0, 0, 0, 1, 9, 0],
        [5, 1, 0, 0, 0, 0, 64, 0],
        [5, 1, 0, 0, 0, 0, 9, 2],
    ] {
        compare.write_heartbeat(numbers, drive, frame);
    }
    compare.send_heartbeat(&malformed, [0, 1, 9, 0], drive, frame, 9);
}

fn drive_bytes_back(compare: &mut Compare, drive: &[u8]) {
    for (channel, join) in [(0, 0), (0, 1), (1, 0), (1, 1)] {
        let [n, node, cycle] = SENDER;
        let written = compare.write_heartbeat([n, node, join, 0, join, 0, cycle, channel], drive, &vec![7; HEARTBEAT_BYTES + drive.len()]);
        let read = compare.read_filled(place(channel as usize), &written);
        assert!(read.is(&[join.into(), 0], drive), "{} drive bytes are not read as they were written", drive.len());
    }
}

/// a copy cut or lengthened to every length up to 300, alone and beside the other; a buffer of another length is refused before it
fn every_length_of_a_heartbeat(compare: &mut Compare) {
    for (words, len) in WORDS.into_iter().flat_map(|words| (0..=300).map(move |len| (words, len))) {
        let copies = two_copies(&compare.random.bytes(2 * words - 2));
        let resized = copies.clone().map(|mut copy| {
            copy.resize(len, 0);
            copy
        });
        for (channel, copy) in resized.iter().enumerate() {
            compare.read_filled(place(channel), copy);
            compare.read_heartbeat(place(channel), copy, &FILLED_DRIVE[1..], FILLED_READ);
            compare.receive_filled(SENDER, with_copy(&copies, channel, copy));
        }
        compare.receive_filled(SENDER, [&resized[0], &resized[1]]);
    }
}

/// every length field with right checks, over a payload of its length and of others, under several first words, in a null frame, and in a vote
fn every_length_field(compare: &mut Compare) {
    for (words, channel) in (0..=127).flat_map(|words| [(words, 0), (words, 1)]) {
        let header = heartbeat_header(1, false, false, words, 9);
        let drive = compare.random.bytes(2 * words as usize);
        for first in [[0, 0], [0x80, 0], [0x40, 0], [0x81, 0], [0, 1], [0x80, 0x80]] {
            let mut payload = [&first[..], &drive].concat();
            payload.truncate(2 * words as usize);
            for header in [header, Header { null_frame: false, ..header }] {
                let copy = frame(&header, &payload, channel as u32);
                compare.read_filled(place(channel), &copy);
                compare.receive_filled(SENDER, with_copy(&[Vec::new(), Vec::new()], channel, &copy));
            }
        }
        for other in [0, 1, 2, 14, 127] {
            compare.read_filled(place(channel), &frame(&header, &vec![0; 2 * other], channel as u32));
        }
        let mut payload = vote_payload(&Vote { group: Group { number: 1, set: 2, base: 3 }, view: 2 }).to_vec();
        payload.resize(2 * words as usize, 0);
        let vote = frame(&Header { words, ..vote_header(1, 9) }, &payload, channel as u32);
        compare.read_vote(place(channel), &vote, &[7; VOTE_BYTES]);
    }
}

/// copies that are refused, by their numbers: none, cut, either check, a null frame, of another cycle and another node, with a bit that must be 0
fn refused_copies(random: &mut Random, good: &[u8], channel: u32) -> [(u32, Vec<u8>); 8] {
    let (header, payload) = parts_of(good);
    let turned = |at: usize, bit: usize| {
        let mut bytes = good.to_vec();
        bytes[at] ^= 1 << bit;
        bytes
    };
    let other_payload = [&[payload[0] | 1 << random.below(7), 0], &payload[2..]].concat();
    let other_node = Header { frame_number: header.frame_number + 1, ..header };
    [
        (5, Vec::new()),
        (5, good[..random.below(good.len())].to_vec()),
        (6, turned(3, random.below(8))),
        (7, turned(5 + random.below(good.len() - 5), random.below(8))),
        (8, frame(&Header { null_frame: false, ..header }, payload, channel)),
        (9, frame(&Header { cycle: header.cycle ^ 1 << random.below(6), ..header }, payload, channel)),
        (9, frame(&other_node, payload, channel)),
        (10, frame(&header, &other_payload, channel)),
    ]
}

/// a drive buffer of every length up to 260 for 252, for a good copy and for some that are refused, and with numbers that are refused before it
fn every_length_of_a_drive_buffer(compare: &mut Compare) {
    let copies = two_copies(&compare.random.bytes(6));
    let refused = refused_copies(&mut compare.random, &copies[0], 0);
    for buffer in (0..=260).map(|len| &FILLED[..len]) {
        for copy in refused.iter().map(|(_, copy)| copy).chain([&copies[0]]) {
            compare.read_heartbeat(place(0), copy, buffer, FILLED_READ);
            compare.receive_heartbeat(SENDER, copy, &copies[1], buffer, FILLED_HEARD);
            compare.receive_heartbeat(SENDER, copy, &[], buffer, FILLED_HEARD);
        }
        for [n, node, cycle] in [[1, 1, 9], [65, 1, 9], [5, 5, 9], [5, 1, 64]] {
            compare.read_heartbeat([n, node, cycle, 0], &copies[0], buffer, FILLED_READ);
            compare.receive_heartbeat([n, node, cycle], &copies[0], &copies[1], buffer, FILLED_HEARD);
        }
        compare.read_heartbeat(place(2), &copies[0], buffer, FILLED_READ);
    }
}

/// each byte of one copy changed, in every single bit, in all bits and in some: read, and received beside the other
fn every_byte_of_a_copy(compare: &mut Compare) {
    for (words, channel) in WORDS.into_iter().flat_map(|words| [(words, 0), (words, 1)]) {
        let copies = two_copies(&compare.random.bytes(2 * words - 2));
        for at in 0..copies[channel].len() {
            let any = compare.random.bits() as u8;
            for change in [1, 2, 4, 8, 16, 32, 64, 128, 255, any | 1] {
                changed_copy(compare, &copies, channel, at, change);
            }
        }
    }
}

/// two good copies that differ in a drive byte are a missed frame; where the changed copy is refused, the other counts
fn changed_copy(compare: &mut Compare, copies: &[Vec<u8>; 2], channel: usize, at: usize, change: u8) {
    let mut changed = copies[channel].clone();
    changed[at] ^= change;
    let end = changed.len() - 3;
    let [as_it_is, again, framed] = checks_made_again(changed, channel as u32);
    for bytes in [&as_it_is, &again, &framed] {
        let (read, received) = (compare.read_filled(place(channel), bytes), compare.receive_filled(SENDER, with_copy(copies, channel, bytes)));
        // the indicators are not compared, and a check that was changed and made again is as it was
        let same_payload = at < 5 || at >= end;
        let due = if read.status != 0 || same_payload { received.is(&[2], &copies[channel][7..end]) } else { received.is(&[0], &[]) };
        assert!(due, "byte {at} of a copy of {} changed by {change}", end + 3);
    }
}

/// copies of every two lengths, the shorter being the beginning of the longer, whose rest is 0 or anything: missed but where they are the same
fn copies_of_every_two_lengths(compare: &mut Compare) {
    for drive in [vec![0; DRIVE_BYTES], compare.random.bytes(DRIVE_BYTES)] {
        let copies: Vec<[Vec<u8>; 2]> = (0..=DRIVE_BYTES / 2).map(|words| two_copies(&drive[..2 * words])).collect();
        for ((a, [on_a, _]), (b, [_, on_b])) in copies.iter().enumerate().flat_map(|a| copies.iter().enumerate().map(move |b| (a, b))) {
            let received = compare.receive_filled(SENDER, [on_a, on_b]);
            let due = if a == b { received.is(&[2], &drive[..2 * a]) } else { received.is(&[0], &[]) };
            assert!(due, "copies of {a} and {b} words of drive bytes");
        }
    }
}

/// heartbeats of every length, one copy being good and the other refused for each reason: the good one counts, on whichever channel it came
fn one_good_copy_of_every_length(compare: &mut Compare) {
    for (words, channel) in (0..=DRIVE_BYTES / 2).flat_map(|words| [(words, 0), (words, 1)]) {
        let drive = compare.random.bytes(2 * words);
        let copies = two_copies(&drive);
        let refused = refused_copies(&mut compare.random, &copies[channel], channel as u32);
        for (number, copy) in &refused {
            assert_eq!(compare.read_filled(place(channel), copy).status, *number, "a copy that is refused");
            let received = compare.receive_filled(SENDER, with_copy(&copies, channel, copy));
            assert!(received.is(&[2], &drive), "one good copy of {words} words of drive bytes");
        }
    }
}

/// every join and request to be written, alone and with what is refused before and after: of those accepted the first byte says them
fn every_first_byte_written(compare: &mut Compare) {
    let values = [0, 1, 2, 3, 255, 256, 1 << 31, u32::MAX];
    for (join, request) in values.into_iter().flat_map(|join| values.map(|request| (join, request))) {
        for (n, node, len) in [(5, 1, 10), (1, 1, 10), (5, 5, 10), (5, 1, 11), (5, 5, 11)] {
            let frame = compare.write_heartbeat([n, node, join, request, 0, 0, 9, 1], &[], &vec![7; len]);
            let quiet = compare.press_mode().is_quiet();
            let written = match (join, request) {
                _ if (n, node, len) != (5, 1, 10) => 7,
                (0, 0) => 0,
                (1, 0) => 0x80,
                (0, 1) if quiet => 0x40,
                _ => 7,
            };
            assert_eq!(frame[5], written, "join {join} and request {request} written");
        }
    }
}

/// heartbeats with every first byte and right checks, on each channel alone and both together: only two that are good and the same count
fn every_two_first_bytes(compare: &mut Compare) {
    let quiet = compare.press_mode().is_quiet();
    let header = heartbeat_header(1, false, false, 1, 9);
    let copies: Vec<[Vec<u8>; 2]> = (0..=255).map(|first| [0, 1].map(|channel| frame(&header, &[first, 0], channel))).collect();
    let heard = |first: usize| match first {
        0 => 1,
        0x80 => 2,
        0x40 if quiet => 3,
        _ => 0,
    };
    for (a, [on_a, alone]) in copies.iter().enumerate() {
        compare.read_filled(place(0), on_a);
        let read = compare.read_filled(place(1), alone);
        let said = [u64::from(a == 0x80), u64::from(a == 0x40)];
        assert!(if heard(a) == 0 { read.status == 10 } else { read.is(&said, &[]) }, "first byte {a} read");
        for (b, [_, on_b]) in copies.iter().enumerate() {
            let received = compare.receive_filled(SENDER, [on_a, on_b]);
            let due = match (heard(a), heard(b)) {
                (0, other) | (other, 0) => other,
                (one, other) if one == other => one,
                _ => 0,
            };
            assert!(received.is(&[due], &[]), "first bytes {a} and {b} received");
        }
    }
}

/// what an entry is lent: right, or with one thing that is refused
#[derive(Clone, Copy, PartialEq)]
enum Wrong {
    Nothing,
    Count,
    Number,
    Length,
    State,
    Later,
}

/// every entry with the mode that is set, all else being right or refused for one reason: the number of the mode has its place among them
fn every_entry(compare: &mut Compare) {
    for wrong in [Wrong::Nothing, Wrong::Count, Wrong::Number, Wrong::Length, Wrong::State, Wrong::Later] {
        let lent = |bytes: &[u8]| if wrong == Wrong::Length { bytes[1..].to_vec() } else { bytes.to_vec() };
        let n = if wrong == Wrong::Count { 1 } else { 5 };
        let (node, cycle) = if wrong == Wrong::Number { (5, 64) } else { (1, 9) };
        let mut row = row_image(&beginning_from(5, 0x1f, 3));
        // the reason of node 1: a member that will request in a quiet press, malformed in any other
        row[24 + 1] = u8::from(wrong == Wrong::State);
        let state = lent(&row[24..48]);
        let (beat, votes) = (heartbeat(1, Sign::Request, false, false, 9, 0, &[]), lent(&[0; VOTES_BYTES]));
        for requests in [0, 4, u64::MAX] {
            let heard = Heard { requests, ..members(0x1f) };
            compare.send_vote(&state, heard, [cycle, 0], &[7; 36], 9);
            compare.decide(&row[24..48], heard, &votes, 0);
            compare.decide(&state, heard, &[0; VOTES_BYTES], 0);
        }
        compare.stop(&state);
        compare.start(&state);
        compare.state(&state, FILLED_NUMBERS, FILLED_MASKS);
        compare.view(&state, members(3), 7);
        compare.send_heartbeat(&state, [0, 0, cycle, 0], &[], &[7; 10], 9);
        for (join, request) in [(0, 0), (1, 0), (0, 1), (1, 1)] {
            compare.write_heartbeat([n, node, join, request, 0, 0, cycle, 0], &[], &lent(&[7; 10]));
        }
        compare.read_heartbeat([n, node, cycle, 0], &beat, &lent(FILLED_DRIVE), FILLED_READ);
        compare.receive_heartbeat([n, node, cycle], &beat, &[], &lent(FILLED_DRIVE), FILLED_HEARD);
        every_entry_on_a_block(compare, &row[24..48], wrong);
        every_entry_on_a_row(compare, n, &row, wrong);
    }
}

fn every_entry_on_a_block(compare: &mut Compare, state: &[u8], wrong: Wrong) {
    let mut block = [state, &[0; 40]].concat();
    block.truncate(if wrong == Wrong::Length { 63 } else { 64 });
    let address = if wrong == Wrong::Later { 64 } else { ENABLES as u32 };
    for (requests, votes) in [0, 4, u64::MAX].into_iter().flat_map(|requests| [VOTES_BYTES, 0].map(|votes| (requests, votes))) {
        let offer = make::Offer { heard: Heard { requests, ..members(0x1f) }, slots: vec![0; votes], arrived: 0 };
        compare.step(&block, &Step::Cycle(offer.clone()));
        compare.step(&block, &Step::WriteCycle(address, 7, offer));
    }
    compare.step(&block, &Step::Read(address));
    compare.step(&block, &Step::Write(address, 7));
}

/// a table's run gives 2 before a byte of the table is looked at
fn every_entry_on_a_row(compare: &mut Compare, n: u32, row: &[u8], wrong: Wrong) {
    let row = if wrong == Wrong::Length { &row[1..] } else { row };
    let record = write_cycle(&Faults { lost_heartbeat: 2, ..Faults::none() });
    let record = if wrong == Wrong::Later { &record[1..] } else { &record };
    compare.cycle(n, row, record);
    let whole = [&write_first(n as u8, 0x1f)[..], record].concat();
    for table in [&whole[..], &[], &whole[1..], &write_first(5, 0)] {
        compare.run(row, table);
        compare.run_frames(row, table, &FILLED_FRAMES);
        compare.run_frames(row, table, &FILLED_FRAMES[1..]);
    }
}

fn cut_at_each_byte(compare: &mut Compare) {
    for n in [2, 5, 9, 64] {
        let table = make::table(&mut compare.random, n, 4);
        let row = compare.random.bytes(24 * n);
        let starts = make::record_starts(&table);
        let step = if n == 64 { 5 } else { 1 };
        for len in (0..table.len()).filter(|len| len % step == 0) {
            compare.run(&row, &table[..len]);
            if n < 64 {
                compare.run_frames(&row, &table[..len], &FILLED_FRAMES);
            }
        }
        let mode = compare.press_mode();
        let press = Press::new(&mut compare.random, mode, n);
        let lent = row_image(&press.before);
        for &start in &starts {
            for len in (0..=table.len() - start).filter(|len| *len < 100 || len % step == 0) {
                compare.cycle(n as u32, &lent, &table[start..start + len]);
            }
        }
        // every byte changed in turn
        for at in (0..table.len()).filter(|at| *at < 100 || at % step == 0) {
            for value in [0, 1, 0x40, 0x80, 0xff] {
                let mut changed = table.clone();
                changed[at] ^= value;
                compare.run(&row, &changed);
                if let [_, second, ..] = starts[..] {
                    let end = starts.get(2).copied().unwrap_or(changed.len());
                    compare.cycle(n as u32, &lent, &changed[second..end]);
                }
            }
        }
    }
}

/// every bit of every mask, for several N
fn every_bit_of_a_mask(compare: &mut Compare) {
    for (n, bit) in [2_usize, 3, 5, 32, 33, 63, 64].into_iter().flat_map(|n| (0..64).map(move |bit| (n, only(bit)))) {
        let row = row_image(&beginning_from(n, 1, u32::MAX));
        compare.begin(n as u32, 1, bit, &[7; 24]);
        compare.begin(n as u32, 1, bit | 1, &[7; 24]);
        compare.run(&row, &write_first(n as u8, bit));
        compare.run_frames(&row, &write_first(n as u8, bit | 3), &FILLED_FRAMES);
        for k in 0..5 {
            let part = |place: usize, other: u64| if place == k { other ^ bit } else { other };
            let vote = Vote { group: Group { number: 5, set: part(0, 2), base: part(1, part(0, 3)) }, view: part(2, 2) };
            compare.write_vote([n as u32, 1, 9, 1], &vote, &[7; 36]);
            compare.read_vote([n as u32, 1, 9, 1], &vote_frame(1, &vote, 9, 1), &[7; 28]);
            let member = image(&Unit { n, node: 1, state: State::Member { group: vote.group, request: false } });
            compare.stop(&member);
            compare.state(&member, FILLED_NUMBERS, FILLED_MASKS);
            compare.view(&member, members(bit), 7);
            compare.view(&member, Heard { join1: bit, ..Heard::default() }, 7);
            let masks = [part(0, 0), part(1, 0), part(2, 0), part(3, 0)];
            let mut faults = Faults { stop: masks[0], start: masks[1], lost_heartbeat: masks[2], lost_vote: masks[3], ..Faults::none() };
            faults.missed_vote[1] = part(4, 0);
            compare.cycle(n as u32, &row, &write_cycle(&faults));
        }
    }
}

/// every count of entries, with its bytes there, one byte less and one more; every first byte of an entry
fn every_count_and_entry(compare: &mut Compare) {
    for n in [2_u8, 5, 63, 64] {
        let row = row_image(&beginning_from(n.into(), 3, 0));
        let both = |compare: &mut Compare, record: &[u8]| {
            compare.cycle(n.into(), &row, record);
            let table = [&write_first(n, 3)[..], record].concat();
            compare.run(&row, &table);
            // a cycle of 64 nodes through frames takes some milliseconds
            if n < 10 {
                compare.run_frames(&row, &table, &FILLED_FRAMES);
            }
        };
        for count in 0..=255_u8 {
            let mut record = write_cycle(&Faults::none());
            record[35] = count;
            for k in 0..count {
                // ascending, and right as long as there are so many receivers
                let receiver = k % n;
                record.push(receiver | if k < n { 0 } else { 0x80 });
                record.extend(only(usize::from(receiver == 0)).to_be_bytes());
            }
            both(compare, &record);
            both(compare, &record[..record.len() - 1]);
            record.push(0x47);
            both(compare, &record);
            let mut single = write_cycle(&Faults::none());
            single[35] = 1;
            single.push(count);
            single.extend(only(usize::from(count & 0x3f == 0)).to_be_bytes());
            both(compare, &single);
        }
    }
}

/// every decision of two nodes: all states, masks and votes, with the own group number or the next
fn decisions_of_two(compare: &mut Compare) {
    let numbers = [u32::MAX, 0];
    let groups = [1, 2, 3].into_iter().flat_map(|set| [1, 2, 3].map(|base| Group { number: u32::MAX, set, base }));
    let members = groups.map(|group| State::Member { group, request: false });
    let others = [State::Joining, State::Out(Reason::Stopped), State::Out(Reason::NoQuorum), State::Out(Reason::Outvoted)];
    for (state, node) in members.chain(others).flat_map(|state| [(state, 0), (state, 1)]) {
        let state = image(&Unit { n: 2, node, state });
        for vote in 0..128 {
            let group = Group { number: numbers[vote >> 6], set: vote as u64 & 3, base: vote as u64 >> 2 & 3 };
            let mut slots = vec![0xff; VOTES_BYTES];
            make::put_vote(&mut slots, 1 - node, &Vote { group, view: vote as u64 >> 4 & 3 });
            for masks in 0..64 {
                compare.decide(&state, Heard { join0: masks & 3, join1: masks >> 2 & 3, requests: 0 }, &slots, masks >> 4);
            }
        }
    }
}

/// every decision and vote of a member of two or three nodes: all sets and bases, whether it requests, all masks that it heard, and of each other node no vote,
/// one with its own view or one with another; some that voted, and in a quiet press some that did not, are put out by the other
fn decisions_of_two_and_three(compare: &mut Compare) {
    let mut outvoted = [0; 2];
    let requests = if compare.press_mode().is_quiet() { &[false, true][..] } else { &[false] };
    for (n, node) in [(2, 0), (2, 1), (3, 0), (3, 1), (3, 2)] {
        let pairs = (1..1_u64 << n).flat_map(|set| (set..1 << n).map(move |base| (set, base)));
        for (set, base) in pairs.filter(|(set, base)| has(*set, node) && inside(*set, *base)) {
            for &request in requests {
                decisions_of(compare, &Unit { n, node, state: State::Member { group: Group { number: 9, set, base }, request } }, &mut outvoted);
            }
        }
    }
    assert!(outvoted[1] > 0 && (outvoted[0] > 0) == compare.press_mode().is_quiet(), "outvoted by another view: {outvoted:?}");
}

/// adds to `outvoted`, by whether the member voted, how often a view that is not its own put it out
fn decisions_of(compare: &mut Compare, unit: &Unit, outvoted: &mut [usize; 2]) {
    let State::Member { group, .. } = unit.state else { unreachable!() };
    let (n, state) = (unit.n, image(unit));
    // where requests are not looked at, none and all are enough
    let requests: Vec<u64> = if compare.press_mode().is_quiet() { (0..1 << n).collect() } else { vec![0, all(n)] };
    for masks in 0..1_u64 << (2 * n) {
        let (join0, join1) = (masks & all(n), masks >> n);
        let view = make::view(unit, &group, Heard { join0, join1, requests: 0 });
        for &requests in &requests {
            let heard = Heard { join0, join1, requests };
            let voted = compare.send_vote(&state, heard, [9, 1], &[7; 36], 9).0 == 1;
            for (other, choice) in other_views(n, &group, view).flat_map(|other| (0..3_usize.pow(n as u32 - 1)).map(move |choice| (other, choice))) {
                let (slots, arrived, own) = chosen_votes(unit, &group, [view, other], choice);
                let left = compare.decide(&state, heard, &slots, arrived);
                outvoted[usize::from(voted)] += usize::from(!own && left[..2] == [0, Reason::Outvoted as u8]);
            }
        }
    }
}

/// other views than this one: the set, or, where it is the set, the sets that lack one of its nodes or have one more
fn other_views(n: usize, group: &Group, view: u64) -> impl Iterator<Item = u64> {
    let set = group.set;
    (0..n).map(move |q| if view == set { set ^ only(q) } else { set }).take(if view == set { n } else { 1 })
}

/// of each other node, by a digit of the choice: no vote, one with the first view, or one with the second; and whether some have the first
fn chosen_votes(unit: &Unit, group: &Group, views: [u64; 2], choice: usize) -> (Vec<u8>, u64, bool) {
    let (mut slots, mut arrived, mut choice, mut first) = (vec![0; VOTES_BYTES], 0, choice, false);
    for q in (0..unit.n).filter(|&q| q != unit.node) {
        make::put_vote(&mut slots, q, &Vote { group: *group, view: views[usize::from(choice % 3 == 2)] });
        arrived |= if choice % 3 == 0 { 0 } else { only(q) };
        first |= choice % 3 == 1;
        choice /= 3;
    }
    (slots, arrived, first)
}

/// a single cycle from every state that kept cycles reach at N 2 and 3, under every fault record that keeps the promise
fn cycles_of_two_and_three(compare: &mut Compare) {
    let rules = Rules::of(compare.press_mode());
    for n in [2, 3] {
        let mut level: Vec<Standing> = (1..1_u64 << n).map(|founding| Standing::beginning(n, founding)).collect();
        let mut seen: HashSet<Standing> = level.iter().cloned().collect();
        while let Some(at) = level.pop() {
            let row = row_image(&at.row);
            each_kept_record(&at, &mut |faults| {
                compare.cycle(n as u32, &row, &write_cycle(faults));
                let after = at.step(faults, rules).expect("demand 3").canonical();
                if seen.insert(after.clone()) {
                    level.push(after);
                }
            });
        }
    }
}

/// a single cycle of two nodes from every row that three cycles reach, under every fault record
fn broken_cycles_of_two(compare: &mut Compare) {
    let every: Vec<Faults> = (0..1 << 12)
        .map(|bits: u64| {
            let mut faults =
                Faults { stop: bits & 3, start: bits >> 2 & 3, lost_heartbeat: bits >> 4 & 3, lost_vote: bits >> 6 & 3, ..Faults::none() };
            [faults.missed_heartbeat[0], faults.missed_heartbeat[1]] = [bits >> 8 & 1, bits >> 9 & 1].map(|bit| bit * 3);
            [faults.missed_vote[0], faults.missed_vote[1]] = [bits >> 10 & 1, bits >> 11 & 1].map(|bit| bit * 3);
            for q in 0..2 {
                faults.missed_heartbeat[q] &= !only(q);
                faults.missed_vote[q] &= !only(q);
            }
            faults
        })
        .collect();
    let mut rows: BTreeSet<Vec<u8>> = (1..4).map(|founding| row_image(&beginning_from(2, founding, u32::MAX))).collect();
    for _ in 0..3 {
        for row in rows.clone() {
            for faults in &every {
                rows.insert(compare.cycle(2, &row, &write_cycle(faults)).1);
            }
        }
    }
}

/// machines with each kind of state, their flags and enables in several ways; in a quiet press a member that requests and one that does not
fn machines(mode: Mode) -> Vec<Machine> {
    let group = Group { number: u32::MAX, set: 0x1e, base: 0x1f };
    let based = Group { base: group.set, ..group };
    let states = match mode {
        Mode::Always => vec![
            State::Member { group, request: false },
            State::Member { group: based, request: false },
            State::Joining,
            State::Out(Reason::Stopped),
            State::Out(Reason::NoQuorum),
            State::Out(Reason::Outvoted),
        ],
        Mode::Quiet => vec![State::Member { group, request: true }, State::Member { group: based, request: false }],
    };
    states
        .into_iter()
        .flat_map(|state| [(0, 0), (7, 7), (5, 2)].map(|(flags, enables)| (state, Flags::of(flags), Flags::of(enables))))
        .map(|(state, flags, enables)| Machine { unit: Unit { n: 5, node: 1, state }, flags, enables })
        .collect()
}

/// every address of a block and some above it, written with every value, alone and together with a cycle, and read
fn every_address_and_value(compare: &mut Compare) {
    for machine in machines(compare.press_mode()) {
        let block = block_of(&machine);
        for address in (0..=70).chain([u32::MAX]) {
            let offer = make::offer(&mut compare.random, &machine.unit);
            for value in 0..=255 {
                let (_, left) = compare.step(&block, &Step::Write(address, value));
                compare.step(&left, &Step::Read(address));
                compare.step(&block, &Step::WriteCycle(address, value, offer.clone()));
            }
        }
    }
}

/// every flag and enable, and every value written to the registers behind the state
fn every_flag_and_enable(compare: &mut Compare) {
    for (flags, enables) in (0..8).flat_map(|flags| (0..8).map(move |enables| (flags, enables))) {
        let mode = compare.press_mode();
        let unit = make::unit(&mut compare.random, mode, 5);
        let block = block_of(&Machine { unit, flags: Flags::of(flags), enables: Flags::of(enables) });
        for (address, value) in (FLAGS..=COMMAND).flat_map(|address| (0..=255).map(move |value| (address as u32, value))) {
            let offer = make::offer(&mut compare.random, &unit);
            compare.step(&block, &Step::Write(address, value));
            compare.step(&block, &Step::WriteCycle(address, value, offer));
        }
    }
}

/// a read, a write, a cycle, and a write and a cycle together
fn each_entry(compare: &mut Compare, unit: &Unit) -> [Step; 4] {
    let offer = make::offer(&mut compare.random, unit);
    [Step::Read(PENDING as u32), Step::Write(ENABLES as u32, 6), Step::Cycle(offer.clone()), Step::WriteCycle(FLAGS as u32, 2, offer)]
}

/// every bit of a block, and every value of each byte behind the state
fn every_bit_of_a_block(compare: &mut Compare) {
    for machine in machines(compare.press_mode()) {
        let block = block_of(&machine);
        let steps = each_entry(compare, &machine.unit);
        for bit in 0..8 * BLOCK_BYTES {
            let mut changed = block;
            changed[bit / 8] ^= 0x80 >> (bit % 8);
            steps.iter().for_each(|step| drop(compare.step(&changed, step)));
        }
        for (at, value) in (FLAGS..BLOCK_BYTES).flat_map(|at| (0..=255).map(move |value| (at, value))) {
            let mut changed = block;
            changed[at] = value;
            compare.step(&changed, &steps[0]);
        }
    }
}

/// blocks and votes of other lengths, alone and with what is refused after them
fn lengths_of_blocks(compare: &mut Compare) {
    for machine in machines(compare.press_mode()) {
        let right = block_of(&machine);
        let mut malformed = right;
        malformed[40] = 1;
        for (block, len) in [right, malformed].into_iter().flat_map(|block| (0..=80).map(move |len| (block, len))) {
            let mut block = block.to_vec();
            block.resize(len, 0);
            each_entry(compare, &machine.unit).iter().for_each(|step| drop(compare.step(&block, step)));
            for votes in [0, 1, 28, 64, VOTES_BYTES - 1, VOTES_BYTES, VOTES_BYTES + 1, 2 * VOTES_BYTES] {
                let mut offer = make::offer(&mut compare.random, &machine.unit);
                offer.slots.resize(votes, 0);
                compare.step(&block, &Step::Cycle(offer.clone()));
                compare.step(&block, &Step::WriteCycle(BLOCK_BYTES as u32, 1, offer));
            }
            compare.step(&block, &Step::Read(BLOCK_BYTES as u32));
            compare.step(&block, &Step::Write(BLOCK_BYTES as u32, 1));
        }
    }
}

// random calls

fn a_node(compare: &mut Compare, press: &Press) {
    let random = &mut compare.random;
    let node = random.below(press.n);
    let (n, unit) = if random.once_in(4) {
        let n = make::count(random);
        (n, make::unit(random, press.mode, n))
    } else {
        (press.n, press.unit(node))
    };
    let node = unit.node;
    let state = make::any_image(random, &unit);
    let given = press.cycle.heard.get(node).copied().unwrap_or_default();
    let heard = heard(random, given);
    let (lent_n, lent_node) = (lent_count(random, n), lent_number(random, node as u32, n as u32));
    let cycle = random.below(64) as u32;
    let (cycle, channel) = (lent_number(random, cycle, 64), random.below(2) as u32);
    let channel = lent_number(random, channel, 2);
    let mut flags = [0; 3].map(|_| random.below(2) as u32).map(|flag| lent_number(random, flag, 2));
    if flags[2] == 1 && !random.once_in(8) {
        flags[1] = 1;
    }
    let request = random.below(2) as u32;
    let request = lent_number(random, request, 2);
    let junk = random.bits();
    let halves = [junk as u32, (junk >> 32) as u32];
    match random.below(21) {
        0 => {
            let founding = if random.once_in(4) { random.mask() } else { make::founding(random, n) };
            let state = lent_buffer(random, 24);
            compare.begin(lent_n, lent_node, founding, &state);
        }
        1 => compare.stop(&state),
        2 => compare.start(&state),
        3 => {
            let drive = lent_drive(random);
            let frame = lent_buffer(random, HEARTBEAT_BYTES + drive.len());
            compare.write_heartbeat([lent_n, lent_node, flags[0], request, flags[1], flags[2], cycle, channel], &drive, &frame);
        }
        4 => {
            let drive = lent_drive(random);
            let frame = lent_buffer(random, HEARTBEAT_BYTES + drive.len());
            compare.send_heartbeat(&state, [flags[1], flags[2], cycle, channel], &drive, &frame, junk as u32);
        }
        5 => compare.view(&state, heard, junk),
        6 => {
            let mut vote = make::vote(random, n, node);
            if random.once_in(3) {
                make::damage_vote(random, n, node, &mut vote);
            }
            let frame = lent_buffer(random, VOTE_FRAME_BYTES);
            compare.write_vote([lent_n, lent_node, cycle, channel], &vote, &frame);
        }
        7 => {
            let frame = lent_buffer(random, VOTE_FRAME_BYTES);
            compare.send_vote(&state, heard, [cycle, channel], &frame, junk as u32);
        }
        8 | 9 => {
            let drive = make::drive(random);
            let good = make::good_heartbeat(random, press.mode, node, cycle & 63, channel & 1, &drive);
            let (frame, buffer) = (make::any_frame(random, &good, channel & 1), lent_buffer(random, DRIVE_BYTES));
            compare.read_heartbeat([lent_n, lent_node, cycle, channel], &frame, &buffer, [halves[0], halves[1], !halves[0]]);
        }
        10 | 11 => {
            let good = make::good_vote(random, n, node, cycle & 63, channel & 1);
            let frame = make::any_frame(random, &good, channel & 1);
            let vote = lent_buffer(random, VOTE_BYTES);
            compare.read_vote([lent_n, lent_node, cycle, channel], &frame, &vote);
        }
        12 => {
            let copies = make::two_heartbeats(random, press.mode, node, cycle & 63);
            let [a, b] = [0, 1].map(|channel| make::any_frame(random, &copies[channel], channel as u32));
            let buffer = lent_buffer(random, DRIVE_BYTES);
            compare.receive_heartbeat([lent_n, lent_node, cycle], &a, &b, &buffer, halves);
        }
        13 => {
            let vote = make::vote(random, n, node);
            let [a, b] = [0, 1].map(|channel| {
                let other = make::good_vote(random, n, node, cycle & 63, channel);
                let good = if random.once_in(4) { other } else { vote_frame(node, &vote, cycle & 63, channel) };
                make::any_frame(random, &good, channel)
            });
            let votes = if random.once_in(10) { lent_buffer(random, VOTES_BYTES) } else { vec![junk as u8; VOTES_BYTES] };
            compare.receive_vote([lent_n, lent_node, cycle], &a, &b, &votes, junk);
        }
        14 => compare.state(&state, [0, 8, 16, 24, 32].map(|by| (junk >> by) as u32), [junk, !junk]),
        _ => a_decision(compare, press, &unit, &state, heard),
    }
}

/// a decision on the votes that a press gives, on those changed, or on votes around the quorum
fn a_decision(compare: &mut Compare, press: &Press, unit: &Unit, state: &[u8], given: Heard) {
    let random = &mut compare.random;
    let heard = if random.once_in(3) { given } else { press.cycle.heard.get(unit.node).copied().unwrap_or_default() };
    let (mut slots, mut mask) = if unit.n == press.n && unit.state == press.cycle.stood[unit.node] && !random.once_in(3) {
        press.arrived(random, unit.node)
    } else {
        make::votes_for(random, unit, heard)
    };
    if random.once_in(4) {
        make::put_unlooked(random, unit, &mut slots, &mut mask);
    }
    if random.once_in(8) {
        let at = random.below(VOTE_BYTES * unit.n);
        slots[at] ^= 1 << random.below(8);
    }
    if random.once_in(60) {
        let len = random.pick(&[0, 1, 28, 1791, 1793, 3584]);
        slots.resize(len, 0);
    }
    note_edges(compare, unit, heard, &slots, mask);
    compare.decide(state, heard, &slots, mask);
}

/// counts how near to the quorum the votes for a unit are
fn note_edges(compare: &mut Compare, unit: &Unit, heard: Heard, slots: &[u8], mask: u64) {
    let Some(mode) = Mode::of(compare.mode).filter(|_| slots.len() == VOTES_BYTES) else { return };
    let votes = arrived_votes(unit.n, unit.node, slots, mask);
    let own = rule4(unit.n, unit.node, unit.state, heard, Rules::of(mode));
    let text = match (unit.state, own) {
        (State::Member { group, .. }, own) => {
            // of a member that did not vote, the votes for the view that it has
            let vote = Vote { group, view: make::view(unit, &group, heard) };
            let same = (0..unit.n).filter(|&q| has(group.set, q) && votes[q] == Some(vote)).count() as i64 + i64::from(own.is_some());
            let edge = match 2 * same - i64::from(size(group.base)) {
                0 => "just half of the base",
                1 => "half a vote more than half of the base",
                2 => "one vote more than half of the base",
                -1 => "half a vote less than half of the base",
                _ => return,
            };
            format!("the own view{} has {edge}", if own.is_some() { "" } else { " of a member that did not vote" })
        }
        (State::Joining, _) => {
            let mut fitting: Vec<Vote> = Vec::new();
            for vote in votes.iter().flatten().filter(|vote| fits(unit.node, vote, &votes, Rules::of(mode))) {
                if !fitting.contains(vote) {
                    fitting.push(*vote);
                }
            }
            ["no vote value fits a joiner", "one vote value fits a joiner", "several vote values fit a joiner"][fitting.len().min(2)].to_string()
        }
        (State::Out(_), _) => return,
    };
    *compare.given.entry(format!("gm_decide, votes: {text}")).or_default() += 1;
}

/// both copies of a frame that an entry writes, if it says that there is one to be sent
fn sent_on_both(mut write: impl FnMut(u32) -> (u64, Vec<u8>)) -> Option<[Vec<u8>; 2]> {
    let [(on_a, a), (on_b, b)] = [0, 1].map(&mut write);
    assert_eq!(on_a, on_b, "a node sends on both channels or on none");
    (on_a == 1).then_some([a, b])
}

/// the copies where the frame reaches, else none
fn reaching(sent: &Option<[Vec<u8>; 2]>, reaches: bool) -> [&[u8]; 2] {
    match sent {
        Some([a, b]) if reaches => [a, b],
        _ => [&[], &[]],
    }
}

/// what a node hears of the frames of all others
fn hears(compare: &mut Compare, press: &Press, to: usize, cycle: u32, beats: &[Option<[Vec<u8>; 2]>]) -> Heard {
    let mut heard = Heard::default();
    for from in (0..press.n).filter(|&from| from != to) {
        let copies = reaching(&beats[from], press.faults.heartbeat_reaches(from, to));
        let received = compare.receive_filled([press.n as u32, from as u32, cycle], copies);
        match received.results[0] {
            1 => heard.hear(from, Sign::Member),
            2 => heard.hear(from, Sign::Joining),
            3 => heard.hear(from, Sign::Request),
            _ => {}
        }
    }
    heard
}

/// all nodes of a press for one cycle by the entries of the node end, each from what the entries gave before: they hold what gm_cycle gives
fn whole_cycle_of_nodes(compare: &mut Compare, press: &Press) {
    let (n, cycle) = (press.n, compare.random.below(64) as u32);
    let states: Vec<[u8; 24]> = (0..n).map(|q| image(&press.unit(q))).collect();
    let beats: Vec<_> =
        (0..n).map(|q| sent_on_both(|channel| compare.send_heartbeat(&states[q], [0, 0, cycle, channel], &[], &[7; 10], 9))).collect();
    let heard: Vec<Heard> = (0..n).map(|to| hears(compare, press, to, cycle, &beats)).collect();
    let votes: Vec<_> = (0..n).map(|q| sent_on_both(|channel| compare.send_vote(&states[q], heard[q], [cycle, channel], &[7; 36], 9))).collect();
    let decided: Vec<u8> = (0..n).flat_map(|to| decides(compare, press, to, cycle, heard[to], &votes)).collect();
    let (status, row) = compare.cycle(n as u32, &row_image(&press.before), &write_cycle(&press.faults));
    assert!(status == 0 && row == decided, "the entries of one node give another row than gm_cycle");
}

fn decides(compare: &mut Compare, press: &Press, to: usize, cycle: u32, heard: Heard, sent: &[Option<[Vec<u8>; 2]>]) -> Vec<u8> {
    let (mut votes, mut arrived) = (compare.random.bytes(VOTES_BYTES), 0);
    for from in (0..press.n).filter(|&from| from != to) {
        let [a, b] = reaching(&sent[from], press.faults.vote_reaches(from, to));
        (arrived, votes) = compare.receive_vote([press.n as u32, from as u32, cycle], a, b, &votes, arrived);
    }
    compare.decide(&image(&press.unit(to)), heard, &votes, arrived)
}

fn a_single_cycle(compare: &mut Compare, press: &Press) {
    let random = &mut compare.random;
    let row = make::any_row(random, &press.before);
    let n = if random.once_in(2) { press.n as u32 } else { lent_count(random, press.n) };
    let mut record = write_cycle(&press.faults);
    if random.once_in(3) {
        // as a record of a table, damaged there
        let mut table = write_first(press.n as u8, 1);
        table.extend(&record);
        make::damage_table(random, &mut table);
        record = table.split_off(12.min(table.len()));
    }
    compare.cycle(n, &row, &record);
}

/// a table run plain, through frames, and by single cycles
fn a_table(compare: &mut Compare) {
    let random = &mut compare.random;
    let frames = random.once_in(2);
    let n = if frames && !random.once_in(40) { make::small_count(random) } else { make::count(random) };
    let cycles = match (frames && n > 9, random.below(20)) {
        (true, _) => random.below(3),
        (false, 0) => random.below(90),
        _ => random.below(7),
    };
    let mut table = make::table(random, n, cycles);
    let damaged = random.once_in(3);
    if damaged {
        (0..1 + random.below(2)).for_each(|_| {
            if !table.is_empty() && make::record_starts(&table).iter().all(|at| at + 3 <= table.len()) && table.len() > 12 {
                make::damage_table(random, &mut table);
            }
        });
    }
    let len = match random.below(15) {
        0 => random.below(24 * 66),
        1 => 24 * random.below(67),
        _ => 24 * n,
    };
    let row = random.bytes(len);
    let (status, left) = compare.run(&row, &table);
    if frames {
        let buffer = lent_buffer(&mut compare.random, FRAMES_BYTES);
        let (framed, framed_left) = compare.run_frames(&row, &table, &buffer);
        let same = (status, &left) == (framed, &framed_left);
        assert!(same || buffer.len() != FRAMES_BYTES, "the paper's run through frames is another run");
    }
    if status == 0 && cycles < 12 {
        let starts = make::record_starts(&table);
        let founding = u64::from_be_bytes(table[4..12].try_into().unwrap());
        // damage that was accepted may have changed N
        let n = usize::from(table[3]);
        let mut row = row_image(&beginning_from(n, founding, 0));
        for (k, &start) in starts.iter().enumerate().skip(1) {
            let end = starts.get(k + 1).copied().unwrap_or(table.len());
            (_, row) = compare.cycle(n as u32, &row, &table[start..end]);
        }
        assert!(row == left, "single cycles give another row than the run");
    }
}

/// a series of steps on one block; now and then a damaged one is lent between two of them
fn a_series(compare: &mut Compare) {
    let mode = compare.press_mode();
    let mut machine = make::machine(&mut compare.random, mode);
    let mut block = block_of(&machine).to_vec();
    for _ in 0..1 + compare.random.below(40) {
        let step = make::step(&mut compare.random, &machine);
        if compare.random.once_in(25) {
            let damaged = make::damaged_block(&mut compare.random, &machine);
            let lent = lent_mode(&mut compare.random, mode);
            compare.with_mode(lent, |compare| compare.step(&damaged, &step));
        }
        let (status, left) = compare.step(&block, &step);
        let after = read_block(mode, &left).expect("a step leaves a block that the next one accepts");
        if status == 0 {
            note_flags(compare, &machine, &step, &after);
        }
        (machine, block) = (after, left);
    }
}

/// counts what became of each flag in an accepted step
fn note_flags(compare: &mut Compare, before: &Machine, step: &Step, after: &Machine) {
    let between = match *step {
        Step::Write(address, value) | Step::WriteCycle(address, value, _) => written(before, address as usize, value),
        _ => *before,
    };
    let (set, cleared) = (before.flags.byte(), before.flags.byte() & !between.flags.byte());
    let up = raised(between.unit.state, after.unit.state).byte();
    for (k, turns) in compare.flags.iter_mut().enumerate() {
        for (turn, flags) in turns.iter_mut().zip([up & !set, cleared & !up, cleared & up]) {
            *turn += u64::from(flags >> k & 1);
        }
    }
}

/// what does not hang on the mode is done in one of them
const IN_MODE_0: [fn(&mut Compare); 9] = [
    lengths_of_frames,
    every_number_of_drive_bytes,
    every_length_of_a_heartbeat,
    every_length_of_a_drive_buffer,
    every_byte_of_a_copy,
    copies_of_every_two_lengths,
    one_good_copy_of_every_length,
    every_count_and_entry,
    decisions_of_two,
];
const IN_BOTH_MODES: [fn(&mut Compare); 15] = [
    counts_and_numbers,
    lengths,
    every_bit_of_an_image,
    every_bit_of_a_frame,
    every_length_field,
    every_first_byte_written,
    every_two_first_bytes,
    cut_at_each_byte,
    every_bit_of_a_mask,
    decisions_of_two_and_three,
    broken_cycles_of_two,
    cycles_of_two_and_three,
    every_address_and_value,
    every_flag_and_enable,
    every_bit_of_a_block,
];

fn in_turn(compare: &mut Compare) {
    IN_MODE_0.iter().for_each(|part| part(compare));
    for mode in Mode::BOTH {
        IN_BOTH_MODES.iter().for_each(|part| compare.with_mode(mode.number(), part));
    }
    Mode::BOTH.iter().map(|mode| mode.number()).chain(NO_MODES).for_each(|mode| compare.with_mode(mode, every_entry));
    lengths_of_blocks(compare);
    println!("compare: {} calls with every length, number, bit and cut in turn agree", compare.total());
}

fn random_calls(compare: &mut Compare, calls: u64) {
    let before = compare.total();
    while compare.total() < before + calls {
        let mode = compare.random.pick(&Mode::BOTH);
        compare.with_mode(mode.number(), a_press);
    }
}

/// calls on the nodes and the row of a press from cycle to cycle, and with a table
fn a_press(compare: &mut Compare) {
    let (mode, n) = (compare.press_mode(), make::count(&mut compare.random));
    let mut press = Press::new(&mut compare.random, mode, n);
    for _ in 0..1 + compare.random.below(12) {
        for _ in 0..24 {
            with_lent_mode(compare, mode, |compare| a_node(compare, &press));
        }
        with_lent_mode(compare, mode, |compare| a_single_cycle(compare, &press));
        // of many nodes every one hears every other: few of these
        if compare.random.once_in(if n < 10 { 4 } else { 5 * n }) {
            whole_cycle_of_nodes(compare, &press);
        }
        press = press.next(&mut compare.random);
    }
    with_lent_mode(compare, mode, a_table);
}

/// what is done with the mode of a press as a caller gives it
fn with_lent_mode(compare: &mut Compare, mode: Mode, done: impl FnOnce(&mut Compare)) {
    let lent = lent_mode(&mut compare.random, mode);
    compare.with_mode(lent, done);
}

/// ends the program if some flag was not raised, cleared, or both at once often enough
fn random_series(compare: &mut Compare, series: u64) {
    let before = compare.total();
    for k in 0..series {
        let mode = Mode::BOTH[k as usize % 2].number();
        compare.with_mode(mode, a_series);
    }
    println!("compare: {series} series of steps on a register block, {} steps, agree", compare.total() - before);
    for (name, turns) in FLAG_NAMES.iter().zip(&compare.flags) {
        let told: Vec<String> = FLAG_TURNS.iter().zip(turns).map(|(turn, count)| format!("{turn} {count} times")).collect();
        println!("compare: flag {name} {}", told.join(", "));
    }
    if compare.flags.iter().flatten().any(|count| *count <= ENOUGH) {
        println!("compare: a flag was not raised, cleared, or both in one step more than {ENOUGH} times");
        std::process::exit(1);
    }
}

/// a number that the environment gives
fn given_number(name: &str, otherwise: u64) -> u64 {
    std::env::var(name).map_or(otherwise, |text| text.parse().unwrap_or_else(|_| panic!("{name} is a number")))
}

fn main() {
    let seed = std::env::args().nth(1).map_or_else(|| given_number("SEED", 1), |text| text.parse().expect("the seed is a number"));
    let (calls, series) = (given_number("CALLS", 300_000), given_number("SERIES", 200_000));
    println!("compare: seed {seed}, at least {calls} random calls, and {series} series of steps on a register block");
    let mut compare = Compare {
        random: Random::new(seed),
        counts: [[0; STATUSES]; ENTRIES.len()],
        shift: 0,
        mode: 0,
        given: BTreeMap::new(),
        flags: [[0; FLAG_TURNS.len()]; FLAG_NAMES.len()],
    };
    in_turn(&mut compare);
    random_calls(&mut compare, calls);
    random_series(&mut compare, series);
    for (entry, counts) in ENTRIES.iter().zip(&compare.counts) {
        let statuses: Vec<String> = counts.iter().enumerate().filter(|(_, count)| **count > 0).map(|(s, count)| format!("{s}: {count}")).collect();
        println!("gm_{entry:<20} {:>8} calls; by status {}", counts.iter().sum::<u64>(), statuses.join(", "));
    }
    compare.given.iter().for_each(|(text, count)| println!("{text}: {count}"));
    println!("compare: {} calls agree", compare.total());
}
