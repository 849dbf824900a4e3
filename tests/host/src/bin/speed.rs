//! One table of times: the archive, grouprun and quietrun beside the paper's implementation in Rust and beside plain C, in the same run on the same data.
//! Usage: speed GROUPRUN QUIETRUN PLAINRUN TABLEGEN MEASURE FOLDER, the last one for the tables that the programs read.
use host::archive::{Archive, Plain};
use host::clock::processor_time;
use host::paper::entries::Paper;
use host::paper::frames::{
    frame, heartbeat, vote_frame, vote_header, vote_payload, Header, DRIVE_BYTES, HEARTBEAT_BYTES, VOTES_BYTES, VOTE_BYTES, VOTE_FRAME_BYTES,
};
use host::paper::mode::Mode;
use host::paper::registers::{block_of, Flags, Machine, BLOCK_BYTES, FLAGS, PENDING};
use host::paper::rules::{Sign, Vote};
use host::paper::run::FRAMES_BYTES;
use host::paper::sets::{all, only, Set};
use host::paper::state::{beginning, image, row_image, Group, State, Unit, IMAGE_BYTES};
use host::paper::table::{cycle_length, FIRST_BYTES};
use host::NodeEnd;
use std::fs::{self, File};
use std::path::PathBuf;
use std::process::{Command, Stdio};

/// the archive, the paper's implementation and plain C
const HANDS: [&dyn NodeEnd; 3] = [&Archive, &Paper, &Plain];
const TURNS: usize = 25;
/// a program takes no further turn once its turns took so many seconds
const PROGRAM_SECONDS: f64 = 1.0;
/// a turn has so many calls that it takes at least this long, in nanoseconds
const TURN: f64 = 3e6;
const COUNTS: [usize; 3] = [5, 16, 64];
/// of heartbeats, without drive bytes and with them
const WORDS: [usize; 4] = [1, 2, 16, 127];
/// for the steps on a register block
const ENDS: [usize; 2] = [5, 64];
const FAULTS: [&str; 2] = ["clean", "mixed"];
/// cycles of a table, for the calls on a row; and of a program's table, times N
const CYCLES: usize = 400;
const FRAMED_CYCLES: usize = 8;
const PROGRAM_CYCLES: usize = 5_000_000;
/// cycle count and channel of the frames
const CYCLE: u32 = 7;
const CHANNEL: u32 = 1;

/// a call to be timed: it leaves its result in the buffer and answers a status
struct Operation<'a> {
    name: &'a str,
    n: usize,
    status: u32,
    /// the buffer's length
    len: usize,
    call: &'a dyn Fn(&dyn NodeEnd, &mut [u8]) -> u32,
}

/// how times are shown
#[derive(Clone, Copy)]
enum Shown {
    Nanoseconds,
    CyclesPerSecond,
}

fn row(name: &str, n: usize, shown: Shown, times: [f64; 3]) -> String {
    let cell = |time: f64| match shown {
        Shown::Nanoseconds => format!("{time:.0} ns"),
        Shown::CyclesPerSecond => format!("{:.0} cycles/s", 1e9 / time),
    };
    let [ours, rust, c] = times;
    format!("{name:<50} {n:>3} {:>18} {:>18} {:>18} {:>8.2} {:>8.2}", cell(ours), cell(rust), cell(c), ours / rust, ours / c)
}

/// a row, and ours to another operation of ours
fn beside(row: &str, times: [f64; 3], other: [f64; 3]) -> String {
    format!("{row} {:>9.2}", times[0] / other[0])
}

/// all three answer as they should and leave the same bytes
fn check(operation: &Operation) {
    let results = HANDS.map(|hand| {
        let mut left = vec![0xa5; operation.len];
        assert_eq!((operation.call)(hand, &mut left), operation.status, "{}, N {}", operation.name, operation.n);
        left
    });
    assert!(results[0] == results[1] && results[0] == results[2], "{}, N {}: other results", operation.name, operation.n);
}

/// nanoseconds of processor time for so many calls
fn turn(operation: &Operation, hand: &dyn NodeEnd, left: &mut [u8], calls: u32) -> f64 {
    let began = processor_time();
    for _ in 0..calls {
        assert_eq!((operation.call)(hand, left), operation.status);
    }
    processor_time() - began
}

fn calls_of_a_turn(operation: &Operation, hand: &dyn NodeEnd, left: &mut [u8]) -> u32 {
    let mut calls = 1;
    while turn(operation, hand, left, calls) < TURN {
        calls *= 2;
    }
    calls
}

/// the time of one call of each operation by each hand, the least of its turns, which all take in rotation
fn times<const K: usize>(operations: [&Operation; K]) -> [[f64; 3]; K] {
    operations.iter().for_each(|operation| check(operation));
    let mut left = operations.map(|operation| vec![0; operation.len]);
    let mut calls = [[0; 3]; K];
    let mut least = [[f64::INFINITY; 3]; K];
    let places: Vec<(usize, usize)> = (0..K).flat_map(|k| (0..HANDS.len()).map(move |hand| (k, hand))).collect();
    for &(k, hand) in &places {
        calls[k][hand] = calls_of_a_turn(operations[k], HANDS[hand], &mut left[k]);
    }
    for &(k, hand) in (0..TURNS).flat_map(|_| &places) {
        let calls = calls[k][hand];
        least[k][hand] = least[k][hand].min(turn(operations[k], HANDS[hand], &mut left[k], calls) / f64::from(calls));
    }
    least
}

fn call(name: &str, n: usize, status: u32, len: usize, call: &dyn Fn(&dyn NodeEnd, &mut [u8]) -> u32) {
    let [times] = times([&Operation { name, n, status, len, call }]);
    println!("{}", row(name, n, Shown::Nanoseconds, times));
}

/// one call is many cycles; it leaves `len` bytes
fn cycles(name: &str, n: usize, count: usize, len: usize, call: &dyn Fn(&dyn NodeEnd, &mut [u8]) -> u32) {
    let [times] = times([&Operation { name, n, status: 0, len, call }]);
    println!("{}", row(name, n, Shown::CyclesPerSecond, times.map(|time| time / count as f64)));
}

/// the checks, through frames that the reader of a vote refuses because of them or after them
fn checks() {
    let due = vote_frame(0, &agreeing(64), CYCLE, CHANNEL);
    let mut wrong_header = due.clone();
    wrong_header[3] ^= 1;
    call("header check (a frame refused by it)", 64, 6, VOTE_BYTES, &|hand, left| hand.read_vote(64, 0, CYCLE, CHANNEL, &wrong_header, left));
    let longest = frame(&Header { words: 127, ..vote_header(0, CYCLE) }, &[0x5a; 254], CHANNEL);
    call("frame check of 259 bytes (frame not due)", 64, 9, VOTE_BYTES, &|hand, left| hand.read_vote(64, 0, CYCLE, CHANNEL, &longest, left));
}

/// how a press of a mode is called in a row
fn press(mode: Mode) -> &'static str {
    if mode.is_quiet() {
        "quiet "
    } else {
        ""
    }
}

/// a heartbeat of so many words written, read, and received on two channels; in a quiet press one that requests
fn heartbeats(mode: Mode, words: usize) {
    let (quiet, mode) = (press(mode), mode.number());
    let sign = if mode == 0 { Sign::Member } else { Sign::Request };
    let drive: Vec<u8> = (0..2 * words - 2).map(|k| k as u8).collect();
    let [a, b] = [0, 1].map(|channel| heartbeat(9, sign, true, false, CYCLE, channel, &drive));
    let write = |hand: &dyn NodeEnd, left: &mut [u8]| hand.write_heartbeat(64, mode, 9, 0, mode, 1, 0, CYCLE, 1, &drive, left);
    let read = |hand: &dyn NodeEnd, left: &mut [u8]| {
        let (numbers, buffer) = left.split_at_mut(8);
        let [mut join, mut request, mut drive_bytes] = [2; 3];
        let status = hand.read_heartbeat(64, mode, 9, CYCLE, 1, &b, buffer, &mut join, &mut request, &mut drive_bytes);
        numbers.copy_from_slice(&(u64::from(join | request << 1) << 32 | u64::from(drive_bytes)).to_be_bytes());
        status
    };
    let receive = |hand: &dyn NodeEnd, left: &mut [u8]| {
        let (numbers, buffer) = left.split_at_mut(8);
        let [mut heard, mut drive_bytes] = [9; 2];
        let status = hand.receive_heartbeat(64, mode, 9, CYCLE, &a, &b, buffer, &mut heard, &mut drive_bytes);
        numbers.copy_from_slice(&(u64::from(heard) << 32 | u64::from(drive_bytes)).to_be_bytes());
        status
    };
    let names = ["write heartbeat", "read heartbeat", "receive heartbeat, two channels"].map(|call| format!("{quiet}{call}, words {words}"));
    let on_drive = |name, call| Operation { name, n: 64, status: 0, len: 8 + DRIVE_BYTES, call };
    let written = Operation { name: &names[0], n: 64, status: 0, len: b.len(), call: &write };
    let [written, read, received] = times([&written, &on_drive(&names[1], &read), &on_drive(&names[2], &receive)]);
    println!("{}", row(&names[0], 64, Shown::Nanoseconds, written));
    println!("{}", row(&names[1], 64, Shown::Nanoseconds, read));
    println!("{}", beside(&row(&names[2], 64, Shown::Nanoseconds, received), received, read));
}

fn states() {
    let held = row_image(&beginning(64, all(64)));
    call("take a state apart", 64, 0, 8, &|hand, left| {
        let [mut kind, mut reason, mut node, mut n, mut number] = [9; 5];
        let [mut set, mut base] = [9; 2];
        let status = hand.state(0, &held[..IMAGE_BYTES], &mut kind, &mut reason, &mut node, &mut n, &mut number, &mut set, &mut base);
        left.copy_from_slice(&(set ^ base ^ u64::from(kind + reason + node + n + number)).to_be_bytes());
        status
    });
}

fn votes() {
    let Vote { group: Group { number, set, base }, view } = agreeing(64);
    let [a, b] = [0, 1].map(|channel| vote_frame(9, &agreeing(64), CYCLE, channel));
    call("write vote", 64, 0, VOTE_FRAME_BYTES, &|hand, left| hand.write_vote(64, 9, number, set, base, view, CYCLE, 1, left));
    call("read vote", 64, 0, VOTE_BYTES, &|hand, left| hand.read_vote(64, 9, CYCLE, 1, &b, left));
    call("receive vote, two channels", 64, 0, VOTES_BYTES, &|hand, left| hand.receive_vote(64, 9, CYCLE, &a, &b, left, &mut 0));
}

fn group(set: Set) -> Group {
    Group { number: 0, set, base: set }
}

/// the vote of a unit that heard all of its group, and its group are all of N
fn agreeing(n: usize) -> Vote {
    Vote { group: group(all(n)), view: all(n) }
}

/// the others hold the group of all and did not hear the last node
fn without_last(n: usize) -> Vote {
    Vote { view: all(n - 1), ..agreeing(n) }
}

/// the others hold a group without the last node and heard it
fn with_last(n: usize) -> Vote {
    Vote { group: group(all(n - 1)), view: all(n) }
}

/// how many of the others' votes arrive
#[derive(Clone, Copy)]
enum Come {
    All,
    LessThanHalf,
    None,
}

/// a decision of the last node of N on the votes of the others, of whom the first requests in a quiet press
struct Decision {
    name: &'static str,
    mode: Mode,
    joining: bool,
    requested: bool,
    come: Come,
    /// of N and the sender
    vote: fn(usize, usize) -> Vote,
}

const ALWAYS: Decision = Decision { name: "", mode: Mode::Always, joining: false, requested: false, come: Come::All, vote: |n, _| agreeing(n) };
const QUIET: Decision = Decision { mode: Mode::Quiet, ..ALWAYS };
const DECISIONS: [Decision; 9] = [
    Decision { name: "member, all agree", ..ALWAYS },
    Decision { name: "member, outvoted", vote: |n, _| without_last(n), ..ALWAYS },
    Decision { name: "member, too few votes", come: Come::LessThanHalf, vote: |n, _| without_last(n), ..ALWAYS },
    Decision { name: "member, all votes differ", vote: |n, q| Vote { view: all(n) & !only(q + 1), ..agreeing(n) }, ..ALWAYS },
    Decision { name: "joiner, all agree", joining: true, vote: |n, _| with_last(n), ..ALWAYS },
    Decision { name: "joiner, too few votes", joining: true, come: Come::LessThanHalf, vote: |n, _| with_last(n), ..ALWAYS },
    Decision { name: "quiet member, nobody votes", come: Come::None, ..QUIET },
    Decision { name: "quiet member, all agree", requested: true, ..QUIET },
    Decision { name: "quiet member, silent and outvoted", vote: |n, _| without_last(n), ..QUIET },
];

impl Decision {
    /// the unit that decides
    fn unit(&self, n: usize) -> Unit {
        let member = State::Member { group: group(all(n)), request: false };
        Unit { n, node: n - 1, state: if self.joining { State::Joining } else { member } }
    }

    fn requests(&self) -> Set {
        u64::from(self.requested)
    }

    /// the votes lent to it, and whose they are
    fn votes(&self, n: usize) -> (Vec<u8>, Set) {
        let voters = match self.come {
            Come::All => n - 1,
            Come::LessThanHalf => (n - 1) / 2,
            Come::None => 0,
        };
        let mut slots = vec![0; VOTES_BYTES];
        for q in 0..voters {
            slots[VOTE_BYTES * q..VOTE_BYTES * (q + 1)].copy_from_slice(&vote_payload(&(self.vote)(n, q)));
        }
        (slots, if voters == 0 { 0 } else { all(voters) })
    }
}

fn decide(decision: &Decision, n: usize) {
    let begun = image(&decision.unit(n));
    let (slots, arrived) = decision.votes(n);
    call(&format!("decide: {}", decision.name), n, 0, IMAGE_BYTES, &|hand, left| {
        left.copy_from_slice(&begun);
        hand.decide(decision.mode.number(), left, all(n), 0, decision.requests(), &slots, arrived)
    });
}

/// the vote that a member sends who heard all; in a quiet press because of a request, or it rests
fn sends(n: usize) {
    let state = image(&ALWAYS.unit(n));
    for (name, mode, requests) in [("send vote", 0, 0), ("quiet send vote, requested", 1, 1), ("quiet send vote, rests", 1, 0)] {
        call(name, n, 0, VOTE_FRAME_BYTES, &|hand, left| hand.send_vote(mode, &state, all(n), 0, requests, CYCLE, 1, left, &mut 0));
    }
}

/// the block of a unit of which a card has not yet taken an enabled flag
fn pending_block(unit: Unit) -> [u8; BLOCK_BYTES] {
    block_of(&Machine { unit, flags: Flags { changed: true, ..Flags::default() }, enables: Flags::of(7) })
}

/// the card asks whether a flag is pending, and clears it
fn registers(n: usize) {
    let block = pending_block(ALWAYS.unit(n));
    call("register read", n, 0, 4, &|hand, left| {
        let mut value = 9;
        let status = hand.register_read(0, &block, PENDING as u32, &mut value);
        left.copy_from_slice(&value.to_ne_bytes());
        status
    });
    call("register write", n, 0, BLOCK_BYTES, &|hand, left| {
        left.copy_from_slice(&block);
        hand.register_write(0, left, FLAGS as u32, 1)
    });
}

/// a cycle of a block, alone and together with a write, beside a decision on the same state and votes
fn register_cycles(decision: &Decision, n: usize) {
    let block = pending_block(decision.unit(n));
    let (mode, requests) = (decision.mode.number(), decision.requests());
    let (slots, arrived) = decision.votes(n);
    let on_block = |name, call| Operation { name, n, status: 0, len: BLOCK_BYTES, call };
    let cycle = |hand: &dyn NodeEnd, left: &mut [u8]| {
        left.copy_from_slice(&block);
        hand.register_cycle(mode, left, all(n), 0, requests, &slots, arrived)
    };
    let write_cycle = |hand: &dyn NodeEnd, left: &mut [u8]| {
        left.copy_from_slice(&block);
        hand.register_write_cycle(mode, left, FLAGS as u32, 1, all(n), 0, requests, &slots, arrived)
    };
    let decide = |hand: &dyn NodeEnd, left: &mut [u8]| {
        left.copy_from_slice(&block);
        hand.decide(mode, &mut left[..IMAGE_BYTES], all(n), 0, requests, &slots, arrived)
    };
    let names = ["cycle", "write and cycle", "decide, in a block"].map(|step| format!("{step}: {}", decision.name));
    let [cycled, joint, decided] = times([&on_block(&names[0], &cycle), &on_block(&names[1], &write_cycle), &on_block(&names[2], &decide)]);
    for (name, times) in names.iter().zip([cycled, joint]) {
        println!("{}", beside(&row(name, n, Shown::Nanoseconds, times), times, decided));
    }
}

/// a cycle of the last node of N in which all agree: its state, and both copies of the frames of all others
struct UnitCycle {
    n: usize,
    state: Vec<u8>,
    heartbeats: Vec<[Vec<u8>; 2]>,
    votes: Vec<[Vec<u8>; 2]>,
}

impl UnitCycle {
    const LEN: usize = IMAGE_BYTES + 2 * HEARTBEAT_BYTES + 2 * VOTE_FRAME_BYTES + VOTES_BYTES;

    fn of(n: usize) -> UnitCycle {
        let copies = |frame: &dyn Fn(usize, u32) -> Vec<u8>| (0..n - 1).map(|q| [0, 1].map(|channel| frame(q, channel))).collect();
        UnitCycle {
            n,
            state: image(&ALWAYS.unit(n)).to_vec(),
            heartbeats: copies(&|q, channel| heartbeat(q, Sign::Member, false, false, CYCLE, channel, &[])),
            votes: copies(&|q, channel| vote_frame(q, &agreeing(n), CYCLE, channel)),
        }
    }

    /// the members heard
    fn heard(&self, hand: &dyn NodeEnd) -> Set {
        let (mut members, mut drive) = (0, [0; DRIVE_BYTES]);
        for (q, [a, b]) in self.heartbeats.iter().enumerate() {
            let mut heard = 0;
            assert_eq!(hand.receive_heartbeat(self.n as u32, 0, q as u32, CYCLE, a, b, &mut drive, &mut heard, &mut 0), 0);
            members |= Set::from(heard == 1) << q;
        }
        members
    }

    /// the votes that arrived, in their slots
    fn arrived(&self, hand: &dyn NodeEnd, slots: &mut [u8]) -> Set {
        let mut arrived = 0;
        for (q, [a, b]) in self.votes.iter().enumerate() {
            assert_eq!(hand.receive_vote(self.n as u32, q as u32, CYCLE, a, b, slots, &mut arrived), 0);
        }
        arrived
    }

    /// the calls of the cycle in the order of gm.h; what they write is left behind: the state, the frames of both channels, and the slots
    fn run(&self, hand: &dyn NodeEnd, left: &mut [u8]) -> u32 {
        let (state, rest) = left.split_at_mut(IMAGE_BYTES);
        let (heartbeats, rest) = rest.split_at_mut(2 * HEARTBEAT_BYTES);
        let (votes, slots) = rest.split_at_mut(2 * VOTE_FRAME_BYTES);
        let mut sent = [0; 4];
        state.copy_from_slice(&self.state);
        let (a, b) = heartbeats.split_at_mut(HEARTBEAT_BYTES);
        hand.send_heartbeat(0, state, 0, 0, CYCLE, 0, &[], a, &mut sent[0]);
        hand.send_heartbeat(0, state, 0, 0, CYCLE, 1, &[], b, &mut sent[1]);
        let heard = self.heard(hand);
        let (a, b) = votes.split_at_mut(VOTE_FRAME_BYTES);
        hand.send_vote(0, state, heard, 0, 0, CYCLE, 0, a, &mut sent[2]);
        hand.send_vote(0, state, heard, 0, 0, CYCLE, 1, b, &mut sent[3]);
        assert_eq!(sent, [1; 4]);
        let arrived = self.arrived(hand, slots);
        hand.decide(0, state, heard, 0, 0, slots, arrived)
    }
}

fn unit_cycle(n: usize) {
    let cycle = UnitCycle::of(n);
    call("cycle of one unit by the node entries", n, 0, UnitCycle::LEN, &|hand, left| cycle.run(hand, left));
}

/// a program and its arguments
struct Program {
    path: PathBuf,
    arguments: &'static [&'static str],
}

/// where things are
struct Places {
    /// of each mode the delivered program, the paper's run and plain C's
    programs: [[Program; 3]; 2],
    tablegen: PathBuf,
    measure: PathBuf,
    table: PathBuf,
}

impl Places {
    fn of_arguments() -> Places {
        let arguments: Vec<PathBuf> = std::env::args_os().skip(1).map(PathBuf::from).collect();
        let [grouprun, quietrun, plainrun, tablegen, measure, folder] = &arguments[..] else { panic!("six paths") };
        let paperrun = std::env::current_exe().expect("this program has a path").with_file_name("paperrun");
        let program = |path: &PathBuf, arguments| Program { path: path.clone(), arguments };
        let of_mode = |delivered, arguments| [program(delivered, &[]), program(&paperrun, arguments), program(plainrun, arguments)];
        Places {
            programs: [of_mode(grouprun, &[]), of_mode(quietrun, &["quiet"])],
            tablegen: tablegen.clone(),
            measure: measure.clone(),
            table: folder.join("speed.tab"),
        }
    }

    /// a table with all nodes as founders, and clean or mixed cycles
    fn make_table(&self, n: usize, cycles: usize, faults: usize) -> Vec<u8> {
        let arguments = [n, cycles, 1, faults].map(|number| number.to_string());
        let made = Command::new(&self.tablegen).args(arguments).output().expect("the table's program runs");
        assert!(made.status.success(), "a table is made");
        made.stdout
    }

    fn open_table(&self) -> File {
        File::open(&self.table).expect("the table is there")
    }

    /// what a program prints for the table
    fn printed(&self, program: &Program) -> Vec<u8> {
        let answer = Command::new(&program.path).args(program.arguments).stdin(self.open_table()).output().expect("the program runs");
        assert!(answer.status.success(), "{} ends well", program.path.display());
        answer.stdout
    }

    /// processor seconds and KiB of memory of one turn
    fn measured(&self, program: &Program) -> (f64, u64) {
        let mut command = Command::new(&self.measure);
        command.arg(&program.path).args(program.arguments).stdin(self.open_table()).stdout(Stdio::null());
        let answer = command.output().expect("measure runs");
        assert!(answer.status.success(), "{} ends well", program.path.display());
        let text = String::from_utf8_lossy(&answer.stderr).into_owned();
        let (seconds, memory) = text.trim().split_once(' ').expect("two numbers");
        (seconds.parse().expect("seconds"), memory.parse().expect("KiB"))
    }

    /// nanoseconds of a cycle
    fn time_programs(&self, mode: Mode, n: usize, cycles: usize, faults: usize) -> [f64; 3] {
        let programs = &self.programs[mode.number() as usize];
        fs::write(&self.table, self.make_table(n, cycles, faults)).expect("the table is written");
        let runs = programs.each_ref().map(|program| self.printed(program));
        assert!(runs[0] == runs[1] && runs[0] == runs[2], "mode {}, N {n}, {}: other runs", mode.number(), FAULTS[faults]);
        let (mut least, mut total) = ([f64::INFINITY; 3], [0.0; 3]);
        for k in (0..TURNS).flat_map(|_| 0..HANDS.len()) {
            if total[k] < PROGRAM_SECONDS {
                let (seconds, _) = self.measured(&programs[k]);
                least[k] = least[k].min(seconds);
                total[k] += seconds;
            }
        }
        least.map(|seconds| seconds * 1e9 / cycles as f64)
    }
}

/// the records of a table's cycles
fn records(table: &[u8]) -> Vec<&[u8]> {
    let (mut rest, mut found) = (&table[FIRST_BYTES..], Vec::new());
    while let Some(len) = cycle_length(rest) {
        let (record, after) = rest.split_at(len);
        found.push(record);
        rest = after;
    }
    found
}

fn single_cycles(places: &Places, mode: Mode, n: usize, faults: usize) {
    let table = places.make_table(n, CYCLES, faults);
    let begun = row_image(&beginning(n, all(n)));
    let records = records(&table);
    cycles(&format!("{}cycle, {}", press(mode), FAULTS[faults]), n, CYCLES, n * IMAGE_BYTES, &|hand, row| {
        row.copy_from_slice(&begun);
        records.iter().map(|record| hand.cycle(n as u32, mode.number(), row, record)).max().unwrap_or(0)
    });
}

fn run(places: &Places, mode: Mode, n: usize, faults: usize) {
    let table = places.make_table(n, CYCLES, faults);
    let name = format!("{}run, {}", press(mode), FAULTS[faults]);
    cycles(&name, n, CYCLES, n * IMAGE_BYTES, &|hand, row| hand.run(mode.number(), row, &table));
}

fn framed_run(places: &Places, mode: Mode, n: usize, faults: usize) {
    let table = places.make_table(n, FRAMED_CYCLES, faults);
    cycles(&format!("{}run through frames, {}", press(mode), FAULTS[faults]), n, FRAMED_CYCLES, n * IMAGE_BYTES + FRAMES_BYTES, &|hand, left| {
        let (row, frames) = left.split_at_mut(n * IMAGE_BYTES);
        hand.run_frames(mode.number(), row, &table, frames)
    });
}

fn programs(places: &Places, mode: Mode, n: usize, faults: usize) {
    let cycles = PROGRAM_CYCLES / n;
    let name = format!("{}, {}", if mode.is_quiet() { "quietrun" } else { "grouprun" }, FAULTS[faults]);
    println!("{}", row(&name, n, Shown::CyclesPerSecond, places.time_programs(mode, n, cycles, faults)));
}

fn on_tables(places: &Places, operation: fn(&Places, Mode, usize, usize)) {
    for (mode, faults) in Mode::BOTH.into_iter().flat_map(|mode| (0..FAULTS.len()).map(move |faults| (mode, faults))) {
        COUNTS.into_iter().for_each(|n| operation(places, mode, n, faults));
    }
}

/// the memory of a long run
fn memory(places: &Places) {
    const LONG: usize = 1_000_000;
    fs::write(&places.table, places.make_table(64, LONG, 0)).expect("the table is written");
    let [ours, _, c] = places.programs[0].each_ref();
    println!("peak memory at 64 nodes and {LONG} clean cycles: grouprun {} KiB, C {} KiB", places.measured(ours).1, places.measured(c).1);
    fs::remove_file(&places.table).expect("the table is removed");
}

fn main() {
    let places = Places::of_arguments();
    println!("{:<50} {:>3} {:>18} {:>18} {:>18} {:>8} {:>8} {:>9}", "operation", "N", "ours", "Rust", "C", "to Rust", "to C", "to ours");
    checks();
    WORDS.into_iter().for_each(|words| heartbeats(Mode::Always, words));
    heartbeats(Mode::Quiet, 1);
    states();
    votes();
    COUNTS.into_iter().for_each(sends);
    for decision in &DECISIONS {
        COUNTS.into_iter().for_each(|n| decide(decision, n));
    }
    ENDS.into_iter().for_each(registers);
    for decision in &DECISIONS {
        ENDS.into_iter().for_each(|n| register_cycles(decision, n));
    }
    COUNTS.into_iter().for_each(unit_cycle);
    on_tables(&places, single_cycles);
    on_tables(&places, run);
    on_tables(&places, framed_run);
    on_tables(&places, programs);
    memory(&places);
}
