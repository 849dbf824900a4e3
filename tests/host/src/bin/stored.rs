//! Compares the paper's implementation with the votes, decisions, cycles and heartbeats of tests/vectors/t03, which other code computed; the README beside the
//! files says their form. tests/quiet.c makes the same calls on the archive.
use host::paper::entries::Paper;
use host::paper::frames::{DRIVE_BYTES, HEARTBEAT_BYTES, VOTES_BYTES, VOTE_BYTES, VOTE_FRAME_BYTES};
use host::paper::sets::nodes;
use host::{hex, NodeEnd};
use std::path::Path;

fn number(field: &str) -> u32 {
    field.parse().expect("a decimal number")
}

fn mask(field: &str) -> u64 {
    u64::from_str_radix(field, 16).expect("a mask")
}

/// `-` is no bytes
fn bytes(field: &str) -> Vec<u8> {
    let digits = if field == "-" { "" } else { field };
    (0..digits.len() / 2).map(|k| u8::from_str_radix(&digits[2 * k..2 * k + 2], 16).expect("bytes")).collect()
}

/// the vote of each sender in its slot, free ones filled
fn slots(arrived: u64, votes: &[u8]) -> Vec<u8> {
    let mut slots = vec![0xa5; VOTES_BYTES];
    assert_eq!(votes.len(), VOTE_BYTES * arrived.count_ones() as usize, "a vote for each sender");
    for (q, vote) in nodes(arrived).zip(votes.chunks(VOTE_BYTES)) {
        slots[VOTE_BYTES * q..VOTE_BYTES * (q + 1)].copy_from_slice(vote);
    }
    slots
}

/// mode pause state heard0 heard1 requests arrived votes sent state-after
fn decision(field: &[&str]) -> bool {
    let [mode, _, state, heard0, heard1, requests, arrived, votes, due, after] = field[..] else { return false };
    let (mode, mut state) = (number(mode), bytes(state));
    let [heard0, heard1, requests, arrived] = [heard0, heard1, requests, arrived].map(mask);
    let mut sent = 9;
    let voted = Paper.send_vote(mode, &state, heard0, heard1, requests, 9, 0, &mut [0; VOTE_FRAME_BYTES], &mut sent);
    let decided = Paper.decide(mode, &mut state, heard0, heard1, requests, &slots(arrived, &bytes(votes)), arrived);
    (voted, sent, decided) == (0, number(due), 0) && hex(&state) == after
}

/// n mode pause row record status row-after
fn cycle(field: &[&str]) -> bool {
    let [n, mode, _, before, record, due, after] = field[..] else { return false };
    let mut row = bytes(before);
    let status = Paper.cycle(number(n), number(mode), &mut row, &bytes(record));
    status == number(due) && hex(&row) == if after == "=" { before } else { after }
}

/// read, write or receive; what a refused call leaves is in compare
fn heartbeat(field: &[&str]) -> bool {
    let mut drive = [0; DRIVE_BYTES];
    let [mut first, mut second, mut count] = [9; 3];
    match field[..] {
        ["read", n, mode, node, at, channel, frame, due, join, request] => {
            let [n, mode, node, at, channel, due] = [n, mode, node, at, channel, due].map(number);
            let status = Paper.read_heartbeat(n, mode, node, at, channel, &bytes(frame), &mut drive, &mut first, &mut second, &mut count);
            status == due && (status != 0 || [first, second] == [join, request].map(number))
        }
        ["write", n, mode, node, join, request, sync, startup, at, channel, due, frame] => {
            let [n, mode, node, join, request, sync, startup, at, channel, due] =
                [n, mode, node, join, request, sync, startup, at, channel, due].map(number);
            let mut written = [0; HEARTBEAT_BYTES];
            let status = Paper.write_heartbeat(n, mode, node, join, request, sync, startup, at, channel, &[], &mut written);
            status == due && (status != 0 || hex(&written) == frame)
        }
        ["receive", n, mode, node, at, a, b, heard] => {
            let [n, mode, node, at, heard] = [n, mode, node, at, heard].map(number);
            Paper.receive_heartbeat(n, mode, node, at, &bytes(a), &bytes(b), &mut drive, &mut first, &mut count) == 0 && first == heard
        }
        _ => false,
    }
}

/// how many lines of a file agree
fn lines(name: &str, agrees: fn(&[&str]) -> bool) -> usize {
    let path = Path::new(env!("CARGO_MANIFEST_DIR")).join("../vectors/t03").join(name);
    let text = std::fs::read_to_string(&path).expect("a stored file");
    let lines = text.lines().enumerate().filter(|(_, line)| !line.starts_with('#'));
    let count = lines.inspect(|(k, line)| assert!(agrees(&line.split(' ').collect::<Vec<&str>>()), "{name}, line {}: {line}", k + 1)).count();
    assert!(count > 0, "{name} has no line");
    count
}

fn main() {
    let [decisions, cycles, heartbeats] = [lines("decide.txt", decision), lines("cycle.txt", cycle), lines("heartbeat.txt", heartbeat)];
    println!(
        "stored: {decisions} votes and decisions, {cycles} cycles and {heartbeats} heartbeats of other code come out of the paper's implementation"
    );
}
