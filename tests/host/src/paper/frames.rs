//! "Frames"
use super::checks::{frame_check, header_check};
use super::mode::Mode;
use super::rules::{decide, Heard, Rules, Sign, Vote};
use super::sets::{all, has, inside, number};
use super::state::{Group, State, Unit};
use super::Answer;

/// of a heartbeat without drive bytes
pub const HEARTBEAT_BYTES: usize = 10;
/// request 2: "a lent buffer of 252 bytes"
pub const DRIVE_BYTES: usize = 252;
pub const VOTE_FRAME_BYTES: usize = 36;
pub const VOTE_BYTES: usize = 28;
pub const VOTES_BYTES: usize = 1792;

/// "reserved bit, payload preamble, null frame, sync and startup indicators, frame number (11 bits), payload length in words of two bytes (7), header
/// check (11), cycle count (6)"; the check is worked out
#[derive(Clone, Copy, PartialEq, Eq, Debug)]
pub struct Header {
    pub reserved: bool,
    pub preamble: bool,
    /// "0 there means a null frame"
    pub null_frame: bool,
    pub sync: bool,
    pub startup: bool,
    pub frame_number: u32,
    pub words: u32,
    pub cycle: u32,
}

/// "Five header bytes"
pub fn header_bytes(header: &Header, check: u32) -> [u8; 5] {
    let mut bits: u64 = 0;
    let mut put = |width: u32, value: u32| bits = bits << width | u64::from(value);
    put(1, header.reserved.into());
    put(1, header.preamble.into());
    put(1, header.null_frame.into());
    put(1, header.sync.into());
    put(1, header.startup.into());
    put(11, header.frame_number);
    put(7, header.words);
    put(11, check);
    put(6, header.cycle);
    let bytes = bits.to_be_bytes();
    [bytes[3], bytes[4], bytes[5], bytes[6], bytes[7]]
}

/// the header and the header check that five bytes hold
fn header_of(bytes: &[u8]) -> (Header, u32) {
    let bits = number(&bytes[..5]);
    let field = |low: u32, width: u32| (bits >> low & ((1 << width) - 1)) as u32;
    let header = Header {
        reserved: field(39, 1) == 1,
        preamble: field(38, 1) == 1,
        null_frame: field(37, 1) == 1,
        sync: field(36, 1) == 1,
        startup: field(35, 1) == 1,
        frame_number: field(24, 11),
        words: field(17, 7),
        cycle: field(0, 6),
    };
    (header, field(6, 11))
}

/// "Then payload, then 24 check bits."
pub fn frame(header: &Header, payload: &[u8], channel: u32) -> Vec<u8> {
    let check = header_check(header.sync, header.startup, header.frame_number, header.words);
    let mut bytes = header_bytes(header, check).to_vec();
    bytes.extend_from_slice(payload);
    let check = frame_check(channel, &bytes);
    bytes.extend_from_slice(&check.to_be_bytes()[1..]);
    bytes
}

/// header and payload of a whole frame, its checks not looked at
pub fn parts_of(bytes: &[u8]) -> (Header, &[u8]) {
    (header_of(bytes).0, &bytes[5..bytes.len() - 3])
}

/// "Heartbeat of node q: frame number q+1"; request 2: "A heartbeat may now have 1 to 127 words"; "In both the reserved and preamble bits are 0 and the
/// null frame bit is 1"
pub fn heartbeat_header(node: usize, sync: bool, startup: bool, words: u32, cycle: u32) -> Header {
    Header { reserved: false, preamble: false, null_frame: true, sync, startup, frame_number: node as u32 + 1, words, cycle }
}

/// "bit 7 of the first byte is join, all else 0"; request 3: "In a quiet press bit 6 of a heartbeat's first byte becomes a request."
fn first_byte(sign: Sign) -> u8 {
    match sign {
        Sign::Member => 0,
        Sign::Joining => 0x80,
        Sign::Request => 0x40,
    }
}

/// what the two bits say, read or to be written; request 3: "it gives 10 together with the join bit, and in mode 0 also alone"
pub fn sign_of(mode: Mode, join: bool, request: bool) -> Answer<Sign> {
    match (join, request) {
        (false, false) => Ok(Sign::Member),
        (true, false) => Ok(Sign::Joining),
        (false, true) if mode.is_quiet() => Ok(Sign::Request),
        _ => Err(10),
    }
}

/// request 2: "the first is ours, the others belong to the drive"
pub fn heartbeat(node: usize, sign: Sign, sync: bool, startup: bool, cycle: u32, channel: u32, drive: &[u8]) -> Vec<u8> {
    let payload = [&[first_byte(sign), 0], drive].concat();
    frame(&heartbeat_header(node, sync, startup, payload.len() as u32 / 2, cycle), &payload, channel)
}

/// "Vote: frame number q+65, 14 words ..; sync and startup 0."
pub fn vote_header(node: usize, cycle: u32) -> Header {
    Header { reserved: false, preamble: false, null_frame: true, sync: false, startup: false, frame_number: node as u32 + 65, words: 14, cycle }
}

/// "G (4 bytes), M, B, V"
pub fn vote_payload(vote: &Vote) -> [u8; VOTE_BYTES] {
    let mut bytes = [0; VOTE_BYTES];
    bytes[..4].copy_from_slice(&vote.group.number.to_be_bytes());
    bytes[4..12].copy_from_slice(&vote.group.set.to_be_bytes());
    bytes[12..20].copy_from_slice(&vote.group.base.to_be_bytes());
    bytes[20..28].copy_from_slice(&vote.view.to_be_bytes());
    bytes
}

pub fn vote_of(payload: &[u8]) -> Vote {
    let group = Group { number: number(&payload[..4]) as u32, set: number(&payload[4..12]), base: number(&payload[12..20]) };
    Vote { group, view: number(&payload[20..28]) }
}

pub fn vote_frame(node: usize, vote: &Vote, cycle: u32, channel: u32) -> Vec<u8> {
    frame(&vote_header(node, cycle), &vote_payload(vote), channel)
}

/// 10: "a vote whose M or V lacks the sender, whose B lacks part of M, or with a bit at N or above"
pub fn vote_is_sound(n: usize, sender: usize, vote: &Vote) -> bool {
    let lacks_sender = !has(vote.group.set, sender) || !has(vote.view, sender);
    let beyond = !inside(vote.group.set | vote.group.base | vote.view, all(n));
    !lacks_sender && inside(vote.group.set, vote.group.base) && !beyond
}

/// refusals 5 to 8 of any frame; its header and its payload
fn opened(channel: u32, bytes: &[u8]) -> Answer<(Header, &[u8])> {
    // 5: "fewer than 8 bytes, or not 8 plus twice the length field"
    if bytes.len() < 8 {
        return Err(5);
    }
    let (header, check) = header_of(bytes);
    if bytes.len() != 8 + 2 * header.words as usize {
        return Err(5);
    }
    // "6: header check. 7: frame check."
    if check != header_check(header.sync, header.startup, header.frame_number, header.words) {
        return Err(6);
    }
    let (covered, check) = bytes.split_at(bytes.len() - 3);
    if number(check) as u32 != frame_check(channel, covered) {
        return Err(7);
    }
    // "8: null frame"
    if !header.null_frame {
        return Err(8);
    }
    Ok((header, &covered[5..]))
}

/// what the payload of a heartbeat says
#[derive(Clone, Copy, PartialEq, Eq)]
pub struct Heartbeat<'a> {
    pub sign: Sign,
    pub drive: &'a [u8],
}

/// the heartbeat of `node`, or 5 to 10
pub fn read_heartbeat(mode: Mode, node: usize, cycle: u32, channel: u32, bytes: &[u8]) -> Answer<Heartbeat<'_>> {
    let (header, payload) = opened(channel, bytes)?;
    // 9: "another frame number, cycle count, payload length, indicator or reserved bit than due"; "sync and startup free, but startup only with sync";
    // request 2: "Of a heartbeat's lengths refusal 9 now covers only 0"
    if header != heartbeat_header(node, header.sync, header.sync && header.startup, header.words.max(1), cycle) {
        return Err(9);
    }
    // 10: "heartbeat bits that must be 0"; request 2: "10 looks at the first word alone"
    match payload {
        [first, 0, drive @ ..] if first & 0x3f == 0 => Ok(Heartbeat { sign: sign_of(mode, first & 0x80 != 0, first & 0x40 != 0)?, drive }),
        _ => Err(10),
    }
}

/// the vote of `node`, or 5 to 10
pub fn read_vote(n: usize, node: usize, cycle: u32, channel: u32, bytes: &[u8]) -> Answer<Vote> {
    let (header, payload) = opened(channel, bytes)?;
    if header != vote_header(node, cycle) {
        return Err(9);
    }
    let vote = vote_of(payload);
    if vote_is_sound(n, node, &vote) {
        Ok(vote)
    } else {
        Err(10)
    }
}

/// "A unit reads both channels. One good copy counts; two good copies count if their payloads are equal, else the frame is missed."; request 2: "Two good
/// copies with different drive data are still a missed frame."
fn of_two<T: PartialEq>(a: Answer<T>, b: Answer<T>) -> Option<T> {
    match (a, b) {
        (Ok(a), Ok(b)) if a == b => Some(a),
        (Ok(_), Ok(_)) => None,
        (Ok(a), Err(_)) => Some(a),
        (Err(_), Ok(b)) => Some(b),
        (Err(_), Err(_)) => None,
    }
}

pub fn receive_heartbeat<'a>(mode: Mode, node: usize, cycle: u32, a: &'a [u8], b: &'a [u8]) -> Option<Heartbeat<'a>> {
    of_two(read_heartbeat(mode, node, cycle, 0, a), read_heartbeat(mode, node, cycle, 1, b))
}

pub fn receive_vote(n: usize, node: usize, cycle: u32, a: &[u8], b: &[u8]) -> Option<Vote> {
    of_two(read_vote(n, node, cycle, 0, a), read_vote(n, node, cycle, 1, b))
}

/// "Arrived votes are lent as 1,792 bytes, 28 per node, with a mask; a slot that meets condition 10 below, or a bit at N or above, counts as not arrived.
/// The own bit is not looked at."
pub fn arrived_votes(n: usize, node: usize, slots: &[u8], mask: u64) -> Vec<Option<Vote>> {
    let slot = |q: usize| vote_of(&slots[VOTE_BYTES * q..VOTE_BYTES * (q + 1)]);
    (0..n).map(|q| Some(slot(q)).filter(|vote| q != node && has(mask, q) && vote_is_sound(n, q, vote))).collect()
}

/// the state of a unit after rules 5 and 6, on votes as they are lent
pub fn decide_on_slots(mode: Mode, unit: &Unit, heard: Heard, slots: &[u8], mask: u64) -> State {
    decide(unit.n, unit.node, unit.state, heard, &arrived_votes(unit.n, unit.node, slots, mask), Rules::of(mode))
}
