//! "State"
use super::mode::Mode;
use super::sets::{all, has, inside, number, Set};
use super::Answer;

pub const IMAGE_BYTES: usize = 24;

/// "out (with reason 0 stopped or never started, 1 no quorum, 2 outvoted)"
#[derive(Clone, Copy, PartialEq, Eq, Hash, PartialOrd, Ord, Debug)]
pub enum Reason {
    Stopped,
    NoQuorum,
    Outvoted,
}

/// "group number G (32 bits), set M and base B"
#[derive(Clone, Copy, PartialEq, Eq, Hash, PartialOrd, Ord, Debug)]
pub struct Group {
    pub number: u32,
    pub set: Set,
    pub base: Set,
}

/// "A node is out .., joining, or a member"
#[derive(Clone, Copy, PartialEq, Eq, Hash, PartialOrd, Ord, Debug)]
pub enum State {
    Out(Reason),
    Joining,
    /// request 3: "A member's reason byte is 1 when it will request, else 0"
    Member {
        group: Group,
        request: bool,
    },
}

/// a node of N, in its state
#[derive(Clone, Copy, PartialEq, Eq, Debug)]
pub struct Unit {
    pub n: usize,
    pub node: usize,
    pub state: State,
}

/// "Its image has 24 bytes: kind (0 out, 1 joining, 2 member), reason, node, N, G in 4, M in 8, B in 8."
pub fn image(unit: &Unit) -> [u8; IMAGE_BYTES] {
    let (kind, reason, group) = match unit.state {
        State::Out(Reason::Stopped) => (0, 0, None),
        State::Out(Reason::NoQuorum) => (0, 1, None),
        State::Out(Reason::Outvoted) => (0, 2, None),
        State::Joining => (1, 0, None),
        State::Member { group, request } => (2, request.into(), Some(group)),
    };
    let group = group.unwrap_or(Group { number: 0, set: 0, base: 0 });
    let mut bytes = [0; IMAGE_BYTES];
    bytes[0] = kind;
    bytes[1] = reason;
    bytes[2] = unit.node as u8;
    bytes[3] = unit.n as u8;
    bytes[4..8].copy_from_slice(&group.number.to_be_bytes());
    bytes[8..16].copy_from_slice(&group.set.to_be_bytes());
    bytes[16..24].copy_from_slice(&group.base.to_be_bytes());
    bytes
}

/// "It is well formed if .."; 3 for another length, then 4
pub fn read_image(mode: Mode, bytes: &[u8]) -> Answer<Unit> {
    if bytes.len() != IMAGE_BYTES {
        return Err(3);
    }
    // "N is 2 to 64 and the node below it"
    let (n, node) = (usize::from(bytes[3]), usize::from(bytes[2]));
    if !(2..=64).contains(&n) || node >= n {
        return Err(4);
    }
    let group = Group { number: number(&bytes[4..8]) as u32, set: number(&bytes[8..16]), base: number(&bytes[16..24]) };
    // "kind and reason are known", "the reason is 0 unless out"; request 3, of a quiet press: "A member's reason byte is 1 when it will request, else 0"
    let state = match (bytes[0], bytes[1]) {
        (0, 0) => State::Out(Reason::Stopped),
        (0, 1) => State::Out(Reason::NoQuorum),
        (0, 2) => State::Out(Reason::Outvoted),
        (1, 0) => State::Joining,
        (2, 0) => State::Member { group, request: false },
        (2, 1) if mode.is_quiet() => State::Member { group, request: true },
        _ => return Err(4),
    };
    let formed = match state {
        // "for a member M holds the node itself, B holds M, and no bit stands at N or above"
        State::Member { group, .. } => has(group.set, node) && inside(group.set, group.base) && inside(group.base, all(n)),
        // "G, M and B are 0 unless member"
        _ => group == Group { number: 0, set: 0, base: 0 },
    };
    if formed {
        Ok(Unit { n, node, state })
    } else {
        Err(4)
    }
}

/// "At the beginning the nodes of the founding set are members with G 0 and M and B the founding set; the others are out with reason 0."; request 3:
/// "founding members begin with 0", so that this is the beginning in both modes
pub fn beginning(n: usize, founding: Set) -> Vec<State> {
    beginning_from(n, founding, 0)
}

/// the same with another G, as P10 has it
pub fn beginning_from(n: usize, founding: Set, number: u32) -> Vec<State> {
    let member = State::Member { group: Group { number, set: founding, base: founding }, request: false };
    (0..n).map(|q| if has(founding, q) { member } else { State::Out(Reason::Stopped) }).collect()
}

/// "the states of all units as one row, one entry per unit"
pub fn row_image(row: &[State]) -> Vec<u8> {
    let n = row.len();
    row.iter().enumerate().flat_map(|(node, &state)| image(&Unit { n, node, state })).collect()
}

/// 3 for "a row not of N entries"; 4 for "a state image not well formed, or in a row an entry q that is not node q of that N"
pub fn read_row(mode: Mode, n: usize, bytes: &[u8]) -> Answer<Vec<State>> {
    if bytes.len() != n * IMAGE_BYTES {
        return Err(3);
    }
    let entry = |(q, bytes): (usize, &[u8])| {
        let unit = read_image(mode, bytes)?;
        if unit.n == n && unit.node == q {
            Ok(unit.state)
        } else {
            Err(4)
        }
    };
    bytes.chunks(IMAGE_BYTES).enumerate().map(entry).collect()
}
