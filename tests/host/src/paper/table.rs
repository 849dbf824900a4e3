//! "Table file", with its refusals in the paper's order.
use super::faults::Faults;
use super::sets::{all, has, inside, number, Set};
use super::Answer;

pub const FIRST_BYTES: usize = 12;
pub const CYCLE_BYTES: usize = 36;
pub const ENTRY_BYTES: usize = 9;

/// "fewer than three bytes left of a record give 11; then 12": mark and kind
fn begins_with_kind(bytes: &[u8], kind: u8) -> Answer<()> {
    if bytes.len() < 3 {
        return Err(11);
    }
    // "Every record begins with the two bytes hex 47 4D. Then the kind byte."
    if bytes[..3] != [0x47, 0x4d, kind] {
        Err(12)
    } else {
        Ok(())
    }
}

/// "then 11 if the record's bytes .. are not all there"
fn all_there(bytes: &[u8], len: usize) -> Answer<(&[u8], &[u8])> {
    if bytes.len() < len {
        Err(11)
    } else {
        Ok(bytes.split_at(len))
    }
}

/// "Kind 1, first and only once: N (1 byte), founding set (8)." Gives N, the founding set and what follows. Whether a buffer that a run lends has another
/// length than this N asks for, `wrong_length` says.
pub fn first_record(bytes: &[u8], wrong_length: impl Fn(usize) -> bool) -> Answer<(usize, Set, &[u8])> {
    begins_with_kind(bytes, 1)?;
    let (record, rest) = all_there(bytes, FIRST_BYTES)?;
    let (n, founding) = (usize::from(record[3]), number(&record[4..12]));
    // "then 1 for N"
    if !(2..=64).contains(&n) {
        return Err(1);
    }
    // "then 3 for a run's row"
    if wrong_length(n) {
        return Err(3);
    }
    // "then 13": "founding set empty; a bit .. beyond its limit"
    if founding == 0 || !inside(founding, all(n)) {
        return Err(13);
    }
    Ok((n, founding, rest))
}

/// the length of the record of kind 2 that bytes begin with, "by its count even above 128", if its count is there
pub fn cycle_length(bytes: &[u8]) -> Option<usize> {
    (bytes.len() >= CYCLE_BYTES).then(|| CYCLE_BYTES + ENTRY_BYTES * usize::from(bytes[35]))
}

/// "Kind 2, a cycle: the four masks in the order above (8 each), a count of entries (1 byte, 0 to 128), and entries of 9 bytes". Gives the faults and what
/// follows.
pub fn cycle_record(n: usize, bytes: &[u8]) -> Answer<(Faults, &[u8])> {
    begins_with_kind(bytes, 2)?;
    let (record, rest) = all_there(bytes, cycle_length(bytes).ok_or(11_u32)?)?;
    let mask = |k: usize| number(&record[3 + 8 * k..11 + 8 * k]);
    let mut faults = Faults { stop: mask(0), start: mask(1), lost_heartbeat: mask(2), lost_vote: mask(3), ..Faults::none() };
    // 13: "a bit, receiver or count beyond its limit"
    if !inside(faults.stop | faults.start | faults.lost_heartbeat | faults.lost_vote, all(n)) || record[35] > 128 {
        return Err(13);
    }
    let mut last = None;
    for entry in record[CYCLE_BYTES..].chunks(ENTRY_BYTES) {
        entry_into(n, entry, &mut faults)?;
        // "Entries ascend strictly by first byte."
        if last.is_some_and(|last| last >= entry[0]) {
            return Err(13);
        }
        last = Some(entry[0]);
    }
    Ok((faults, rest))
}

/// "phase in bit 7 (0 heartbeat, 1 vote), bit 6 zero, receiver in bits 0 to 5, then the mask missed"
fn entry_into(n: usize, entry: &[u8], faults: &mut Faults) -> Answer<()> {
    let (receiver, missed) = (usize::from(entry[0] & 0x3f), number(&entry[1..]));
    // 13: "receiver .. beyond its limit; an entry with bit 6 set, an empty mask, its own receiver in the mask"; "a bit .. beyond its limit"
    if entry[0] & 0x40 != 0 || receiver >= n || missed == 0 || has(missed, receiver) || !inside(missed, all(n)) {
        return Err(13);
    }
    let phase = if entry[0] & 0x80 == 0 { &mut faults.missed_heartbeat } else { &mut faults.missed_vote };
    phase[receiver] = missed;
    Ok(())
}

/// a whole table: N, the founding set and the cycles, or the first refusal
pub fn table(bytes: &[u8], wrong_length: impl Fn(usize) -> bool) -> Answer<(usize, Set, Vec<Faults>)> {
    let (n, founding, mut rest) = first_record(bytes, wrong_length)?;
    let mut cycles = Vec::new();
    while !rest.is_empty() {
        let (faults, after) = cycle_record(n, rest)?;
        cycles.push(faults);
        rest = after;
    }
    Ok((n, founding, cycles))
}

/// the bytes of a first record
pub fn write_first(n: u8, founding: Set) -> Vec<u8> {
    let mut bytes = vec![0x47, 0x4d, 1, n];
    bytes.extend_from_slice(&founding.to_be_bytes());
    bytes
}

/// the bytes of a cycle record
pub fn write_cycle(faults: &Faults) -> Vec<u8> {
    let mut bytes = vec![0x47, 0x4d, 2];
    for mask in [faults.stop, faults.start, faults.lost_heartbeat, faults.lost_vote] {
        bytes.extend_from_slice(&mask.to_be_bytes());
    }
    bytes.push(0);
    for (phase, missed) in [(0, &faults.missed_heartbeat), (0x80, &faults.missed_vote)] {
        for (q, mask) in missed.iter().enumerate().filter(|(_, mask)| **mask != 0) {
            bytes[35] += 1;
            bytes.push(phase | q as u8);
            bytes.extend_from_slice(&mask.to_be_bytes());
        }
    }
    bytes
}
