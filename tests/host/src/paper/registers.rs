//! "A register block for the drive card", the first request made after the paper: "a plain machine of state, flags and enables", and the 64 bytes that it
//! shows.
use super::frames::decide_on_slots;
use super::mode::Mode;
use super::rules::{rule1, Heard};
use super::state::{image, read_image, Reason, State, Unit, IMAGE_BYTES};
use super::Answer;

/// "The drive card sees the node end as 64 bytes."
pub const BLOCK_BYTES: usize = 64;

/// where the registers behind the state stand
pub const FLAGS: usize = 24;
pub const ENABLES: usize = 25;
pub const PENDING: usize = 26;
pub const COMMAND: usize = 27;

/// one truth for each of what a card is told
#[derive(Clone, Copy, PartialEq, Eq, Debug, Default)]
pub struct Flags {
    pub changed: bool,
    pub halted: bool,
    pub entered: bool,
}

/// "a plain machine of state, flags and enables"
#[derive(Clone, Copy, PartialEq, Eq, Debug)]
pub struct Machine {
    pub unit: Unit,
    pub flags: Flags,
    pub enables: Flags,
}

impl Flags {
    /// "bit 0 the set changed .., bit 1 halted, bit 2 entered; the rest are 0"
    pub fn byte(self) -> u8 {
        u8::from(self.changed) | u8::from(self.halted) << 1 | u8::from(self.entered) << 2
    }

    /// "keeps only its low three bits"
    pub fn of(byte: u8) -> Flags {
        Flags { changed: byte & 1 != 0, halted: byte & 2 != 0, entered: byte & 4 != 0 }
    }
}

/// "byte 26 is 1 exactly when an enabled flag is set, else 0", "Byte 25 enables them bit by bit"
fn pending(machine: &Machine) -> bool {
    let Machine { flags, enables, .. } = machine;
    flags.changed && enables.changed || flags.halted && enables.halted || flags.entered && enables.entered
}

/// the 64 bytes that a machine shows
pub fn block_of(machine: &Machine) -> [u8; BLOCK_BYTES] {
    // "Byte 27 .. reads 0." "Bytes 28 to 63 read 0"
    let mut bytes = [0; BLOCK_BYTES];
    // "Bytes 0 to 23 are the state image."
    bytes[..IMAGE_BYTES].copy_from_slice(&image(&machine.unit));
    bytes[FLAGS] = machine.flags.byte();
    bytes[ENABLES] = machine.enables.byte();
    bytes[PENDING] = pending(machine).into();
    bytes
}

/// 3 for another length; then 4 for an image that is not well formed, and: "A lent block whose bytes 24 to 63 could not read so gives 4."
pub fn read_block(mode: Mode, bytes: &[u8]) -> Answer<Machine> {
    if bytes.len() != BLOCK_BYTES {
        return Err(3);
    }
    let unit = read_image(mode, &bytes[..IMAGE_BYTES])?;
    let machine = Machine { unit, flags: Flags::of(bytes[FLAGS]), enables: Flags::of(bytes[ENABLES]) };
    if block_of(&machine)[..] == *bytes {
        Ok(machine)
    } else {
        Err(4)
    }
}

/// "a read"
pub fn shown(machine: &Machine, address: usize) -> u8 {
    block_of(machine)[address]
}

/// "a write"
pub fn written(machine: &Machine, address: usize, value: u8) -> Machine {
    let Machine { mut unit, mut flags, mut enables } = *machine;
    match address {
        FLAGS => {
            // "A one written to a flag clears it, a zero does nothing."
            let ones = Flags::of(value);
            flags.changed &= !ones.changed;
            flags.halted &= !ones.halted;
            flags.entered &= !ones.entered;
        }
        ENABLES => enables = Flags::of(value),
        // "Byte 27 takes commands: 1 stop, 2 start, done with the write as rule 1 says and raising no flag; other values do nothing"
        COMMAND => unit.state = rule1(unit.state, value == 1, value == 2),
        // "Writes to bytes 0 to 23 and to 26 do nothing." "Bytes 28 to 63 .. ignore writes."
        _ => {}
    }
    Machine { unit, flags, enables }
}

/// the flags that a cycle raises
pub fn raised(before: State, after: State) -> Flags {
    let none = Flags::default();
    match (before, after) {
        // "bit 0 the set changed in a cycle in which the node stayed a member"
        (State::Member { group: before, .. }, State::Member { group: after, .. }) => Flags { changed: before.set != after.set, ..none },
        // "bit 1 halted"
        (State::Member { .. }, State::Out(Reason::NoQuorum | Reason::Outvoted)) => Flags { halted: true, ..none },
        // "bit 2 entered"
        (State::Joining, State::Member { .. }) => Flags { entered: true, ..none },
        _ => none,
    }
}

/// "a cycle"; after a write in the same step: "A flag raised in the same step as it is cleared stays set."
pub fn cycled(mode: Mode, machine: &Machine, heard: Heard, votes: &[u8], arrived: u64) -> Machine {
    let Machine { unit, flags, enables } = *machine;
    let state = decide_on_slots(mode, &unit, heard, votes, arrived);
    let up = raised(unit.state, state);
    let flags = Flags { changed: flags.changed || up.changed, halted: flags.halted || up.halted, entered: flags.entered || up.entered };
    Machine { unit: Unit { state, ..unit }, flags, enables }
}
