//! "All nodes of a press are in the same mode, fixed per press from the beginning on and given by the caller" (request 3).

#[derive(Clone, Copy, PartialEq, Eq, Hash, Debug)]
pub enum Mode {
    /// "votes in every cycle"
    Always,
    Quiet,
}

impl Mode {
    pub const BOTH: [Mode; 2] = [Mode::Always, Mode::Quiet];

    /// "0 votes in every cycle, 1 quiet, any other number is refused with 2"
    pub fn of(number: u32) -> Option<Mode> {
        match number {
            0 => Some(Mode::Always),
            1 => Some(Mode::Quiet),
            _ => None,
        }
    }

    /// as the caller gives it
    pub fn number(self) -> u32 {
        match self {
            Mode::Always => 0,
            Mode::Quiet => 1,
        }
    }

    pub fn is_quiet(self) -> bool {
        self == Mode::Quiet
    }
}
