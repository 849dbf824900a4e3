//! The twenty-one entries by the paper and the requests made after it: "A number is given only where its condition holds, and of several the lowest." "A
//! refusal returns only its number; states and buffers do not change."
use super::faults::{cycle, Faults};
use super::frames::{
    decide_on_slots, heartbeat, read_heartbeat, read_vote, receive_heartbeat, receive_vote, sign_of, vote_frame, vote_is_sound, vote_payload,
    DRIVE_BYTES, HEARTBEAT_BYTES, VOTES_BYTES, VOTE_BYTES, VOTE_FRAME_BYTES,
};
use super::mode::Mode;
use super::registers::{block_of, cycled, read_block, shown, written, Machine, BLOCK_BYTES};
use super::rules::{rule1, rule2, rule3, rule4, Heard, Rules, Sign, Vote};
use super::run::{run, run_frames, FRAMES_BYTES};
use super::sets::{self, all, inside, only, Set};
use super::state::{beginning, image, read_image, read_row, row_image, Group, State, Unit, IMAGE_BYTES};
use super::table::{cycle_length, cycle_record, table};
use super::Answer;
use crate::NodeEnd;

pub struct Paper;

/// the lowest number whose condition holds; they are listed in order
fn refuse(conditions: &[(u32, bool)]) -> Answer<()> {
    match conditions.iter().find(|(_, holds)| *holds) {
        Some((number, _)) => Err(*number),
        None => Ok(()),
    }
}

/// 1: "N outside 2 to 64, where it is given as a number"
fn bad_count(n: u32) -> bool {
    !(2..=64).contains(&n)
}

/// the mode, unless one of the conditions holds or, with 2, there is no such mode; of several the lowest
fn accepted(mode: u32, conditions: &[(u32, bool)]) -> Answer<Mode> {
    let holding = conditions.iter().filter(|(_, holds)| *holds).map(|(number, _)| *number);
    let known = Mode::of(mode).ok_or(2);
    match holding.chain(known.err()).min() {
        Some(number) => Err(number),
        None => known,
    }
}

/// 2: "cycle count above 63, channel neither 0 (A) nor 1 (B)"
fn bad_place(cycle: u32, channel: u32) -> bool {
    cycle > 63 || channel > 1
}

/// 2: "to be written, join, sync or startup neither 0 nor 1, or startup without sync"; of join and of "a request to be written that is neither 0 nor 1"
/// where they are given
fn bad_indicators(sync: u32, startup: u32) -> bool {
    sync > 1 || startup > 1 || startup == 1 && sync == 0
}

/// 3, of request 2: "Drive bytes to be written, if odd in number or above 252"; and a frame buffer of another length than 10 bytes and theirs
fn bad_drive(drive: &[u8], frame_len: usize) -> bool {
    drive.len() % 2 == 1 || drive.len() > DRIVE_BYTES || frame_len != HEARTBEAT_BYTES + drive.len()
}

/// request 2: "the number of drive bytes, and these at the front of a lent buffer of 252 bytes; the rest of it .. stays as it came in"
fn at_front(drive: &[u8], buffer: &mut [u8]) -> u32 {
    buffer[..drive.len()].copy_from_slice(drive);
    drive.len() as u32
}

/// what `heard` says: missed is 0
fn heard_number(sign: Sign) -> u32 {
    match sign {
        Sign::Member => 1,
        Sign::Joining => 2,
        Sign::Request => 3,
    }
}

/// 1 to 3 of a heartbeat that is read or received
fn receiving(n: u32, mode: u32, bad_number: bool, drive: &[u8]) -> Answer<Mode> {
    accepted(mode, &[(1, bad_count(n)), (2, bad_number), (3, drive.len() != DRIVE_BYTES)])
}

/// a status from an answer, what is answered being stored only if nothing is refused
fn status<T>(answer: Answer<T>, store: impl FnOnce(T)) -> u32 {
    match answer {
        Ok(value) => {
            store(value);
            0
        }
        Err(number) => number,
    }
}

/// the image of a node becomes that of another state
fn change(mode: Answer<Mode>, state: &mut [u8], next: impl Fn(Mode, &Unit) -> State) -> u32 {
    let answer = mode.and_then(|mode| Ok((mode, read_image(mode, state)?)));
    status(answer, |(mode, unit)| state.copy_from_slice(&image(&Unit { state: next(mode, &unit), ..unit })))
}

/// a frame to be sent, or none
fn send(answer: Answer<Option<Vec<u8>>>, frame: &mut [u8], sent: &mut u32) -> u32 {
    status(answer, |bytes| {
        *sent = u32::from(bytes.is_some());
        if let Some(bytes) = bytes {
            frame.copy_from_slice(&bytes);
        }
    })
}

fn begin(n: u32, node: u32, founding: u64, len: usize) -> Answer<[u8; IMAGE_BYTES]> {
    refuse(&[(1, bad_count(n)), (2, node >= n), (3, len != IMAGE_BYTES)])?;
    let (n, node) = (n as usize, node as usize);
    refuse(&[(13, founding == 0 || !inside(founding, all(n)))])?;
    Ok(image(&Unit { n, node, state: beginning(n, founding)[node] }))
}

/// the place and the indicators of a heartbeat
struct Place {
    sync: u32,
    startup: u32,
    cycle: u32,
    channel: u32,
}

fn state_heartbeat(mode: u32, state: &[u8], place: Place, drive: &[u8], len: usize) -> Answer<Option<Vec<u8>>> {
    let Place { sync, startup, cycle, channel } = place;
    let mode = accepted(mode, &[(2, bad_indicators(sync, startup) || bad_place(cycle, channel)), (3, bad_drive(drive, len))])?;
    let unit = read_image(mode, state)?;
    Ok(rule2(unit.state).map(|sign| heartbeat(unit.node, sign, sync == 1, startup == 1, cycle, channel, drive)))
}

fn numbers_vote(n: u32, node: u32, vote: &Vote, cycle: u32, channel: u32, len: usize) -> Answer<Vec<u8>> {
    refuse(&[(1, bad_count(n)), (2, node >= n || bad_place(cycle, channel)), (3, len != VOTE_FRAME_BYTES)])?;
    refuse(&[(10, !vote_is_sound(n as usize, node as usize, vote))])?;
    Ok(vote_frame(node as usize, vote, cycle, channel))
}

fn state_vote(mode: u32, state: &[u8], heard: Heard, cycle: u32, channel: u32, len: usize) -> Answer<Option<Vec<u8>>> {
    let mode = accepted(mode, &[(2, bad_place(cycle, channel)), (3, len != VOTE_FRAME_BYTES)])?;
    let unit = read_image(mode, state)?;
    Ok(rule4(unit.n, unit.node, unit.state, heard, Rules::of(mode)).map(|vote| vote_frame(unit.node, &vote, cycle, channel)))
}

/// "A single cycle works on the row as lent". A buffer longer than a record of kind 2 with its count is 3, before 4 and before 12: the paper leaves open
/// whether bytes with a wrong mark or kind have a length, and this is the reading of docs/DECISIONS.md 28, "of several the lowest".
fn single_cycle(n: u32, mode: u32, row: &[u8], record: &[u8]) -> Answer<Vec<u8>> {
    let too_long = cycle_length(record).is_some_and(|len| record.len() > len);
    let mode = accepted(mode, &[(1, bad_count(n)), (3, row.len() as u64 != u64::from(n) * IMAGE_BYTES as u64 || too_long)])?;
    let n = n as usize;
    let states = read_row(mode, n, row)?;
    let (faults, _) = cycle_record(n, record)?;
    Ok(row_image(&cycle(&states, &faults, Rules::of(mode)).after))
}

/// the machine that a lent block shows, an address being given: "14 when an address above 63 is read or written, looked at after 4"
fn addressed(mode: u32, block: &[u8], address: u32) -> Answer<(Machine, usize)> {
    let machine = read_block(accepted(mode, &[])?, block)?;
    let address = address as usize;
    refuse(&[(14, address >= BLOCK_BYTES)])?;
    Ok((machine, address))
}

/// "a write": the machine after it
fn write(mode: u32, block: &[u8], address: u32, value: u8) -> Answer<Machine> {
    addressed(mode, block, address).map(|(machine, address)| written(&machine, address, value))
}

/// "a cycle", of the machine that came of what is before it; 2 for the mode and 3 for votes of another length come first
fn cycle_of(mode: u32, before: Answer<Machine>, heard: Heard, votes: &[u8], arrived: u64) -> Answer<Machine> {
    let mode = accepted(mode, &[(3, votes.len() != VOTES_BYTES)])?;
    before.map(|machine| cycled(mode, &machine, heard, votes, arrived))
}

/// a table's run: request 3's 2 depends on no record, and comes before the table is looked at
fn whole_table(mode: u32, bytes: &[u8], wrong_length: impl Fn(usize) -> bool) -> Answer<(Mode, usize, Set, Vec<Faults>)> {
    let mode = accepted(mode, &[])?;
    let (n, founding, cycles) = table(bytes, wrong_length)?;
    Ok((mode, n, founding, cycles))
}

impl NodeEnd for Paper {
    fn begin(&self, n: u32, node: u32, founding: u64, state: &mut [u8]) -> u32 {
        status(begin(n, node, founding, state.len()), |bytes| state.copy_from_slice(&bytes))
    }

    fn stop(&self, mode: u32, state: &mut [u8]) -> u32 {
        change(accepted(mode, &[]), state, |_, unit| rule1(unit.state, true, false))
    }

    fn start(&self, mode: u32, state: &mut [u8]) -> u32 {
        change(accepted(mode, &[]), state, |_, unit| rule1(unit.state, false, true))
    }

    /// "Its image has 24 bytes: kind (0 out, 1 joining, 2 member), reason, node, N, G in 4, M in 8, B in 8."
    fn state(
        &self,
        mode: u32,
        state: &[u8],
        kind: &mut u32,
        reason: &mut u32,
        node: &mut u32,
        n: &mut u32,
        number: &mut u32,
        set: &mut u64,
        base: &mut u64,
    ) -> u32 {
        status(accepted(mode, &[]).and_then(|mode| read_image(mode, state)), |_| {
            [*kind, *reason, *node, *n] = [0, 1, 2, 3].map(|k| state[k].into());
            *number = sets::number(&state[4..8]) as u32;
            [*set, *base] = [sets::number(&state[8..16]), sets::number(&state[16..24])];
        })
    }

    fn write_heartbeat(
        &self,
        n: u32,
        mode: u32,
        node: u32,
        join: u32,
        request: u32,
        sync: u32,
        startup: u32,
        cycle: u32,
        channel: u32,
        drive: &[u8],
        frame: &mut [u8],
    ) -> u32 {
        let bad_number = node >= n || join > 1 || request > 1 || bad_indicators(sync, startup) || bad_place(cycle, channel);
        let mode = accepted(mode, &[(1, bad_count(n)), (2, bad_number), (3, bad_drive(drive, frame.len()))]);
        let answer = mode.and_then(|mode| sign_of(mode, join == 1, request == 1));
        status(answer, |sign| frame.copy_from_slice(&heartbeat(node as usize, sign, sync == 1, startup == 1, cycle, channel, drive)))
    }

    fn send_heartbeat(
        &self,
        mode: u32,
        state: &[u8],
        sync: u32,
        startup: u32,
        cycle: u32,
        channel: u32,
        drive: &[u8],
        frame: &mut [u8],
        sent: &mut u32,
    ) -> u32 {
        send(state_heartbeat(mode, state, Place { sync, startup, cycle, channel }, drive, frame.len()), frame, sent)
    }

    fn read_heartbeat(
        &self,
        n: u32,
        mode: u32,
        node: u32,
        cycle: u32,
        channel: u32,
        frame: &[u8],
        drive: &mut [u8],
        join: &mut u32,
        request: &mut u32,
        drive_bytes: &mut u32,
    ) -> u32 {
        let mode = receiving(n, mode, node >= n || bad_place(cycle, channel), drive);
        let answer = mode.and_then(|mode| read_heartbeat(mode, node as usize, cycle, channel, frame));
        status(answer, |read| {
            [*join, *request] = [read.sign == Sign::Joining, read.sign == Sign::Request].map(u32::from);
            *drive_bytes = at_front(read.drive, drive);
        })
    }

    /// request 2: "or all if the frame is missed, stays as it came in"; that the number is then 0 is the reading of docs/DECISIONS.md
    fn receive_heartbeat(
        &self,
        n: u32,
        mode: u32,
        node: u32,
        cycle: u32,
        a: &[u8],
        b: &[u8],
        drive: &mut [u8],
        heard: &mut u32,
        drive_bytes: &mut u32,
    ) -> u32 {
        let mode = receiving(n, mode, node >= n || bad_place(cycle, 0), drive);
        status(mode, |mode| match receive_heartbeat(mode, node as usize, cycle, a, b) {
            None => (*heard, *drive_bytes) = (0, 0),
            Some(read) => (*heard, *drive_bytes) = (heard_number(read.sign), at_front(read.drive, drive)),
        })
    }

    fn view(&self, mode: u32, state: &[u8], heard0: u64, heard1: u64, view: &mut u64) -> u32 {
        let heard = Heard { join0: heard0, join1: heard1, requests: 0 };
        let answer = accepted(mode, &[]).and_then(|mode| Ok((mode, read_image(mode, state)?)));
        status(answer, |(mode, unit)| {
            *view = match unit.state {
                State::Member { group, .. } => rule3(unit.n, unit.node, &group, heard, Rules::of(mode)),
                _ => 0,
            }
        })
    }

    fn write_vote(&self, n: u32, node: u32, number: u32, set: u64, base: u64, view: u64, cycle: u32, channel: u32, frame: &mut [u8]) -> u32 {
        let vote = Vote { group: Group { number, set, base }, view };
        status(numbers_vote(n, node, &vote, cycle, channel, frame.len()), |bytes| frame.copy_from_slice(&bytes))
    }

    fn send_vote(
        &self,
        mode: u32,
        state: &[u8],
        heard0: u64,
        heard1: u64,
        requests: u64,
        cycle: u32,
        channel: u32,
        frame: &mut [u8],
        sent: &mut u32,
    ) -> u32 {
        let heard = Heard { join0: heard0, join1: heard1, requests };
        send(state_vote(mode, state, heard, cycle, channel, frame.len()), frame, sent)
    }

    fn read_vote(&self, n: u32, node: u32, cycle: u32, channel: u32, frame: &[u8], vote: &mut [u8]) -> u32 {
        let refusal = refuse(&[(1, bad_count(n)), (2, node >= n || bad_place(cycle, channel)), (3, vote.len() != VOTE_BYTES)]);
        let answer = refusal.and_then(|()| read_vote(n as usize, node as usize, cycle, channel, frame));
        status(answer, |read| vote.copy_from_slice(&vote_payload(&read)))
    }

    fn receive_vote(&self, n: u32, node: u32, cycle: u32, a: &[u8], b: &[u8], votes: &mut [u8], arrived: &mut u64) -> u32 {
        let refusal = refuse(&[(1, bad_count(n)), (2, node >= n || bad_place(cycle, 0)), (3, votes.len() != VOTES_BYTES)]);
        status(refusal, |()| {
            let (n, node) = (n as usize, node as usize);
            match receive_vote(n, node, cycle, a, b) {
                Some(vote) => {
                    votes[VOTE_BYTES * node..VOTE_BYTES * (node + 1)].copy_from_slice(&vote_payload(&vote));
                    *arrived |= only(node);
                }
                None => *arrived &= !only(node),
            }
        })
    }

    fn decide(&self, mode: u32, state: &mut [u8], heard0: u64, heard1: u64, requests: u64, votes: &[u8], arrived: u64) -> u32 {
        let heard = Heard { join0: heard0, join1: heard1, requests };
        change(accepted(mode, &[(3, votes.len() != VOTES_BYTES)]), state, |mode, unit| decide_on_slots(mode, unit, heard, votes, arrived))
    }

    fn cycle(&self, n: u32, mode: u32, row: &mut [u8], record: &[u8]) -> u32 {
        status(single_cycle(n, mode, row, record), |bytes| row.copy_from_slice(&bytes))
    }

    fn run(&self, mode: u32, row: &mut [u8], bytes: &[u8]) -> u32 {
        let answer = whole_table(mode, bytes, |n| row.len() != n * IMAGE_BYTES);
        status(answer, |(mode, n, founding, cycles)| row.copy_from_slice(&row_image(&run(mode, n, founding, &cycles))))
    }

    /// the place of the frames' length is that of the row's
    fn run_frames(&self, mode: u32, row: &mut [u8], bytes: &[u8], frames: &mut [u8]) -> u32 {
        let answer = whole_table(mode, bytes, |n| row.len() != n * IMAGE_BYTES || frames.len() != FRAMES_BYTES);
        status(answer, |(mode, n, founding, cycles)| {
            let (states, sent) = run_frames(mode, n, founding, &cycles);
            row.copy_from_slice(&row_image(&states));
            if let Some(sent) = sent {
                frames.copy_from_slice(&sent.shown());
            }
        })
    }

    fn register_read(&self, mode: u32, block: &[u8], address: u32, value: &mut u32) -> u32 {
        status(addressed(mode, block, address), |(machine, address)| *value = shown(&machine, address).into())
    }

    fn register_write(&self, mode: u32, block: &mut [u8], address: u32, value: u8) -> u32 {
        status(write(mode, block, address, value), |machine| block.copy_from_slice(&block_of(&machine)))
    }

    fn register_cycle(&self, mode: u32, block: &mut [u8], heard0: u64, heard1: u64, requests: u64, votes: &[u8], arrived: u64) -> u32 {
        let before = accepted(mode, &[]).and_then(|mode| read_block(mode, block));
        let answer = cycle_of(mode, before, Heard { join0: heard0, join1: heard1, requests }, votes, arrived);
        status(answer, |machine| block.copy_from_slice(&block_of(&machine)))
    }

    /// "a write and a cycle together, the write first"
    fn register_write_cycle(
        &self,
        mode: u32,
        block: &mut [u8],
        address: u32,
        value: u8,
        heard0: u64,
        heard1: u64,
        requests: u64,
        votes: &[u8],
        arrived: u64,
    ) -> u32 {
        let heard = Heard { join0: heard0, join1: heard1, requests };
        let answer = cycle_of(mode, write(mode, block, address, value), heard, votes, arrived);
        status(answer, |machine| block.copy_from_slice(&block_of(&machine)))
    }
}
