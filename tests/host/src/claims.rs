//! What is claimed of the rules: demand 3 over histories in both modes, and the worked examples. The premise and the terms of demand 3 are those of the
//! paper ("Faults" and "Over what does demand 3 run?"); its claims are taken from the plain words of docs/CLAIMS.md.
use crate::paper::faults::{cycle, Cycle, Faults};
use crate::paper::mode::Mode;
use crate::paper::printed::printed_by;
use crate::paper::record::Record;
use crate::paper::rules::{decide, rule4, Heard, Mistake, Rules, Vote};
use crate::paper::sets::{all, has, only, size, those, Set};
use crate::paper::state::{beginning, beginning_from, Group, Reason, State};
use crate::paper::table::{write_cycle, write_first};

/// a press after some cycles that all kept the promise
#[derive(Clone, PartialEq, Eq, Hash, Debug)]
pub struct Standing {
    pub row: Vec<State>,
    pub record: Record,
    /// the nodes that were joining as the heartbeats of the last cycle went out, and untouched in it
    pub joiners: Set,
}

impl Standing {
    pub fn beginning(n: usize, founding: Set) -> Standing {
        Standing { row: beginning(n, founding), record: Record::beginning(founding), joiners: 0 }
    }

    /// the beginning with another group number, as P10 has it
    pub fn beginning_from(n: usize, founding: Set, number: u32) -> Standing {
        let group = Some(Group { number, set: founding, base: founding });
        Standing { row: beginning_from(n, founding, number), record: Record { group, touched_before: 0 }, joiners: 0 }
    }

    /// One cycle that keeps the promise, and the claims of demand 3 about it. Where one fails, the claim.
    pub fn step(&self, faults: &Faults, rules: Rules) -> Result<Standing, &'static str> {
        self.step_of(cycle(&self.row, faults, rules), faults)
    }

    /// the same of a cycle that is there already
    pub fn step_of(&self, passed: Cycle, faults: &Faults) -> Result<Standing, &'static str> {
        let n = self.row.len();
        let touched = faults.touched(n);
        let Cycle { stood, after: row, .. } = passed;
        let record = self.record.after(&row, faults);
        let before = self.record.group.ok_or("the group of record was undefined")?;
        let after = record.group.ok_or("a kept cycle gives no group of record")?;
        for q in 0..n {
            let untouched = !has(touched, q);
            match row[q] {
                // agreement: a member that was untouched holds the group of record; so one with another set was touched
                State::Member { group, .. } if untouched && group != after => return Err("an untouched member holds another group"),
                State::Member { .. } => {}
                // a node that is joining as the heartbeats go out, untouched in that cycle and in the next, is a member after the second (and agrees)
                _ if untouched && has(self.joiners, q) => return Err("a joiner untouched in two cycles is no member"),
                _ => {}
            }
            // a member with another set than the group of record halts, or is stopped, in the next cycle
            let stray = matches!(self.row[q], State::Member { group, .. } if group.set != before.set);
            let halted = matches!(row[q], State::Out(Reason::NoQuorum | Reason::Outvoted));
            if stray && !has(faults.stop, q) && !halted {
                return Err("a unit with another set goes on");
            }
        }
        let joiners = those(n, |q| stood[q] == State::Joining && !has(touched, q));
        Ok(Standing { row, record, joiners })
    }

    /// The same up to what no rule tells apart: group numbers are counted from that of the group of record, and an out node has no reason.
    pub fn canonical(&self) -> Standing {
        let from = self.record.group.map_or(0, |group| group.number);
        let shift = |group: Group| Group { number: group.number.wrapping_sub(from), ..group };
        let plain = |state: &State| match *state {
            State::Member { group, request } => State::Member { group: shift(group), request },
            State::Out(_) => State::Out(Reason::Stopped),
            State::Joining => State::Joining,
        };
        let record = Record { group: self.record.group.map(shift), ..self.record };
        Standing { row: self.row.iter().map(plain).collect(), record, joiners: self.joiners }
    }

    /// the members with another set than the group of record
    fn strays(&self) -> Set {
        let of_record = self.record.group.map(|group| group.set);
        those(self.row.len(), |q| matches!(self.row[q], State::Member { group, .. } if Some(group.set) != of_record))
    }

    /// what a cycle from here shows of members that may rest
    pub fn resting(&self, passed: &Cycle, rules: Rules) -> Resting {
        let n = self.row.len();
        let member = |q: usize| matches!(passed.stood[q], State::Member { .. });
        let silent = those(n, |q| member(q) && passed.votes[q].is_none());
        let halted = those(n, |q| has(silent, q) && matches!(passed.after[q], State::Out(_)));
        // whoever would not have voted without its own request
        let own = |q: usize| passed.votes[q].is_some() && rule4(n, q, without_request(passed.stood[q]), passed.heard[q], rules).is_none();
        let strays = self.strays();
        let woken = those(n, |q| has(strays, q) && own(q));
        Resting { silent: size(silent).into(), halted: size(halted).into(), own_request: size(woken).into() }
    }
}

/// members that did not vote, those of them that halted, and strays that voted because of their own request alone
#[derive(Clone, Copy, Default)]
pub struct Resting {
    pub silent: u64,
    pub halted: u64,
    pub own_request: u64,
}

impl std::ops::AddAssign for Resting {
    fn add_assign(&mut self, more: Resting) {
        *self = Resting { silent: self.silent + more.silent, halted: self.halted + more.halted, own_request: self.own_request + more.own_request };
    }
}

fn without_request(state: State) -> State {
    match state {
        State::Member { group, .. } => State::Member { group, request: false },
        other => other,
    }
}

/// Request 3. "A quiet press with no unit touched or started since its beginning sends no vote at all": and it stays as it began.
pub fn is_silent(n: usize, founding: Set, cycles: usize, rules: Rules) -> bool {
    let begun = beginning(n, founding);
    let mut row = begun.clone();
    (0..cycles).all(|_| {
        // a start of a member does nothing
        let passed = cycle(&row, &Faults { start: founding, ..Faults::none() }, rules);
        row = passed.after;
        passed.votes.iter().all(Option::is_none) && row == begun
    })
}

/// the marks that touch node q of n, by number: stop, its heartbeat lost, its vote lost, then for each other node its heartbeat and its vote missed
pub fn touching_marks(n: usize) -> usize {
    3 + 2 * (n - 1)
}

pub fn set_mark(n: usize, q: usize, mark: usize, faults: &mut Faults) {
    let other = |k: usize| only((q + 1 + k / 2) % n);
    match mark {
        0 => faults.stop |= only(q),
        1 => faults.lost_heartbeat |= only(q),
        2 => faults.lost_vote |= only(q),
        _ if mark % 2 == 1 => faults.missed_heartbeat[q] |= other(mark - 3),
        _ => faults.missed_vote[q] |= other(mark - 3),
    }
}

/// Every fault record that keeps the promise, up to a start of a node that is not out, which changes nothing.
pub fn each_kept_record(at: &Standing, visit: &mut dyn FnMut(&Faults)) {
    let n = at.row.len();
    for touched in (0..1 << n).filter(|touched| at.record.keeps(*touched)) {
        touch_from(at, touched, 0, &mut Faults::none(), visit);
    }
}

/// every way to touch exactly the nodes of `touched` from q on, then every start
fn touch_from(at: &Standing, touched: Set, q: usize, faults: &mut Faults, visit: &mut dyn FnMut(&Faults)) {
    let n = at.row.len();
    if q == n {
        let out = those(n, |q| has(faults.stop, q) || matches!(at.row[q], State::Out(_)));
        // all parts of `out`
        let mut part: Set = 0;
        loop {
            faults.start = part;
            visit(faults);
            part = part.wrapping_sub(out) & out;
            if part == 0 {
                break;
            }
        }
        faults.start = 0;
    } else if has(touched, q) {
        for bits in 1..1_u32 << touching_marks(n) {
            let mut marked = faults.clone();
            (0..touching_marks(n)).filter(|mark| bits >> mark & 1 == 1).for_each(|mark| set_mark(n, q, mark, &mut marked));
            touch_from(at, touched, q + 1, &mut marked, visit);
        }
    } else {
        touch_from(at, touched, q + 1, faults, visit);
    }
}

/// every fault record with at most k marks, starts included, that keeps the promise
pub fn each_small_record(at: &Standing, k: usize, visit: &mut dyn FnMut(&Faults)) {
    more_marks(at, k, 0, &Faults::none(), visit);
}

fn more_marks(at: &Standing, k: usize, from: usize, faults: &Faults, visit: &mut dyn FnMut(&Faults)) {
    let n = at.row.len();
    // a mark more never makes a broken cycle a kept one
    if !at.record.keeps(faults.touched(n)) {
        return;
    }
    visit(faults);
    if k == 0 {
        return;
    }
    let per_node = touching_marks(n) + 1;
    for mark in from..n * per_node {
        let (q, which) = (mark / per_node, mark % per_node);
        let mut marked = faults.clone();
        if which + 1 == per_node {
            marked.start |= only(q);
        } else {
            set_mark(n, q, which, &mut marked);
        }
        more_marks(at, k - 1, mark + 1, &marked, visit);
    }
}

// the worked examples

fn member(number: u32, set: Set, base: Set) -> State {
    State::Member { group: Group { number, set, base }, request: false }
}

/// a member that will request
fn requesting(number: u32, set: Set, base: Set) -> State {
    State::Member { group: Group { number, set, base }, request: true }
}

const STOPPED: State = State::Out(Reason::Stopped);
const NO_QUORUM: State = State::Out(Reason::NoQuorum);
const OUTVOTED: State = State::Out(Reason::Outvoted);

fn stopping(set: Set) -> Faults {
    Faults { stop: set, ..Faults::none() }
}

/// the paper's run: "2: heartbeat of node 4 lost in sending; 3: start node 4; 4: vote of node 0 lost in sending"
pub fn p1_table() -> Vec<u8> {
    let none = Faults::none;
    let cycles = [none(), Faults { lost_heartbeat: 0x10, ..none() }, Faults { start: 0x10, ..none() }, Faults { lost_vote: 1, ..none() }, none()];
    let mut table = write_first(5, 0x1f);
    cycles.iter().for_each(|faults| table.extend(write_cycle(faults)));
    table
}

pub const P1_PRINTED: &str = "cycle promise group set halted entered
1 kept 0 000000000000001f 0000000000000000 0000000000000000
2 kept 1 000000000000000f 0000000000000010 0000000000000000
3 kept 2 000000000000001f 0000000000000000 0000000000000010
4 kept 3 000000000000001e 0000000000000000 0000000000000000
5 kept 3 000000000000001e 0000000000000001 0000000000000000
";

/// the worked examples in both modes: whether each comes out as the paper or the request says
pub fn worked_examples(mistake: Option<Mistake>) -> Vec<(&'static str, bool)> {
    let [always, quiet] = Mode::BOTH.map(|mode| Rules { mode, mistake });
    [paper_examples(always), shown_mistakes(always), quiet_examples(quiet), quiet_decisions(quiet)].concat()
}

/// "Proved examples" P1 to P10
fn paper_examples(rules: Rules) -> Vec<(&'static str, bool)> {
    let step = |row: &[State], faults: &Faults| cycle(row, faults, rules).after;
    let sets = |row: &[State]| -> Vec<Set> { row.iter().map(|state| if let State::Member { group, .. } = state { group.set } else { 0 }).collect() };
    let whole = |n: usize| beginning(n, all(n));
    let stopped = STOPPED;

    let p2 = step(&whole(2), &Faults { lost_heartbeat: 2, ..Faults::none() });
    let p3 = step(&whole(3), &stopping(4));
    let p4 = step(&p3, &stopping(2));
    let p5 = step(&beginning(2, 1), &Faults::none());
    let p6 = step(&whole(5), &Faults { stop: 0x10, start: 0x10, ..Faults::none() });
    let p6_after = step(&p6, &Faults::none());
    let p7 = step(&whole(9), &stopping(0x1e0));
    let p8 = step(&whole(9), &stopping(0x1f0));
    let mut missing = Faults::none();
    (0..4).for_each(|q| missing.missed_vote[q] = 0x1e0);
    let p9 = step(&whole(9), &missing);
    let p9_after = step(&p9, &Faults::none());
    let p10 = step(&beginning_from(3, 7, u32::MAX), &stopping(4));

    vec![
        ("P1", printed_by(&p1_table(), rules) == P1_PRINTED),
        ("P2", p2 == [NO_QUORUM; 2]),
        ("P3", sets(&p3) == [3, 3, 0] && p3[2] == stopped),
        ("P4", p4 == [NO_QUORUM, stopped, stopped]),
        ("P5", p5 == [member(0, 1, 1), stopped]),
        ("P6", sets(&p6)[..4] == [0xf; 4] && p6[4] == State::Joining && sets(&p6_after) == [0x1f; 5]),
        ("P7", sets(&p7) == [0x1f, 0x1f, 0x1f, 0x1f, 0x1f, 0, 0, 0, 0]),
        ("P8", p8[..4] == [NO_QUORUM; 4] && p8[4..] == [stopped; 5]),
        (
            "P9",
            sets(&p9) == [0x1f, 0x1f, 0x1f, 0x1f, 0x1ff, 0x1ff, 0x1ff, 0x1ff, 0x1ff]
                && p9_after[..4] == [NO_QUORUM; 4]
                && sets(&p9_after)[4..] == [0x1f0; 5],
        ),
        ("P10", p10 == [member(0, 3, 7), member(0, 3, 7), stopped]),
    ]
}

/// two more, that show mistakes 3 and 4 of the paper
fn shown_mistakes(rules: Rules) -> Vec<(&'static str, bool)> {
    let step = |row: &[State], faults: &Faults| cycle(row, faults, rules).after;
    // five nodes, node 4 stopped and started, node 3 misses its heartbeat: node 3 stays
    let mut unheard = Faults { stop: 0x10, start: 0x10, ..Faults::none() };
    unheard.missed_heartbeat[3] = 0x10;
    let x1 = step(&beginning(5, all(5)), &unheard);
    // six nodes of which five found: the vote of node 0 is lost, and node 5 starts in the next cycle: it holds what 1 to 4 hold, not what node 0 votes
    let mut x2 = step(&beginning(6, 0x1f), &Faults { lost_vote: 1, ..Faults::none() });
    x2 = step(&x2, &Faults { start: 0x20, ..Faults::none() });
    vec![
        ("P6 with node 3 missing the join heartbeat", x1[..4] == [member(1, 0xf, 0x1f); 4] && x1[4] == State::Joining),
        ("a joiner beside a stray of lower number", x2[0] == NO_QUORUM && x2[1..] == [member(2, 0x3e, 0x3e); 5]),
    ]
}

/// the nodes that vote in a cycle
fn voters(passed: &Cycle) -> Set {
    those(passed.votes.len(), |q| passed.votes[q].is_some())
}

/// a quiet press from a row through cycles
fn quiet_press(row: Vec<State>, faults: &[Faults], rules: Rules) -> Vec<Cycle> {
    let mut row = row;
    let mut passed = Vec::new();
    for faults in faults {
        let one = cycle(&row, faults, rules);
        row = one.after.clone();
        passed.push(one);
    }
    passed
}

/// a cycle in which one node misses frames of others
fn missing(receiver: usize, heartbeats: Set, votes: Set) -> Faults {
    let mut faults = Faults::none();
    faults.missed_heartbeat[receiver] = heartbeats;
    faults.missed_vote[receiver] = votes;
    faults
}

/// quiet presses, from their beginning and from rows that are lent: who voted, and the row
fn quiet_examples(rules: Rules) -> Vec<(&'static str, bool)> {
    let none = Faults::none;
    let lost = |set: Set| Faults { lost_heartbeat: set, ..none() };
    let start = |set: Set| Faults { start: set, ..none() };
    let press = |n: usize, founding: Set, faults: &[Faults]| quiet_press(beginning(n, founding), faults, rules);

    let silent_halts = press(3, 7, &[lost(2)]);
    let entering = press(2, 2, &[start(1), none(), none()]);
    let heard = press(3, 7, &[Faults { lost_heartbeat: 4, ..missing(2, 0, 2) }, none()]);
    let own = press(3, 7, &[stopping(2), start(2), missing(2, 0, 2), none()]);
    let unheard = press(4, 7, &[Faults { start: 8, ..missing(2, 8, 0) }]);
    let rests = quiet_press(vec![member(5, 3, 7), member(5, 3, 7), STOPPED], &[none()], rules);
    let outside = quiet_press(vec![member(0, 3, 3), member(0, 3, 3), requesting(0, 12, 12), requesting(0, 12, 12)], &[missing(1, 12, 0)], rules);

    vec![
        ("quiet P1", printed_by(&p1_table(), rules) == P1_PRINTED),
        ("a silent member halts", voters(&silent_halts[0]) == 5 && silent_halts[0].after == [requesting(1, 5, 7), OUTVOTED, requesting(1, 5, 7)]),
        (
            "who entered requests, votes, and rests",
            entering[0].after == [requesting(1, 3, 3); 2]
                && voters(&entering[1]) == 3
                && voters(&entering[2]) == 0
                && entering[2].after == [member(1, 3, 3); 2],
        ),
        (
            "a request that is heard makes a stray vote",
            heard[0].after == [requesting(1, 3, 7), requesting(1, 3, 7), member(0, 7, 7)] && voters(&heard[1]) == 7 && heard[1].after[2] == NO_QUORUM,
        ),
        (
            "the own request makes a stray vote",
            own[2].after == [member(2, 7, 7), member(2, 7, 7), requesting(3, 5, 7)] && voters(&own[3]) == 7 && own[3].after[2] == NO_QUORUM,
        ),
        (
            "a silent member is in no new set",
            voters(&unheard[0]) == 3 && unheard[0].after == [requesting(1, 0xb, 0xf), requesting(1, 0xb, 0xf), OUTVOTED, requesting(1, 0xb, 0xf)],
        ),
        ("the base of a silent member becomes its set", rests[0].after == [member(5, 3, 3), member(5, 3, 3), STOPPED]),
        ("a request from outside the set counts for nothing", voters(&outside[0]) == 12 && outside[0].after[..2] == [member(0, 3, 3); 2]),
    ]
}

/// what node 0 of three decides on given votes: it heard all and did not vote, or it did not hear node 2 and all three vote for its view
fn quiet_decisions(rules: Rules) -> Vec<(&'static str, bool)> {
    let vote = |view: Set| Some(Vote { group: Group { number: 0, set: 7, base: 7 }, view });
    let decided = |join0: Set, votes: &[Option<Vote>]| decide(3, 0, member(0, 7, 7), Heard { join0, ..Heard::default() }, votes, rules);
    vec![
        ("a quorum for its own view puts a silent member out", decided(6, &[None, vote(7), vote(7)]) == OUTVOTED),
        ("a silent member counts no vote of its own", decided(6, &[None, vote(7), None]) == member(0, 7, 7)),
        ("a view that differed requests where the set stays", decided(2, &[None, vote(3), vote(3)]) == requesting(0, 7, 7)),
    ]
}
