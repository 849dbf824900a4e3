//! Demand 3 and the worked examples by the paper's implementation, in both modes: over all reachable states at N 2 and 3, over few marks and cycles to N 5,
//! over random histories to N 64. That a quiet press which nobody touches sends no vote. And wrong rules: each is shown by an example, and those that break a
//! claim are found by a search. SEED and HISTORIES choose the random part.
use host::claims::{each_kept_record, each_small_record, is_silent, worked_examples, Resting, Standing};
use host::generate::{count, founding, group_number, mark};
use host::paper::checks::{bits, frame_check, header_check, header_remainder};
use host::paper::faults::{cycle, Faults};
use host::paper::frames::vote_frame;
use host::paper::mode::Mode;
use host::paper::rules::{Mistake, Rules, Vote};
use host::paper::sets::{all, only, size};
use host::paper::state::{Group, State};
use host::random::Random;
use std::collections::HashSet;

/// what is searched: N and the fault records tried
const SEARCHES: [(usize, Tried); 5] = [
    (2, Tried::All),
    (3, Tried::All),
    (4, Tried::Marks(&[3, 2, 2])),
    (5, Tried::Marks(&[2, 1, 1, 1])),
    // many marks at once, then what comes of it
    (5, Tried::Marks(&[4, 0, 0])),
];

/// what a search went through, and the first claim that failed
struct Search {
    states: usize,
    records: u64,
    depth: usize,
    resting: Resting,
    failed: Option<(&'static str, Standing, Faults)>,
}

/// which fault records are tried
#[derive(Clone, Copy)]
enum Tried {
    /// every one, until no new state is reached
    All,
    /// in cycle k those of at most the k-th number of marks
    Marks(&'static [usize]),
}

impl Tried {
    /// the most marks of a record after so many cycles, if they are limited; nothing where the search ends
    fn marks(self, depth: usize) -> Option<Option<usize>> {
        match self {
            Tried::All => Some(None),
            Tried::Marks(marks) => marks.get(depth).map(|&most| Some(most)),
        }
    }
}

/// The states that kept cycles reach from every founding set, breadth first. Every step is checked.
fn search(n: usize, tried: Tried, rules: Rules) -> Search {
    let mut level: Vec<Standing> = (1..1_u64 << n).map(|founding| Standing::beginning(n, founding)).collect();
    let mut seen: HashSet<Standing> = level.iter().cloned().collect();
    let mut result = Search { states: 0, records: 0, depth: 0, resting: Resting::default(), failed: None };
    while !level.is_empty() && result.failed.is_none() {
        let Some(marks) = tried.marks(result.depth) else { break };
        let mut next = Vec::new();
        for at in &level {
            let mut visit = |faults: &Faults| {
                if result.failed.is_some() {
                    return;
                }
                result.records += 1;
                let passed = cycle(&at.row, faults, rules);
                if rules.mode.is_quiet() {
                    result.resting += at.resting(&passed, rules);
                }
                match at.step_of(passed, faults) {
                    Err(claim) => result.failed = Some((claim, at.clone(), faults.clone())),
                    Ok(after) => {
                        let after = after.canonical();
                        if !seen.contains(&after) {
                            seen.insert(after.clone());
                            next.push(after);
                        }
                    }
                }
            };
            match marks {
                None => each_kept_record(at, &mut visit),
                Some(k) => each_small_record(at, k, &mut visit),
            }
        }
        level = next;
        result.depth += 1;
    }
    result.states = seen.len();
    result
}

fn report(n: usize, tried: Tried, mode: Mode) -> Resting {
    let began = std::time::Instant::now();
    let result = search(n, tried, Rules::of(mode));
    let press = format!("mode {}, N {n}", mode.number());
    if let Some((claim, at, faults)) = result.failed {
        println!("demand3: {press}: {claim}\n  from {at:?}\n  under {}", shown(n, &faults));
        std::process::exit(1);
    }
    let reach = match tried {
        Tried::All => "every reachable state, all fault records".to_string(),
        Tried::Marks(marks) => format!("histories of {} cycles, all fault records of at most {marks:?} marks", marks.len()),
    };
    let seconds = began.elapsed().as_secs_f64();
    println!("demand3: {press}: {reach} that keep the promise: {} states, {} cycles checked, {seconds:.1} s", result.states, result.records);
    result.resting
}

fn shown(n: usize, faults: &Faults) -> String {
    let (heartbeats, votes) = (&faults.missed_heartbeat[..n], &faults.missed_vote[..n]);
    let Faults { stop, start, lost_heartbeat, lost_vote, .. } = faults;
    format!("stop {stop:x} start {start:x} lost {lost_heartbeat:x} {lost_vote:x} missed heartbeats {heartbeats:x?} votes {votes:x?}")
}

/// what random histories met: kept cycles, strays after them, nodes that were joining and untouched, and members that rest
#[derive(Default)]
struct Met {
    kept: u64,
    strays: u64,
    joined: u64,
    resting: Resting,
}

/// random histories of presses to N 64, with as many marks as the promise bears; a claim that failed, or counts of what was met
fn histories(random: &mut Random, histories: usize, rules: Rules) -> Result<Met, String> {
    let mut met = Met::default();
    for _ in 0..histories {
        let n = count(random);
        let (founding, number) = (founding(random, n), group_number(random));
        let mut at = Standing::beginning_from(n, founding, number);
        for _ in 0..1 + random.below(30) {
            let faults = kept_faults(random, &at);
            // what the cycle before touched may be too much even for a cycle without faults
            if !at.record.keeps(faults.touched(n)) {
                break;
            }
            let passed = cycle(&at.row, &faults, rules);
            met.resting += at.resting(&passed, rules);
            at = at.step_of(passed, &faults).map_err(|claim| format!("N {n}: {claim}"))?;
            met.kept += 1;
            let group = at.record.group.expect("a kept cycle");
            met.strays += at.row.iter().filter(|state| matches!(state, State::Member { group: held, .. } if *held != group)).count() as u64;
            met.joined += u64::from(size(at.joiners));
        }
    }
    Ok(met)
}

/// faults that keep the promise: marks are added until the next would break it, or it is enough
fn kept_faults(random: &mut Random, at: &Standing) -> Faults {
    let n = at.row.len();
    let mut faults = Faults::none();
    let wanted = random.pick(&[0, 1, 2, n, 4 * n]);
    // mostly at a few nodes, so that many marks touch few
    let favourite = random.below(n);
    for _ in 0..wanted {
        let mut more = faults.clone();
        mark(random, n, &mut more);
        if random.once_in(2) {
            let (p, lost) = (random.below(n), random.bits());
            let others = lost & all(n) & !only(favourite);
            if random.once_in(2) {
                more.missed_vote[favourite] |= others;
            } else if p != favourite {
                more.missed_heartbeat[favourite] |= only(p);
            }
        }
        if at.record.keeps(more.touched(n)) {
            faults = more;
        }
    }
    if random.once_in(3) {
        faults.start |= random.bits() & all(n);
    }
    faults
}

/// The search that finds a mistake, and in which cycle; none for those that break no claim at N 2 and 3 (`breaks_nothing`) and that an example must show: with
/// them the press goes on otherwise than the rules say, or its members vote more often, and demand 3 still holds.
fn breaks(mistake: Mistake) -> Option<(Mode, (usize, Tried), usize)> {
    let [two, three, four, _, five] = SEARCHES;
    match mistake {
        Mistake::QuorumOverSet => Some((Mode::Always, five, 2)),
        Mistake::SetFromHeartbeats => Some((Mode::Quiet, four, 3)),
        Mistake::JoinIsSignOfLife => Some((Mode::Quiet, three, 3)),
        Mistake::JoinerBelievesFirst => Some((Mode::Always, four, 1)),
        // with all three as founders a fourth cycle is needed, in which one leaves first
        Mistake::OwnRequestIgnored => Some((Mode::Quiet, three, 3)),
        Mistake::ChangedSetWithoutRequest => Some((Mode::Quiet, three, 3)),
        Mistake::ViewDoesNotWake => Some((Mode::Quiet, two, 2)),
        Mistake::SilentCountsItself => Some((Mode::Quiet, two, 1)),
        Mistake::SilentInNewSet => Some((Mode::Quiet, four, 1)),
        _ => None,
    }
}

/// whether demand 3 holds with the mistake in every reachable state at N 2 and 3, in the mode that it is about
fn breaks_nothing(mistake: Mistake) -> bool {
    let mode = if mistake == Mistake::AlwaysRests { Mode::Always } else { Mode::Quiet };
    SEARCHES[..2].iter().all(|&(n, tried)| search(n, tried, Rules { mode, mistake: Some(mistake) }).failed.is_none())
}

/// the checks that find a mistake, or one that should and does not
fn finders(mistake: Mistake) -> Result<String, String> {
    let mut found: Vec<String> =
        worked_examples(Some(mistake)).iter().filter(|(_, right)| !right).map(|(name, _)| format!("example {name}")).collect();
    if found.is_empty() {
        return Err("no example".to_string());
    }
    if let Some((mode, (n, tried), cycle)) = breaks(mistake) {
        let result = search(n, tried, Rules { mode, mistake: Some(mistake) });
        let place = format!("demand 3 in mode {} at N {n}, cycle {}", mode.number(), result.depth);
        match result.failed {
            Some((claim, _, faults)) if result.depth == cycle => found.push(format!("{place} ({claim}; last faults: {})", shown(n, &faults))),
            _ => return Err(format!("{place}, and not where it is due, in cycle {cycle}")),
        }
    } else if !breaks_nothing(mistake) {
        return Err("a search that is not named".to_string());
    }
    Ok(found.join(", "))
}

/// Request 3. "A quiet press with no unit touched or started since its beginning sends no vote at all": so many presses
fn silence(random: &mut Random) -> Result<usize, String> {
    let small = (2..=6).flat_map(|n| (1..1_u64 << n).map(move |founding| (n, founding)));
    let any: Vec<(usize, u64)> = (2..=64).flat_map(|n| [(n, all(n)), (n, founding(random, n))]).collect();
    let mut presses = 0;
    for (n, founding) in small.chain(any) {
        if !is_silent(n, founding, 70, Rules::of(Mode::Quiet)) {
            return Err(format!("N {n}, founding set {founding:x}: a vote is sent, or the row changes"));
        }
        // the check itself: a press that votes in every cycle is not silent
        if is_silent(n, founding, 1, Rules::of(Mode::Always)) {
            return Err(format!("N {n}, founding set {founding:x}: no vote is sent in mode 0"));
        }
        presses += 1;
    }
    Ok(presses)
}

/// all searches and random histories of a mode, and whether the claims hold and nothing is missing that was to be met
fn claims_of(mode: Mode, seed: u64, length: u64) -> bool {
    let mut resting = Resting::default();
    for (n, tried) in SEARCHES {
        resting += report(n, tried, mode);
    }
    let number = mode.number();
    match histories(&mut Random::new(seed), length as usize, Rules::of(mode)) {
        Ok(met) => {
            let Met { kept, strays, joined, .. } = met;
            println!("demand3: mode {number}, {length} random histories to N 64: {kept} kept cycles checked, with {strays} strays and {joined} untouched joiners");
            quiet_counts("searches", mode, resting) && quiet_counts("random histories", mode, met.resting)
        }
        Err(claim) => {
            println!("demand3: mode {number}, a random history: {claim}");
            false
        }
    }
}

/// of a quiet press none of these counts is 0, of one that votes in every cycle all are
fn quiet_counts(of: &str, mode: Mode, resting: Resting) -> bool {
    let Resting { silent, halted, own_request } = resting;
    let number = mode.number();
    println!("demand3: mode {number}, {of}: {silent} members did not vote, {halted} of them halted; {own_request} strays voted because of their own request alone");
    [silent, halted, own_request].iter().all(|count| (*count > 0) == mode.is_quiet())
}

/// "Published check vectors": CRC-11/FLEXRAY, CRC-24/FLEXRAY-A and CRC-24/FLEXRAY-B over the digits 1 to 9
fn published() -> bool {
    let digits = b"123456789";
    header_remainder(bits(digits)) == 0x5a3 && [0, 1].map(|channel| frame_check(channel, digits)) == [0x7979bd, 0x1f23b8]
}

/// check values of headers and frames that other code gave
fn stored() -> bool {
    let headers = [
        (false, false, 1, 1, 0x51a),
        (false, false, 5, 1, 0x2ce),
        (true, true, 1, 1, 0x239),
        (true, false, 1, 1, 0x0d8),
        (false, false, 64, 1, 0x016),
        (false, false, 65, 14, 0x05a),
        (false, false, 128, 14, 0x721),
        (false, false, 2047, 127, 0x135),
    ];
    let vote = Vote { group: Group { number: 0, set: 0x1f, base: 0x1f }, view: 0x1f };
    let last = |channel: u32| vote_frame(0, &vote, 0, channel)[33..].to_vec();
    headers.iter().all(|&(sync, startup, number, words, check)| header_check(sync, startup, number, words) == check)
        && [0, 1].map(|channel| frame_check(channel, &[0x20, 0x01, 0x03, 0x46, 0x80, 0, 0])) == [0x74c964, 0x5249b5]
        && [0, 1].map(|channel| frame_check(channel, &[0x20, 0x05, 0x02, 0xb3, 0xbf, 0x80, 0])) == [0x2f0623, 0x0986f2]
        && [last(0), last(1)] == [vec![0x78, 0x7c, 0x62], vec![0xe3, 0x79, 0xac]]
}

fn main() {
    let number = |name: &str, default: u64| std::env::var(name).map_or(default, |text| text.parse().expect("a number"));
    let (seed, length) = (number("SEED", 1), number("HISTORIES", 3000));
    println!("demand3: seed {seed}, {length} random histories");
    let mut failed = false;
    if !published() || !stored() {
        println!("demand3: a published or stored check value comes out otherwise");
        failed = true;
    }
    let examples = worked_examples(None);
    for (name, _) in examples.iter().filter(|(_, right)| !right) {
        println!("demand3: example {name} comes out otherwise");
        failed = true;
    }
    println!("demand3: {} examples and the published and stored check values come out", examples.iter().filter(|(_, right)| *right).count());
    for mode in Mode::BOTH {
        if !claims_of(mode, seed, length) {
            println!("demand3: a claim of mode {} fails, or a count is not what it must be", mode.number());
            failed = true;
        }
    }
    match silence(&mut Random::new(seed)) {
        Ok(presses) => println!("demand3: {presses} quiet presses that nobody touches send no vote in 70 cycles"),
        Err(what) => {
            println!("demand3: silence: {what}");
            failed = true;
        }
    }
    for mistake in Mistake::OF_PAPER.into_iter().chain(Mistake::OF_QUIET) {
        let found = finders(mistake);
        let (Ok(by) | Err(by)) = &found;
        println!("demand3: mistake {mistake:?} is found by {by}");
        failed |= found.is_err();
    }
    if failed {
        std::process::exit(1);
    }
    println!("demand3: all claims hold, and every mistake is found");
}
