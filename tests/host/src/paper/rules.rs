//! "One cycle", rule by rule, for one node, in both modes.
use super::mode::Mode;
use super::sets::{all, has, only, size, those, Set};
use super::state::{Group, Reason, State};

/// rules with something wrong in them, each of which can be switched on to see that it is found
#[derive(Clone, Copy, PartialEq, Eq, Debug)]
pub enum Mistake {
    // "Mistakes an engineer makes here"
    /// "A quorum over M alone"
    QuorumOverSet,
    /// "The new set taken from heartbeats"
    SetFromHeartbeats,
    /// "A join heartbeat of a present member taken as a sign of life"
    JoinIsSignOfLife,
    /// "A joiner that believes the first vote it hears."
    JoinerBelievesFirst,

    // of request 3: who votes
    /// the own request does not make a member vote
    OwnRequestIgnored,
    /// a request wakes whoever hears it, also from outside M
    AnyRequestWakes,
    /// a V that differs from M does not make a member vote
    ViewDoesNotWake,
    /// a press that votes in every cycle rests as a quiet one does
    AlwaysRests,

    // who requests in the next cycle
    /// no request after rule 6
    EntersWithoutRequest,
    /// no request after a set that changed while V was M
    ChangedSetWithoutRequest,
    /// no request after a V that differed while the set stayed: only votes that condition 10 would refuse lead there
    DifferedViewWithoutRequest,
    /// whoever requested once goes on requesting
    RequestNeverEnds,

    // a member that did not vote
    /// it never halts
    SilentNeverHalts,
    /// it halts with reason 1
    SilentHaltsWithReason1,
    /// it halts only for another V than its own
    SilentSparedByItsView,
    /// it counts a vote for its V, which it did not send
    SilentCountsItself,
    /// its base stays
    SilentKeepsBase,
    /// it is in the new set of those who voted
    SilentInNewSet,
}

impl Mistake {
    /// those of the paper, and those of request 3
    pub const OF_PAPER: [Mistake; 4] = [Mistake::QuorumOverSet, Mistake::SetFromHeartbeats, Mistake::JoinIsSignOfLife, Mistake::JoinerBelievesFirst];
    pub const OF_QUIET: [Mistake; 14] = [
        Mistake::OwnRequestIgnored,
        Mistake::AnyRequestWakes,
        Mistake::ViewDoesNotWake,
        Mistake::AlwaysRests,
        Mistake::EntersWithoutRequest,
        Mistake::ChangedSetWithoutRequest,
        Mistake::DifferedViewWithoutRequest,
        Mistake::RequestNeverEnds,
        Mistake::SilentNeverHalts,
        Mistake::SilentHaltsWithReason1,
        Mistake::SilentSparedByItsView,
        Mistake::SilentCountsItself,
        Mistake::SilentKeepsBase,
        Mistake::SilentInNewSet,
    ];
}

/// the rules of a mode, right or with a mistake
#[derive(Clone, Copy, Debug)]
pub struct Rules {
    pub mode: Mode,
    pub mistake: Option<Mistake>,
}

impl Rules {
    pub fn of(mode: Mode) -> Rules {
        Rules { mode, mistake: None }
    }

    fn have(self, mistake: Mistake) -> bool {
        self.mistake == Some(mistake)
    }

    /// whether members may rest
    fn rest(self) -> bool {
        self.mode.is_quiet() || self.have(Mistake::AlwaysRests)
    }
}

/// what a heartbeat says: join 0, join 1, and in a quiet press join 0 with a request
#[derive(Clone, Copy, PartialEq, Eq, Debug)]
pub enum Sign {
    Member,
    Joining,
    Request,
}

/// the heartbeats that reached a node, by their join bit; and those of them that request
#[derive(Clone, Copy, PartialEq, Eq, Debug, Default)]
pub struct Heard {
    pub join0: Set,
    pub join1: Set,
    pub requests: Set,
}

impl Heard {
    /// a heartbeat of node q is heard
    pub fn hear(&mut self, q: usize, sign: Sign) {
        match sign {
            Sign::Member => self.join0 |= only(q),
            Sign::Joining => self.join1 |= only(q),
            Sign::Request => (self.join0, self.requests) = (self.join0 | only(q), self.requests | only(q)),
        }
    }
}

/// rule 4: "A member's vote is G, M, B and V."
#[derive(Clone, Copy, PartialEq, Eq, Debug)]
pub struct Vote {
    pub group: Group,
    pub view: Set,
}

/// Rule 1. "Stop: the node becomes out with reason 0. Then start: an out node becomes joining; others do not change."
pub fn rule1(state: State, stop: bool, start: bool) -> State {
    let stopped = if stop { State::Out(Reason::Stopped) } else { state };
    match stopped {
        State::Out(_) if start => State::Joining,
        other => other,
    }
}

/// Rule 2. "a member sends one with join 0, a joining node with join 1, an out node nothing"; request 3: "bit 6 of a heartbeat's first byte becomes a
/// request"
pub fn rule2(state: State) -> Option<Sign> {
    match state {
        State::Member { request: false, .. } => Some(Sign::Member),
        State::Member { request: true, .. } => Some(Sign::Request),
        State::Joining => Some(Sign::Joining),
        State::Out(_) => None,
    }
}

/// Rule 3. "itself, the members of M heard with join 0, and the nodes outside M heard with join 1. Every other heartbeat counts for nothing, and so does
/// a heard bit at N or above."
pub fn rule3(n: usize, node: usize, group: &Group, heard: Heard, rules: Rules) -> Set {
    let mut view = only(node) | heard.join0 & group.set | heard.join1 & !group.set;
    if rules.have(Mistake::JoinIsSignOfLife) {
        view |= heard.join1 & group.set;
    }
    view & all(n)
}

/// Request 3. "In this mode a member votes exactly when its V differs from M, or a member of M heard, or it itself, requests."
fn will_vote(n: usize, node: usize, group: &Group, request: bool, view: Set, heard: Heard, rules: Rules) -> bool {
    let among = if rules.have(Mistake::AnyRequestWakes) { all(n) } else { group.set };
    let differs = view != group.set && !rules.have(Mistake::ViewDoesNotWake);
    let called = heard.requests & heard.join0 & among & !only(node) != 0;
    let itself = request && !rules.have(Mistake::OwnRequestIgnored);
    !rules.rest() || differs || called || itself
}

/// Rule 4. "A member's vote is G, M, B and V. Joining nodes do not vote."; in a quiet press a member may rest
pub fn rule4(n: usize, node: usize, state: State, heard: Heard, rules: Rules) -> Option<Vote> {
    let State::Member { group, request } = state else { return None };
    let view = rule3(n, node, &group, heard, rules);
    will_vote(n, node, &group, request, view, heard, rules).then_some(Vote { group, view })
}

/// "twice its count is more than the size of B"
fn has_quorum(count: u32, group: &Group, rules: Rules) -> bool {
    let of = if rules.have(Mistake::QuorumOverSet) { group.set } else { group.base };
    2 * count > size(of)
}

/// "its new set is the senders whose counted vote has that V, and V without M. The new base is the new set with M added. G stays if the set is the same,
/// else grows by one; the number after 4294967295 is 0."
fn next_group(vote: &Vote, senders: Set, rules: Rules) -> Group {
    let old = vote.group;
    let mut set = senders | vote.view & !old.set;
    if rules.have(Mistake::SetFromHeartbeats) {
        set = vote.view;
    }
    Group { number: if set == old.set { old.number } else { old.number.wrapping_add(1) }, set, base: set | old.set }
}

/// the senders whose vote is this one
fn senders_of(votes: &[Option<Vote>], vote: &Vote) -> Set {
    votes.iter().enumerate().filter(|(_, v)| **v == Some(*vote)).fold(0, |set, (q, _)| set | only(q))
}

/// "from senders in M .., the votes with its own G, M and B", of others
fn counted_of_others(node: usize, group: &Group, votes: &[Option<Vote>]) -> Vec<Option<Vote>> {
    (0..votes.len()).map(|q| votes[q].filter(|vote| q != node && has(group.set, q) && vote.group == *group)).collect()
}

/// "Some V has a quorum if twice its count is more than the size of B."
fn with_quorum<'a>(counted: &'a [Option<Vote>], group: &Group, rules: Rules) -> Option<&'a Vote> {
    counted.iter().flatten().find(|vote| has_quorum(size(senders_of(counted, vote)), group, rules))
}

/// Rule 5, of a member that holds `own.group` and voted `own`; `votes` are those that arrived, one place per node.
fn rule5(node: usize, own: &Vote, request: bool, votes: &[Option<Vote>], rules: Rules) -> State {
    let mut counted = counted_of_others(node, &own.group, votes);
    // "and its own always included"
    counted[node] = Some(*own);
    match with_quorum(&counted, &own.group, rules) {
        // "halts with reason 1 exactly when no V has a quorum"
        None => State::Out(Reason::NoQuorum),
        // "with reason 2 when one has but is not its own V"
        Some(vote) if vote.view != own.view => State::Out(Reason::Outvoted),
        Some(vote) => {
            let kept = if rules.have(Mistake::SilentInNewSet) { silent_members(own, &counted, rules) } else { 0 };
            goes_on(own, request, next_group(vote, senders_of(&counted, vote) | kept, rules), rules)
        }
    }
}

/// in a quiet press the members heard of which no vote counts
fn silent_members(own: &Vote, counted: &[Option<Vote>], rules: Rules) -> Set {
    let without_vote = those(counted.len(), |q| rules.rest() && counted[q].is_none());
    own.view & own.group.set & without_vote
}

/// Request 3. "It requests in the cycle after one in which its V differed from M, its set changed"
fn goes_on(own: &Vote, requested: bool, group: Group, rules: Rules) -> State {
    let differed = own.view != own.group.set && !rules.have(Mistake::DifferedViewWithoutRequest);
    let changed = group.set != own.group.set && !rules.have(Mistake::ChangedSetWithoutRequest);
    let never_ends = requested && rules.have(Mistake::RequestNeverEnds);
    State::Member { group, request: rules.rest() && (differed || changed || never_ends) }
}

/// Request 3. "A member that did not vote halts with reason 2 if it heard a quorum of equal votes with its own G, M and B; otherwise it keeps G and M, and B
/// becomes M."
fn silent(node: usize, group: &Group, view: Set, votes: &[Option<Vote>], rules: Rules) -> State {
    let mut counted = counted_of_others(node, group, votes);
    if rules.have(Mistake::SilentCountsItself) {
        counted[node] = Some(Vote { group: *group, view });
    }
    let heard_quorum = with_quorum(&counted, group, rules).is_some_and(|vote| !rules.have(Mistake::SilentSparedByItsView) || vote.view != view);
    if heard_quorum && !rules.have(Mistake::SilentNeverHalts) {
        let reason = if rules.have(Mistake::SilentHaltsWithReason1) { Reason::NoQuorum } else { Reason::Outvoted };
        return State::Out(reason);
    }
    let base = if rules.have(Mistake::SilentKeepsBase) { group.base } else { group.set };
    State::Member { group: Group { base, ..*group }, request: false }
}

/// Rule 6. "it fits if the node is in its V and not in its M, and twice the number of equal votes from senders in its M is more than the size of its B"
pub fn fits(node: usize, vote: &Vote, votes: &[Option<Vote>], rules: Rules) -> bool {
    let equal = size(senders_of(votes, vote) & vote.group.set);
    let believed = rules.have(Mistake::JoinerBelievesFirst);
    has(vote.view, node) && !has(vote.group.set, node) && (believed || has_quorum(equal, &vote.group, rules))
}

/// Rule 6. "If exactly one vote value fits, the node becomes a member with new set, base and G as in 5; else it stays joining."
fn rule6(node: usize, votes: &[Option<Vote>], rules: Rules) -> State {
    // "The own bit is not looked at."
    let votes: Vec<Option<Vote>> = (0..votes.len()).map(|q| votes[q].filter(|_| q != node)).collect();
    let mut values: Vec<Vote> = Vec::new();
    for vote in votes.iter().flatten() {
        if rules.have(Mistake::JoinerBelievesFirst) && !values.is_empty() {
            break;
        }
        if fits(node, vote, &votes, rules) && !values.contains(vote) {
            values.push(*vote);
        }
    }
    match values[..] {
        [vote] => {
            let group = next_group(&vote, senders_of(&votes, &vote) & vote.group.set, rules);
            // request 3: "It requests in the cycle after one in which .. rule 6 made it a member."
            State::Member { group, request: rules.rest() && !rules.have(Mistake::EntersWithoutRequest) }
        }
        _ => State::Joining,
    }
}

/// Rules 5 and 6, for a node in any state; a node that is out stays so.
pub fn decide(n: usize, node: usize, state: State, heard: Heard, votes: &[Option<Vote>], rules: Rules) -> State {
    match (state, rule4(n, node, state, heard, rules)) {
        (State::Member { request, .. }, Some(own)) => rule5(node, &own, request, votes, rules),
        (State::Member { group, .. }, None) => silent(node, &group, rule3(n, node, &group, heard, rules), votes, rules),
        (State::Joining, _) => rule6(node, votes, rules),
        (State::Out(_), _) => state,
    }
}
