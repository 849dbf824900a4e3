//! "Faults", and a cycle of all nodes under them.
use super::rules::{decide, rule1, rule2, rule4, Heard, Rules, Vote};
use super::sets::{has, only, those, Set};
use super::state::State;

/// "A table gives for each cycle four masks (stop, start, heartbeat lost in sending, vote lost in sending) and, for each phase and receiver, the senders
/// missed."
#[derive(Clone, PartialEq, Eq, Debug)]
pub struct Faults {
    pub stop: Set,
    pub start: Set,
    pub lost_heartbeat: Set,
    pub lost_vote: Set,
    pub missed_heartbeat: [Set; 64],
    pub missed_vote: [Set; 64],
}

impl Faults {
    pub fn none() -> Self {
        Faults { stop: 0, start: 0, lost_heartbeat: 0, lost_vote: 0, missed_heartbeat: [0; 64], missed_vote: [0; 64] }
    }

    /// "A node is touched in a cycle if it is stopped, one of its frames is marked lost, or it is marked as missing a frame of another node."
    pub fn touched(&self, n: usize) -> Set {
        let misses = |q: usize| (self.missed_heartbeat[q] | self.missed_vote[q]) & !only(q) != 0;
        those(n, |q| has(self.stop, q) || has(self.lost_heartbeat | self.lost_vote, q) || misses(q))
    }

    /// "A frame lost in sending reaches nobody else." A missed one does not reach its receiver.
    pub fn heartbeat_reaches(&self, from: usize, to: usize) -> bool {
        from == to || !has(self.lost_heartbeat, from) && !has(self.missed_heartbeat[to], from)
    }

    pub fn vote_reaches(&self, from: usize, to: usize) -> bool {
        from == to || !has(self.lost_vote, from) && !has(self.missed_vote[to], from)
    }
}

/// the row after rule 1
pub fn after_rule1(row: &[State], faults: &Faults) -> Vec<State> {
    row.iter().enumerate().map(|(q, &state)| rule1(state, has(faults.stop, q), has(faults.start, q))).collect()
}

/// rule 2: what each node hears
pub fn all_heard(row: &[State], faults: &Faults) -> Vec<Heard> {
    let hears = |to: usize| {
        let mut heard = Heard::default();
        for from in (0..row.len()).filter(|&from| faults.heartbeat_reaches(from, to)) {
            rule2(row[from]).into_iter().for_each(|sign| heard.hear(from, sign));
        }
        heard
    };
    (0..row.len()).map(hears).collect()
}

/// rules 3 and 4: the vote of each node that votes
pub fn all_votes(row: &[State], heard: &[Heard], rules: Rules) -> Vec<Option<Vote>> {
    (0..row.len()).map(|q| rule4(row.len(), q, row[q], heard[q], rules)).collect()
}

/// the votes that arrive at a node
pub fn arriving(votes: &[Option<Vote>], faults: &Faults, to: usize) -> Vec<Option<Vote>> {
    votes.iter().enumerate().map(|(from, vote)| vote.filter(|_| faults.vote_reaches(from, to))).collect()
}

/// a cycle of all nodes: the row after rule 1, what each node hears and votes, and the row at the end
pub struct Cycle {
    pub stood: Vec<State>,
    pub heard: Vec<Heard>,
    pub votes: Vec<Option<Vote>>,
    pub after: Vec<State>,
}

/// rules 1 to 6 of all nodes
pub fn cycle(row: &[State], faults: &Faults, rules: Rules) -> Cycle {
    let stood = after_rule1(row, faults);
    let heard = all_heard(&stood, faults);
    let votes = all_votes(&stood, &heard, rules);
    let after = (0..row.len()).map(|q| decide(row.len(), q, stood[q], heard[q], &arriving(&votes, faults, q), rules)).collect();
    Cycle { stood, heard, votes, after }
}
