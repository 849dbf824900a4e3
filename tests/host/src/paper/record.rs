//! The group of record and the promise.
use super::faults::Faults;
use super::sets::{nodes, size, Set};
use super::state::{Group, State};

#[derive(Clone, Copy, PartialEq, Eq, Hash, PartialOrd, Ord, Debug)]
pub struct Record {
    /// undefined from the first broken cycle on
    pub group: Option<Group>,
    pub touched_before: Set,
}

impl Record {
    /// "The group of record is the founding set at first"; "No node is touched before cycle 1."
    pub fn beginning(founding: Set) -> Self {
        Record { group: Some(Group { number: 0, set: founding, base: founding }), touched_before: 0 }
    }

    /// "the nodes in the group of record, untouched in this cycle and the one before"
    pub fn steady(group: &Group, touched: Set, touched_before: Set) -> Set {
        group.set & !touched & !touched_before
    }

    /// "A cycle keeps the promise if the nodes in the group of record, untouched in this cycle and the one before, are more than half of its base."
    pub fn keeps(&self, touched: Set) -> bool {
        self.group.is_some_and(|group| 2 * size(Record::steady(&group, touched, self.touched_before)) > size(group.base))
    }

    /// "after each cycle what the rules give the lowest-numbered node of it that was untouched in that cycle and the one before"; "From the first cycle
    /// that does not, the group of record is undefined for good". `row` is the row after the cycle.
    pub fn after(&self, row: &[State], faults: &Faults) -> Record {
        let touched = faults.touched(row.len());
        let given = |group: Group| match nodes(Record::steady(&group, touched, self.touched_before)).next().map(|q| row[q]) {
            Some(State::Member { group, .. }) => Some(group),
            _ => None,
        };
        let group = self.group.filter(|_| self.keeps(touched)).and_then(given);
        Record { group, touched_before: touched }
    }
}
