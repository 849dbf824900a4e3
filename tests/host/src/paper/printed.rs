//! "Printed run"
use super::faults::{cycle, Faults};
use super::mode::Mode;
use super::record::Record;
use super::rules::Rules;
use super::sets::{those, Set};
use super::state::{beginning, Reason, State};
use super::table::{cycle_record, first_record};

pub const HEADER: &str = "cycle promise group set halted entered\n";

/// "nodes halted by rule 5", and in a quiet press those that halt although they did not vote: members after rule 1 that the cycle puts out with reason 1 or 2
pub fn halted(after_rule1: &[State], after: &[State]) -> Set {
    let member = |q: usize| matches!(after_rule1[q], State::Member { .. });
    those(after.len(), |q| member(q) && matches!(after[q], State::Out(Reason::NoQuorum | Reason::Outvoted)))
}

/// "nodes made members by rule 6"
pub fn entered(after_rule1: &[State], after: &[State]) -> Set {
    those(after.len(), |q| after_rule1[q] == State::Joining && matches!(after[q], State::Member { .. }))
}

/// "Fields: cycle from 1; kept or broken; number and set of the group of record after the cycle, each `-` from the first broken cycle; nodes halted by
/// rule 5; nodes made members by rule 6."
fn line(number: u64, record: &Record, halted: Set, entered: Set) -> String {
    match record.group {
        Some(group) => format!("{number} kept {} {:016x} {halted:016x} {entered:016x}\n", group.number, group.set),
        None => format!("{number} broken - - {halted:016x} {entered:016x}\n"),
    }
}

/// what is printed for a table; request 3: "`grouprun` runs mode 0, and a program like it mode 1"
pub fn printed(mode: Mode, table: &[u8]) -> String {
    printed_by(table, Rules::of(mode))
}

/// the same by rules that may have a mistake
pub fn printed_by(table: &[u8], rules: Rules) -> String {
    let mut text = HEADER.to_string();
    // "On a refusal a last line, `refused` and the number, follows the lines of the whole cycles."
    if let Err(refusal) = lines(table, rules, &mut text) {
        text += &format!("refused {refusal}\n");
    }
    text
}

fn lines(table: &[u8], rules: Rules, text: &mut String) -> Result<(), u32> {
    let (n, founding, mut rest) = first_record(table, |_| false)?;
    let (mut row, mut record, mut number) = (beginning(n, founding), Record::beginning(founding), 0);
    while !rest.is_empty() {
        let (faults, after): (Faults, &[u8]) = cycle_record(n, rest)?;
        let passed = cycle(&row, &faults, rules);
        number += 1;
        record = record.after(&passed.after, &faults);
        *text += &line(number, &record, halted(&passed.stood, &passed.after), entered(&passed.stood, &passed.after));
        (row, rest) = (passed.after, after);
    }
    Ok(())
}
