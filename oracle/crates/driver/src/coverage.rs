//! What all runs met, as tables, and what they must meet: each number octet of each operation, each case, and each number
//! of document 01.
use crate::{
    counter::{Row, groups, listed},
    counts::Counts,
    senders::SPOILED,
    tally::Tally,
};
use bts136::harness::script::{OPERATIONS, Operation, sender};

/// Document 01's refusals.
const REFUSALS: [(u8, &str); 21] = [
    (1, "Length"),
    (2, "Identity"),
    (3, "UnsupportedUsage"),
    (4, "UnsupportedFrame"),
    (5, "Encrypted"),
    (6, "Reserved"),
    (7, "Filler"),
    (11, "PartialEcho"),
    (12, "FrameNumber"),
    (13, "Payload"),
    (14, "DuplicateConflict"),
    (15, "Padding"),
    (16, "Room"),
    (17, "ClockBackwards"),
    (18, "Tokens"),
    (19, "Limits"),
    (20, "Capacity"),
    (21, "EchoExhausted"),
    (22, "Clock"),
    (23, "Deadline"),
    (24, "Stale"),
];
const REFUSED: &str = "refused";
/// What a reader will ask for, by the operation or group and the name of its row.
#[rustfmt::skip]
const ASKED: [(&str, &str, &str); 41] = [
    ("an enqueue makes two live transfers share an echo", "ENQUEUE", "begins to share an echo"),
    ("an enqueue, and two live transfers share an echo", "ENQUEUE", "shares an echo"),
    ("an interrupt of a shared echo", "INTERRUPT", "of a shared echo"),
    ("no restart at 63 blocks", "any call", "no restart at 63 blocks"),
    ("restart at 64 blocks", "any call", "restart at 64 blocks"),
    ("restart by an interrupt", "INTERRUPT", "restarts"),
    ("two or more restarts in one call", "any call", "two restarts in one call"),
    ("the search for an echo goes on from 0 after 127", "ENQUEUE", "search passes 127"),
    ("an echo that is held until now is free", "ENQUEUE", "echo held until now"),
    ("no echo is free, and one is the next millisecond", "ENQUEUE", "21 held until after now"),
    ("no echo is free at an enqueue", "ENQUEUE", "21 no echo"),
    ("no echo is free at a restart, which is Failed", "any call", "Failed"),
    ("a transfer is replaced", "ENQUEUE", "replaced"),
    ("a refresh queues a frame again", "REFRESH", "queued"),
    ("a refresh moves the oldest transfer to the front", "REFRESH", "moved"),
    ("forged token, its generation alone: 24", "SUBMITTED", "24 foreign generation"),
    ("forged token, its submission alone: 24", "SUBMITTED", "24 foreign submission"),
    ("forged token, its frame alone: 24", "SUBMITTED", "24 foreign frame"),
    ("stale token: 24", "SUBMITTED", "24 older"),
    ("forged token, its generation alone: not found", "TRANSMITTED", "foreign generation"),
    ("forged token, its submission alone: not found", "TRANSMITTED", "foreign submission"),
    ("forged token, its frame alone: not found", "TRANSMITTED", "foreign frame"),
    ("stale token: not found", "TRANSMITTED", "older"),
    ("the lent store has too few octets", "any call", "16 octets alone"),
    ("the lent store has too few words", "any call", "16 words alone"),
    ("the block goes back", "any call", "block goes back"),
    ("the time goes back", "any call", "time goes back"),
    ("refused, and the accepted clock stays moved", "any call", "refused after an accepted clock"),
    ("exactly 512 tokens left: answered", "PREPARE", "512 left"),
    ("exactly 511 tokens left: 18", "PREPARE", "511 left"),
    ("before the first usable block", "ENQUEUE", "21 first block"),
    ("deadline plus guard over 64 bits", "ENQUEUE", "23 guard"),
    ("a timer's foreign token: None", "TIMER_UNSOLICITED", "foreign token"),
    ("a timer's foreign token: None", "TIMER_SOLICITED", "foreign token"),
    ("a procedure's foreign token: Ignored", "SENT", "foreign token"),
    ("a timer with exactly 4 tokens left: answered", "TIMER_ADVANCE", "4 left"),
    ("a timer with exactly 3 tokens left: 18", "TIMER_ADVANCE", "3 left"),
    ("a procedure with exactly 4 tokens left: answered", "RECEIVE", "4 left"),
    ("a procedure that takes 2 of its last 4 tokens", "RECEIVE", "takes 2 of 4"),
    ("a procedure with exactly 3 tokens left: 18", "RECEIVE", "3 left"),
    ("a procedure refuses, and the accepted clock stays moved", "RECEIVE", "refused after an accepted clock"),
];

impl Counts {
    /// All that must be met.
    pub fn rows(&self) -> Vec<Row> {
        [
            self.refusal_rows(),
            self.tally.rows(&OPERATIONS),
            self.cases.rows(),
            self.tally.end_rows("end octets"),
            self.sender_rows(),
        ]
        .concat()
    }
    fn refusal_rows(&self) -> Vec<Row> {
        let rows = REFUSALS.iter().map(|(number, name)| {
            let count = self.tally.refused(*number) + self.senders.refused(*number);
            Row::new(REFUSED, format!("{number} {name}"), count)
        });
        rows.collect()
    }
    fn asked_rows(&self) -> Vec<(&'static str, Row)> {
        let rows = self.rows();
        let asked = ASKED.iter().map(|(what, group, name)| {
            let found = |row: &&Row| row.group == *group && row.name == *name;
            let row = rows.iter().find(found).expect("a row of this name");
            (*what, row.clone())
        });
        asked.collect()
    }
    pub fn print_coverage(&self) {
        head("Refusals", &["number and name", "times"]);
        for Row { name, count, .. } in self.refusal_rows() {
            println!("| {name} | {count} |");
        }
        head("Events", &["what", "operation", "its case", "times"]);
        for (what, Row { group, name, count }) in self.asked_rows() {
            println!("| {what} | {group} | {name} | {count} |");
        }
        const TITLES: [&str; 4] = ["operation", "compared", "by number octet", "by case"];
        head("Operations of a script", &TITLES);
        operations(&OPERATIONS, &self.tally, &self.cases.rows());
        others(&self.tally.end_rows("end octets"));
        head("Operations of a sender's script", &TITLES);
        let seen = self.seen.rows();
        operations(&sender::OPERATIONS, &self.senders, &seen);
        let named = |row: &Row| sender::OPERATIONS.iter().any(|of| of.name == row.group);
        let (_, rest): (Vec<Row>, Vec<Row>) = seen.into_iter().partition(named);
        others(&rest);
        others(&self.spoiled.end_rows(SPOILED));
    }
}
fn head(title: &str, columns: &[&str]) {
    println!("\n### {title}\n");
    println!("| {} |", columns.join(" | "));
    println!("|{}", "---|".repeat(columns.len()));
}
fn operations<M>(operations: &[Operation<M>], tally: &Tally, cases: &[Row]) {
    for operation in operations {
        let numbers = tally.rows(std::slice::from_ref(operation));
        let mut cases = groups(cases).filter(|(group, _)| *group == operation.name);
        let cases = cases
            .next()
            .map_or(String::new(), |(_, rows)| listed(rows, ", "));
        println!(
            "| {} | {} | {} | {cases} |",
            operation.name,
            tally.of_op(operation.op),
            listed(&numbers, ", ")
        );
    }
}
/// Rows of no operation.
fn others(rows: &[Row]) {
    for (group, rows) in groups(rows) {
        println!("| {group} | | | {} |", listed(rows, ", "));
    }
}

#[cfg(test)]
mod tests {
    use super::*;
    use crate::{compare, counter::missing, lives, port::Port, receive};
    use bts136::harness::script::NO_CALL;
    use std::collections::BTreeSet;

    #[test]
    fn every_refusal_is_one_of_document_01() {
        let script = OPERATIONS.iter().flat_map(|row| row.refusals);
        let sender = sender::OPERATIONS.iter().flat_map(|row| row.refusals);
        let mut refusals: BTreeSet<u8> = script.chain(sender).copied().collect();
        assert!(refusals.remove(&NO_CALL));
        assert!(refusals.into_iter().eq(REFUSALS.map(|(number, _)| number)));
    }
    #[test]
    fn what_was_not_met_is_named() {
        let counts = Counts::default();
        let (rows, missing) = (counts.rows(), missing(&counts.rows()));
        assert_eq!(rows.len(), missing.len());
        assert_eq!(
            rows.len(),
            missing.iter().collect::<BTreeSet<_>>().len() + TWICE
        );
        assert_eq!(counts.asked_rows().len(), ASKED.len());
        for row in [
            "refused 24 Stale",
            "DECODE 15",
            "SENT Failed",
            "ENQUEUE replaced",
        ] {
            assert!(missing.iter().any(|name| name == row), "{row}");
        }
    }
    /// Both scripts have MESSAGE, answered or not.
    const TWICE: usize = 2;
    #[test]
    fn scripts_have_every_case() {
        let mut counts = Counts::default();
        counts += compare::run(1, 300_000, Port::DRY).expect("the same twice");
        counts += receive::run(1, 100_000, Port::DRY).expect("the same twice");
        counts += lives::run(1, 10_000, Port::DRY).expect("the same twice");
        let rows = [counts.tally.rows(&OPERATIONS), counts.cases.rows()].concat();
        assert_eq!(missing(&rows), Vec::<String>::new());
    }
}
