//! How many operations were answered by each number octet, and how many scripts ended by each end octet.
use crate::{
    compare::Answers,
    counter::{Counter, Row, listed},
};
use bts136::harness::script::{ANSWERED, END, END_CUT, END_NO_ROOM, END_UNKNOWN, Operation, Step};
use std::ops::AddAssign;

#[derive(Default)]
pub struct Tally {
    pub scripts: u64,
    pub operations: u64,
    numbers: Counter<(u8, u8)>,
    ends: Counter<Option<u8>>,
}
impl AddAssign for Tally {
    fn add_assign(&mut self, other: Self) {
        self.scripts += other.scripts;
        self.operations += other.operations;
        self.numbers += other.numbers;
        self.ends += other.ends;
    }
}
impl Tally {
    pub fn add<M>(&mut self, steps: &[Step<M>], answers: &Answers) {
        self.ends.add(answers.end());
        self.add_steps(steps, answers.room());
    }
    /// A whole script, whose answers these are.
    pub fn add_steps<M>(&mut self, steps: &[Step<M>], answers: &[u8]) {
        self.scripts += 1;
        self.operations += steps.len() as u64;
        for step in steps {
            self.numbers
                .add((step.operation.op, answers[step.answer.start]));
        }
    }
    /// How many operations were answered so.
    pub fn of(&self, op: u8, number: u8) -> u64 {
        self.numbers.of(&(op, number))
    }
    /// How many operations had this op octet.
    pub fn of_op(&self, op: u8) -> u64 {
        (0..=u8::MAX).map(|number| self.of(op, number)).sum()
    }
    /// How many operations were refused by this number.
    pub fn refused(&self, number: u8) -> u64 {
        let met = self.numbers.met();
        met.filter(|((_, met), _)| *met == number)
            .map(|(_, count)| count)
            .sum()
    }
    /// Whether every script was run whole.
    pub fn whole(&self) -> bool {
        self.ends.of(&Some(END)) == self.scripts
    }
    /// Each number octet of these operations.
    pub fn rows<M>(&self, operations: &[Operation<M>]) -> Vec<Row> {
        let rows = operations.iter().flat_map(|operation| {
            let numbers = [ANSWERED].into_iter().chain(operation.refusals.to_vec());
            numbers.map(|number| Row::new(operation.name, number, self.of(operation.op, number)))
        });
        rows.collect()
    }
    /// Each end octet, and none at all.
    pub fn end_rows(&self, group: &'static str) -> Vec<Row> {
        let octets = [END, END_CUT, END_UNKNOWN, END_NO_ROOM].map(Some);
        let ends = octets.into_iter().chain([None]);
        ends.map(|end| {
            let name = end.map_or("none".to_owned(), |end| format!("{end:#04x}"));
            Row::new(group, name, self.ends.of(&end))
        })
        .collect()
    }
    /// A line for each operation that was met, with its number octets.
    pub fn print_met<M>(&self, operations: &[Operation<M>]) {
        let met = |operation: &&Operation<M>| self.of_op(operation.op) > 0;
        operations
            .iter()
            .filter(met)
            .for_each(|row| self.print_operation(row));
    }
    pub fn print_operation<M>(&self, operation: &Operation<M>) {
        let rows = self.rows(std::slice::from_ref(operation));
        println!(
            "{:#04x} {:17} {:9}  {}",
            operation.op,
            operation.name,
            self.of_op(operation.op),
            listed(&rows, "  ")
        );
    }
}
