//! Random scripts through both sides, and every octet that they answer compared.
use crate::{
    counter,
    counts::{Counts, report},
    generate,
    hex::hex,
    port::Port,
    random::Random,
};
use bts136::harness::script::{self, ANSWERED, OPERATIONS, Step};
use std::process::ExitCode;

/// Octets before and after the room for the answers, which nobody may write.
const GUARD: usize = 16;

pub fn main(seed: u64, count: u64) -> ExitCode {
    report(
        run(seed, count, Port::LINKED),
        |Counts { tally, .. }| {
            for row in &OPERATIONS {
                tally.print_operation(row);
            }
            counter::print(&tally.end_rows("end octets"));
            println!(
                "compared {} operations in {} scripts, seed {seed}: no difference",
                tally.operations, tally.scripts
            );
        },
    )
}
/// At least so many operations.
pub fn run(seed: u64, count: u64, port: Port) -> Result<Counts, String> {
    Counts::until(
        seed,
        port,
        |counts| counts.tally.operations >= count,
        |random, _| Case::new(random),
    )
}

/// A script, the room for its answers, and the octet that fills the room before.
pub struct Case {
    pub script: Vec<u8>,
    pub room: usize,
    pub filler: u8,
}
impl Case {
    fn new(random: &mut Random) -> Self {
        let script = generate::script(random);
        let room = room(random, &script);
        let filler = random.octet();
        Self {
            script,
            room,
            filler,
        }
    }
    /// The original's steps and answers, or what differs.
    pub fn compare(&self, port: Port) -> Result<(Vec<Step>, Answers), String> {
        self.between(
            |script, room, steps| script::run_each(script, room, |step| steps.push(step)),
            port.run,
        )
    }
    /// The same of two sides that are handed in, the first of which tells its steps.
    pub fn between<M>(
        &self,
        original: impl FnOnce(&[u8], &mut [u8], &mut Vec<Step<M>>) -> usize,
        port: impl FnOnce(&[u8], &mut [u8]) -> usize,
    ) -> Result<(Vec<Step<M>>, Answers), String> {
        let mut steps = Vec::new();
        let original = self.answers(|script, room| original(script, room, &mut steps));
        let port = self.answers(port);
        if original == port {
            return Ok((steps, original));
        }
        let mut report = match original.first_difference(&port) {
            Some(at) => self.place(&steps, at, &original, &port),
            None => "the returned lengths".to_owned(),
        };
        report += &format!(
            "\n  original returned {}, port {}, the room has {}, its filler is {:02x}",
            original.length, port.length, self.room, self.filler
        );
        Err(report)
    }
    fn answers(&self, run: impl FnOnce(&[u8], &mut [u8]) -> usize) -> Answers {
        let mut buffer = vec![self.filler; GUARD + self.room + GUARD];
        let length = run(&self.script, &mut buffer[GUARD..GUARD + self.room]);
        Answers { buffer, length }
    }
    /// Names what the original has at this octet of the buffer, and what both answered there.
    fn place<M>(&self, steps: &[Step<M>], at: usize, original: &Answers, port: &Answers) -> String {
        let found = |step: &Step<M>| at >= GUARD && step.answer.contains(&(at - GUARD));
        if let Some(index) = steps.iter().position(found) {
            return self.answer(index, &steps[index], original, port);
        }
        let what = if at + 1 == GUARD + original.length {
            "end octet"
        } else {
            "octet outside the answers"
        };
        format!(
            "{what} after {} operations\n  original {}\n  port     {}",
            steps.len(),
            original.shown(at, 1),
            port.shown(at, 1)
        )
    }
    fn answer<M>(
        &self,
        index: usize,
        step: &Step<M>,
        original: &Answers,
        port: &Answers,
    ) -> String {
        let start = GUARD + step.answer.start;
        // Where the port's answer ends is known of a refusal alone.
        let most = match port.buffer[start] {
            ANSWERED => step.operation.longest,
            _ => 1,
        };
        format!(
            "operation {index}, {} {}\n  original {}\n  port     {}",
            step.operation.name,
            hex(&self.script[step.operands.clone()]),
            original.shown(start, step.answer.len()),
            port.shown(start, most)
        )
    }
}

/// The size of a room for the answers to this script, in most cases an ample one.
fn room(random: &mut Random, script: &[u8]) -> usize {
    let longest = longest_answer();
    let mut scratch = vec![0; longest * script.len() + 1];
    let needed = script::run(script, &mut scratch);
    match random.below(20) {
        0 => 0,
        1 => random.below(needed + 1),
        // Too small by a few octets, or just not: the longest answers decide, not the needed ones.
        2..=4 => (needed + random.below(longest)).saturating_sub(random.below(longest)),
        _ => needed + longest + random.below(longest),
    }
}
fn longest_answer() -> usize {
    let longest = OPERATIONS.iter().map(|operation| operation.longest);
    longest.max().expect("a table with rows")
}

/// What a side returned, and its buffer, the guards among it.
#[derive(PartialEq)]
pub struct Answers {
    buffer: Vec<u8>,
    length: usize,
}
impl Answers {
    fn first_difference(&self, other: &Self) -> Option<usize> {
        let mut pairs = self.buffer.iter().zip(&other.buffer);
        pairs.position(|(left, right)| left != right)
    }
    /// At most this many octets of the buffer, all but the first only as far as they were returned.
    fn shown(&self, start: usize, most: usize) -> String {
        let returned = (GUARD + self.length).saturating_sub(start);
        let end = start + returned.clamp(1, most);
        hex(&self.buffer[start..end.min(self.buffer.len())])
    }
    /// The octets that may be written, the first answer first.
    pub fn room(&self) -> &[u8] {
        &self.buffer[GUARD..self.buffer.len() - GUARD]
    }
    /// `None` if there was no room for it.
    pub fn end(&self) -> Option<u8> {
        self.room()[..self.length].last().copied()
    }
}
