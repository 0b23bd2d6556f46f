//! What a run compared, which adds up over runs.
use crate::{cases::Cases, compare::Case, port::Port, random::Random, senders::Seen, tally::Tally};
use std::{ops::AddAssign, process::ExitCode};

#[derive(Default)]
pub struct Counts {
    pub tally: Tally,
    pub cases: Cases,
    /// Of senders' scripts, and of those that were spoiled.
    pub senders: Tally,
    pub spoiled: Tally,
    pub seen: Seen,
}
impl AddAssign for Counts {
    fn add_assign(&mut self, other: Self) {
        self.tally += other.tally;
        self.cases += other.cases;
        self.senders += other.senders;
        self.spoiled += other.spoiled;
        self.seen += other.seen;
    }
}
impl Counts {
    /// Compares scripts until there are enough. Each is made from a source of this seed and from how many there were before;
    /// an error tells the first difference.
    pub fn until(
        seed: u64,
        port: Port,
        enough: impl Fn(&Self) -> bool,
        make: impl Fn(&mut Random, u64) -> Case,
    ) -> Result<Self, String> {
        let mut random = Random(seed);
        let mut counts = Self::default();
        while !enough(&counts) {
            let scripts = counts.tally.scripts;
            let case = make(&mut random, scripts);
            let compared = counts.compare(&case, port);
            compared.map_err(|difference| differs(seed, scripts, &difference))?;
        }
        Ok(counts)
    }
    /// Those of all scripts.
    pub fn operations(&self) -> u64 {
        self.tallies().map(|tally| tally.operations).sum()
    }
    pub fn scripts(&self) -> u64 {
        self.tallies().map(|tally| tally.scripts).sum()
    }
    fn tallies(&self) -> impl Iterator<Item = &Tally> {
        [&self.tally, &self.senders, &self.spoiled].into_iter()
    }
    pub fn compare(&mut self, case: &Case, port: Port) -> Result<(), String> {
        let (steps, answers) = case.compare(port)?;
        self.tally.add(&steps, &answers);
        self.cases.add(&case.script, &steps, answers.room());
        Ok(())
    }
}
pub fn differs(seed: u64, script: u64, difference: &str) -> String {
    format!("seed {seed}, script {script}, {difference}")
}
/// Prints what a run compared, or the difference.
pub fn report(compared: Result<Counts, String>, print: impl FnOnce(&Counts)) -> ExitCode {
    match compared {
        Ok(counts) => {
            print(&counts);
            ExitCode::SUCCESS
        }
        Err(difference) => {
            println!("{difference}");
            ExitCode::FAILURE
        }
    }
}
