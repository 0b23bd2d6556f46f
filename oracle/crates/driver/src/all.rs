//! Every kind of comparison in turn, in rounds, until a time is over.
use crate::{
    compare, counter::missing, counts::Counts, exhaust, lives, port::Port, random::Random, receive,
    senders,
};
use std::{
    io::{self, Write},
    process::ExitCode,
    time::{Duration, Instant},
};

/// A command, its count if it has one, and its run.
struct Kind {
    name: &'static str,
    count: Option<u64>,
    run: fn(u64, u64, Port) -> Result<Counts, String>,
}
/// Each takes about as long as the others.
const KINDS: [Kind; 5] = [
    Kind {
        name: "compare",
        count: Some(12_000_000),
        run: compare::run,
    },
    Kind {
        name: "exhaust",
        count: None,
        run: |seed, _, port| exhaust::run(seed, port, |_, _| ()),
    },
    Kind {
        name: "receive",
        count: Some(10_000_000),
        run: receive::run,
    },
    Kind {
        name: "lives",
        count: Some(400_000),
        run: lives::run,
    },
    Kind {
        name: "senders",
        count: Some(3_000),
        run: senders::run,
    },
];
impl Kind {
    /// The command that repeats a run alone.
    fn command(&self, seed: u64) -> String {
        let count = self
            .count
            .map_or(String::new(), |count| format!(" {count}"));
        format!("{} {seed}{count}", self.name)
    }
}

pub fn main(seed: u64, seconds: u64, port: Port) -> ExitCode {
    let mut all = All::default();
    let rounds = all.rounds(seed, Duration::from_secs(seconds), port);
    match rounds.and_then(|rounds| all.covered(rounds)) {
        Ok(rounds) => {
            println!("\nrounds: {rounds}, seed {seed}: no difference, and every row was met");
            ExitCode::SUCCESS
        }
        Err(why) => {
            println!("\n{why}");
            ExitCode::FAILURE
        }
    }
}

/// What all runs compared, and each kind's part of it.
#[derive(Default)]
struct All {
    counts: Counts,
    parts: [Part; KINDS.len()],
}
#[derive(Default)]
struct Part {
    runs: u64,
    scripts: u64,
    operations: u64,
    time: Duration,
}
impl All {
    /// How many rounds there were. The first is always run, and the last to its end. A round takes five numbers of the source
    /// as its seeds.
    fn rounds(&mut self, seed: u64, time: Duration, port: Port) -> Result<u64, String> {
        let (start, mut seeds) = (Instant::now(), Random(seed));
        for round in 1.. {
            for (kind, part) in KINDS.iter().zip(&mut self.parts) {
                let seed = seeds.next();
                print!("round {round}: {}", kind.command(seed));
                io::stdout().flush().expect("somewhere to print to");
                self.counts += part.run(kind, seed, port)?;
            }
            if start.elapsed() >= time {
                return Ok(round);
            }
        }
        unreachable!("rounds end with the time");
    }
    fn covered(&self, rounds: u64) -> Result<u64, String> {
        self.print_parts();
        self.counts.print_coverage();
        match missing(&self.counts.rows()) {
            missing if missing.is_empty() => Ok(rounds),
            missing => Err(format!("never met: {}", missing.join(", "))),
        }
    }
    fn print_parts(&self) {
        println!("\n### Runs\n");
        println!("| command | runs | scripts | operations | seconds |");
        println!("|---|---|---|---|---|");
        for (kind, part) in KINDS.iter().zip(&self.parts) {
            println!(
                "| `{}` | {} | {} | {} | {} |",
                kind.name,
                part.runs,
                part.scripts,
                part.operations,
                part.time.as_secs()
            );
        }
    }
}
impl Part {
    fn run(&mut self, kind: &Kind, seed: u64, port: Port) -> Result<Counts, String> {
        let start = Instant::now();
        let counts = (kind.run)(seed, kind.count.unwrap_or(0), port)?;
        let time = start.elapsed();
        let operations = counts.operations();
        println!(": {operations} operations in {:.1} s", time.as_secs_f64());
        self.runs += 1;
        self.scripts += counts.scripts();
        self.operations += operations;
        self.time += time;
        Ok(counts)
    }
}

#[cfg(test)]
mod tests {
    use super::*;

    #[test]
    fn what_was_never_met_is_an_error() {
        let never = All::default().covered(1).expect_err("nothing was met");
        assert!(never.starts_with("never met: refused 1 Length, "));
    }
    /// A published sequence of SplitMix64 has the first seed.
    #[test]
    fn a_difference_ends_the_first_run() {
        let other = Port {
            run: |script, answers| {
                answers.fill(0xff);
                (Port::DRY.run)(script, answers)
            },
            ..Port::DRY
        };
        let rounds = All::default().rounds(1_234_567, Duration::ZERO, other);
        let difference = rounds.expect_err("the octets that are not answers differ");
        assert!(difference.starts_with("seed 6457827717110365317, script 0, octet outside"));
    }
}
