//! Runs the original and the port on the same inputs. The commands are in the README.
mod all;
mod cases;
mod compare;
mod counter;
mod counts;
mod coverage;
mod exhaust;
mod generate;
mod hex;
mod lives;
mod make;
mod port;
mod random;
mod receive;
mod senders;
mod tally;
mod time;
mod timer;

use port::Port;
use std::{env, path::Path, process::ExitCode};

const USAGE: &str = "usage: driver all SEED SECONDS [--dry] | compare SEED COUNT | receive SEED COUNT | lives SEED COUNT | senders SEED COUNT [--dry] | exhaust SEED | make FOLDER | make-senders FOLDER | time";

fn main() -> ExitCode {
    let arguments: Vec<String> = env::args().skip(1).collect();
    let arguments: Vec<&str> = arguments.iter().map(String::as_str).collect();
    match arguments[..] {
        ["all", seed, seconds] => counted(|s, c| all::main(s, c, Port::LINKED), seed, seconds),
        ["all", seed, seconds, "--dry"] => {
            counted(|s, c| all::main(s, c, Port::DRY), seed, seconds)
        }
        ["compare", seed, count] => counted(compare::main, seed, count),
        ["receive", seed, count] => counted(receive::main, seed, count),
        ["lives", seed, count] => counted(lives::main, seed, count),
        ["senders", seed, count] => counted(|s, c| senders::main(s, c, Port::LINKED), seed, count),
        ["senders", seed, count, "--dry"] => {
            counted(|s, c| senders::main(s, c, Port::DRY), seed, count)
        }
        ["exhaust", seed] => seed.parse().map_or_else(|_| usage(), exhaust::main),
        ["make", folder] => make::main(Path::new(folder)),
        ["make-senders", folder] => make::senders(Path::new(folder)),
        ["time"] => time::main(),
        _ => usage(),
    }
}
fn counted(run: fn(u64, u64) -> ExitCode, seed: &str, count: &str) -> ExitCode {
    match (seed.parse(), count.parse()) {
        (Ok(seed), Ok(count)) => run(seed, count),
        _ => usage(),
    }
}
fn usage() -> ExitCode {
    eprintln!("{USAGE}");
    ExitCode::from(2)
}
