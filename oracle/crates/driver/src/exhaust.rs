//! DECODE, ENCODE and FRAME on whole ranges of their operands.
use crate::{
    compare::Case,
    counts::{Counts, differs, report},
    generate::{
        MESSAGE_EIGHTHS, decode_operands, encoded, fill_all, frames, good_begin, good_parsed,
        identity_operand, packed, room, set,
    },
    port::Port,
    random::Random,
};
use bts136::harness::{
    script::{COUNT, DECODE, ENCODE, FRAME, MESSAGE, OPERATIONS},
    wire::{self, FRAME_OCTETS},
};
use std::process::ExitCode;

/// How many operations a script has.
const BATCH: usize = 1000;
/// More than the longest answer of these operations.
const ANSWER_OCTETS: usize = 40;
const FRAME_BITS: usize = 8 * FRAME_OCTETS;
const PADDING: usize = 3;
/// Header A, kind, and what stands before an identity or an echo.
const FIRST_BITS: usize = 15;
const RANDOM_TAILS: usize = 62;
const DATA_FOR_EACH_COUNT: usize = 1000;
const FLIPPED_FRAMES: usize = 40_000;
const MESSAGES: usize = 100;
const LONGEST_MESSAGE: usize = 256;

pub fn main(seed: u64) -> ExitCode {
    let compared = run(seed, Port::LINKED, |what, operations| {
        println!("{what}: {operations} operations");
    });
    report(compared, |Counts { tally, .. }| {
        tally.print_met(&OPERATIONS);
        println!(
            "compared {} operations in {} scripts, seed {seed}: no difference",
            tally.operations, tally.scripts
        );
    })
}
/// All stages; each is told with how many operations it had.
pub fn run(seed: u64, port: Port, told: impl Fn(&str, u64)) -> Result<Counts, String> {
    let mut run = Run {
        random: Random(seed),
        script: Vec::new(),
        operations: 0,
        port,
        counts: Counts::default(),
        told,
    };
    match run.stages() {
        Ok(()) => Ok(run.counts),
        Err(difference) => Err(differs(seed, run.counts.tally.scripts, &difference)),
    }
}

type Compared = Result<(), String>;

/// Operations that wait to be compared, and those that were.
struct Run<T> {
    random: Random,
    script: Vec<u8>,
    operations: usize,
    port: Port,
    counts: Counts,
    told: T,
}
impl<T: Fn(&str, u64)> Run<T> {
    fn stages(&mut self) -> Compared {
        self.stage("DECODE of every first 15 bits", Self::first_bits)?;
        self.stage("ENCODE and DECODE of every octet count", Self::counts)?;
        self.stage("DECODE of every single-bit flip", Self::flips)?;
        self.stage("COUNT and every FRAME of every length", Self::cuts)
    }
    fn stage(&mut self, what: &str, run: impl FnOnce(&mut Self) -> Compared) -> Compared {
        let before = self.counts.tally.operations;
        run(self)?;
        self.compare()?;
        (self.told)(what, self.counts.tally.operations - before);
        Ok(())
    }
    fn push(&mut self, op: u8, operands: &[&[u8]]) {
        self.script.push(op);
        self.script.extend(operands.concat());
        self.operations += 1;
    }
    fn push_batched(&mut self, op: u8, operands: &[u8]) -> Compared {
        self.push(op, &[operands]);
        if self.operations < BATCH {
            return Ok(());
        }
        self.compare()
    }
    fn compare(&mut self) -> Compared {
        let case = Case {
            script: std::mem::take(&mut self.script),
            room: ANSWER_OCTETS * self.operations + 1,
            filler: self.random.octet(),
        };
        self.operations = 0;
        self.counts.compare(&case, self.port)?;
        assert!(self.counts.tally.whole(), "every operation was run");
        Ok(())
    }
    fn decode(&mut self, frame: &[u8; FRAME_OCTETS]) -> Compared {
        self.push_batched(DECODE, &decode_operands(frame))
    }

    /// Zeros, ones and random bits after them.
    fn first_bits(&mut self) -> Compared {
        for tail in 0..2 + RANDOM_TAILS {
            for first in 0..1 << FIRST_BITS {
                let mut bits = match tail {
                    0 => [false; FRAME_BITS],
                    1 => [true; FRAME_BITS],
                    _ => wire::unpack_frame(&self.random.octets::<FRAME_OCTETS>()),
                };
                set(&mut bits, 0, FIRST_BITS, first);
                set(&mut bits, FRAME_BITS - PADDING, PADDING, 0);
                self.decode(&packed(&bits))?;
            }
        }
        Ok(())
    }
    /// A Begin of each type: encoded and read again, and both with any data, which may be set past the octets.
    fn counts(&mut self) -> Compared {
        for kind in 0..4 {
            let room = room(kind);
            for octets in 0..=255 {
                for _ in 0..DATA_FOR_EACH_COUNT / 2 {
                    let mut parsed = good_begin(&mut self.random, kind, octets);
                    let frame = encoded(&parsed);
                    self.push_batched(ENCODE, &parsed)?;
                    self.decode(&frame)?;
                    parsed[17..24].copy_from_slice(&self.random.octets::<7>());
                    let mut bits = wire::unpack_frame(&frame);
                    set(
                        &mut bits,
                        FRAME_BITS - PADDING - room,
                        room,
                        self.random.next(),
                    );
                    self.push_batched(ENCODE, &parsed)?;
                    self.decode(&packed(&bits))?;
                }
            }
        }
        Ok(())
    }
    fn flips(&mut self) -> Compared {
        for _ in 0..FLIPPED_FRAMES {
            let frame = encoded(&good_parsed(&mut self.random));
            for place in 0..FRAME_BITS {
                let mut flipped = frame;
                flipped[place / 8] ^= 0x80 >> (place % 8);
                self.decode(&flipped)?;
            }
        }
        Ok(())
    }
    /// Each type, and one frame more than there are.
    fn cuts(&mut self) -> Compared {
        const HEADER: [u8; 5] = [4, 9, 85, 1, 0];
        for _ in 0..MESSAGES {
            for kind in 0..4 {
                fill_all(&mut self.random, MESSAGE, MESSAGE_EIGHTHS, &mut self.script);
                self.operations += usize::from(MESSAGE_EIGHTHS);
                let identity = identity_operand(kind, 1 + self.random.next() % 0xfffff);
                for length in 0..=LONGEST_MESSAGE {
                    let octets = (length as u16).to_be_bytes();
                    self.push(COUNT, &[&HEADER, &identity, &octets]);
                    for k in 0..=frames(kind, length) {
                        let k = (k as u16).to_be_bytes();
                        self.push(FRAME, &[&HEADER, &identity, &octets, &k]);
                    }
                }
                self.compare()?;
            }
        }
        Ok(())
    }
}
