//! Transfers to a receiver: cut by the original, then shuffled, repeated, lost, and with other frames among them.
use crate::{
    compare::Case,
    counts::{Counts, report},
    generate::{
        append, decode_operands, encoded, flip_a_bit, good_header, good_identity, good_parsed,
        identity, spoiled,
    },
    port::Port,
    random::Random,
};
use bts136::harness::{
    script::{COMPLETE, LEAST_ROOM, MESSAGE_OCTETS, NEW, OPERATIONS, PUSH, RESET, STATUS},
    wire::{self, HEADER_OCTETS, PARSED_OCTETS},
};
use std::process::ExitCode;

/// How many operations a script of `receive` has at most, beside those that ask what the receiver tells.
const SCRIPT_OPERATIONS: usize = 400;
/// More than the longest answer of these operations.
const ANSWER_OCTETS: usize = 328;
const LONGEST_MESSAGE: usize = 255;
const LAST_NUMBER: usize = 25;
/// The places of a frame's operand.
const USAGE: usize = 1;
const ECHO: usize = 3;
const POLLING: usize = 4;
const MODE: usize = 5;
const IDENTITY: usize = 6;
const TYPE: usize = 24;
const NUMBER: usize = 25;
const DATA: usize = 26;
const DATA_BITS: usize = 79;

pub type Parsed = [u8; PARSED_OCTETS];
type Operations = Vec<Vec<u8>>;

pub fn main(seed: u64, count: u64) -> ExitCode {
    report(
        run(seed, count, Port::LINKED),
        |Counts { tally, cases, .. }| {
            tally.print_met(&OPERATIONS);
            let deliveries = ["message", "message and status"].map(|case| cases.of(PUSH, case));
            println!(
                "compared {} pushes, {} of them with a message, in {} scripts, seed {seed}: no difference",
                tally.of_op(PUSH),
                deliveries.iter().sum::<u64>(),
                tally.scripts
            );
        },
    )
}
/// Scripts of transfers alone, until so many pushes were compared.
pub fn run(seed: u64, count: u64, port: Port) -> Result<Counts, String> {
    Counts::until(
        seed,
        port,
        |counts| counts.tally.of_op(PUSH) >= count,
        |random, _| script(random),
    )
}
fn script(random: &mut Random) -> Case {
    let mut operations = Vec::new();
    while operations.len() < SCRIPT_OPERATIONS {
        let left = SCRIPT_OPERATIONS - operations.len();
        operations.extend(transfer(random, left));
    }
    let operations = told(operations);
    Case {
        room: ANSWER_OCTETS * operations.len() + 1,
        script: operations.concat(),
        filler: random.octet(),
    }
}

/// Each operation, and after it what the receiver then tells.
fn told(operations: Operations) -> Operations {
    let tells = |operation| [operation, vec![STATUS], vec![COMPLETE]];
    operations.into_iter().flat_map(tells).collect()
}
/// A receiver and one or two transfers to it, at most so many operations.
pub fn transfer(random: &mut Random, most: usize) -> Operations {
    let kind = random.octet() % 4;
    let own = good_identity(random, kind);
    let mut operations = vec![operation(NEW, &[&own])];
    for _ in 0..1 + random.below(2) {
        let length = length(random);
        Transfer::new(random, own, length).append(random, &mut operations);
    }
    operations.truncate(most);
    operations
}
fn operation(op: u8, operands: &[&[u8]]) -> Vec<u8> {
    let mut operation = vec![op];
    operation.extend(operands.concat());
    operation
}
/// The room of a buffer, in most cases enough, and its filling.
pub fn room(random: &mut Random) -> [u8; 3] {
    let room = match random.below(40) {
        0 => random.pick(&[0, 1, LEAST_ROOM - 1, MESSAGE_OCTETS + 1, 65535]),
        1..=9 => random.pick(&[LEAST_ROOM, LEAST_ROOM + 1, MESSAGE_OCTETS]),
        _ => LEAST_ROOM + random.below(MESSAGE_OCTETS - LEAST_ROOM + 1),
    };
    let [upper, lower] = (room as u16).to_be_bytes();
    [upper, lower, random.octet()]
}
fn length(random: &mut Random) -> usize {
    match random.below(10) {
        0 | 1 => random.pick(&[0, 1, 3, 4, 5, 6, 7, 8, 16, 17, 18, 254, LONGEST_MESSAGE]),
        2..=6 => random.below(60),
        _ => random.below(LONGEST_MESSAGE + 1),
    }
}
pub fn push(random: &mut Random, parsed: &Parsed) -> Vec<u8> {
    operation(PUSH, &[&decode_operands(&encoded(parsed)), &room(random)])
}

/// A message as it is cut.
pub struct Transfer {
    own: [u8; 9],
    frames: Vec<Parsed>,
}
impl Transfer {
    pub fn new(random: &mut Random, own: [u8; 9], length: usize) -> Self {
        let message: Vec<u8> = (0..length).map(|_| random.octet()).collect();
        let header: [u8; HEADER_OCTETS] = good_header(random);
        let frames = wire::cut(header, own, &message).expect("a message that is cut");
        Self { own, frames }
    }
    /// Each frame once and more, or now and then not at all; other operations among them.
    fn append(&self, random: &mut Random, operations: &mut Operations) {
        let (lossy, noise) = (random.chance(20), random.pick(&[0, 5, 15, 40]));
        for index in self.order(random) {
            if lossy && random.chance(5) {
                continue;
            }
            let frame = self.polled(random, index);
            operations.push(push(random, &frame));
            if random.chance(noise) {
                operations.push(match random.below(16) {
                    0 => self.no_push(random),
                    _ => self.other(random),
                });
            }
        }
        for _ in 0..random.below(4) {
            let index = random.below(self.frames.len());
            let frame = self.polled(random, index);
            operations.push(push(random, &frame));
        }
        operations.push(vec![random.pick(&[STATUS, COMPLETE])]);
    }
    /// In order, the Begin first, or any; some frames more than once.
    pub fn order(&self, random: &mut Random) -> Vec<usize> {
        let mut order: Vec<usize> = (0..self.frames.len()).collect();
        let repeated = random.pick(&[0, 0, 10, 30]);
        for index in 1..self.frames.len() {
            if random.chance(repeated) {
                order.push(index);
            }
        }
        match random.below(5) {
            0 | 1 => order.sort_unstable(),
            2 => shuffle(random, &mut order),
            _ => shuffle(random, &mut order[1..]),
        }
        order
    }
    pub fn polled(&self, random: &mut Random, index: usize) -> Parsed {
        let mut frame = self.frames[index];
        frame[POLLING] = u8::from(random.chance(30));
        frame[MODE] = random.octet() % 2;
        frame
    }
    /// The push of a frame that differs from those of the transfer.
    pub fn other(&self, random: &mut Random) -> Vec<u8> {
        let index = random.below(self.frames.len());
        let mut frame = self.polled(random, index);
        match random.below(15) {
            0 => frame[ECHO] = random.octet() % 128,
            1 => frame[USAGE] ^= 3 ^ 4,
            2 if index > 0 => frame[TYPE] = random.octet() % 4,
            2 => {
                let other = good_identity(random, self.own[0]);
                frame[IDENTITY..IDENTITY + 9].copy_from_slice(&other);
            }
            // Other data in a slot that may be filled.
            3..=5 => {
                let place = random.below(DATA_BITS);
                frame[DATA + place / 8] ^= 0x80 >> (place % 8);
            }
            // Filler behind the message.
            6 | 7 => {
                frame = self.polled(random, self.frames.len() - 1);
                let place = DATA_BITS - 1 - random.below(3);
                frame[DATA + place / 8] |= 0x80 >> (place % 8);
            }
            8 | 9 => {
                let needed = self.frames.len() - 1;
                let number = random.pick(&[needed, needed + 1, LAST_NUMBER]);
                frame = self.polled(random, needed);
                frame[NUMBER] = number.min(LAST_NUMBER) as u8;
            }
            10 => frame = self.frames[0],
            11 => frame = good_parsed(random),
            12 => return damaged(random, &self.frames[0]),
            13 => return damaged(random, &frame),
            _ => {
                let mut any = Vec::new();
                append(random, PUSH, &mut any);
                return any;
            }
        }
        push(random, &frame)
    }
    fn no_push(&self, random: &mut Random) -> Vec<u8> {
        match random.below(20) {
            0..=2 => operation(NEW, &[&self.own]),
            3 => operation(NEW, &[&identity(random)]),
            4..=7 => vec![RESET],
            _ => vec![random.pick(&[STATUS, COMPLETE])],
        }
    }
}
/// A frame with a bit flipped or a field spoiled, or cut, or longer.
fn damaged(random: &mut Random, frame: &Parsed) -> Vec<u8> {
    let mut octets = encoded(frame);
    if random.chance(50) {
        octets = spoiled(random, frame);
    } else {
        flip_a_bit(random, &mut octets);
    }
    let mut operands = decode_operands(&octets);
    if random.chance(10) {
        operands[0] = random.pick(&[0, 1, 13, 15, 16, 32, 33, 255]);
    }
    operation(PUSH, &[&operands, &room(random)])
}
fn shuffle(random: &mut Random, order: &mut [usize]) {
    for last in (1..order.len()).rev() {
        order.swap(last, random.below(last + 1));
    }
}
