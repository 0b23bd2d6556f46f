//! Lives of a timer or of a procedure: the original answers each call as it is made, so that tokens and transmissions of
//! later calls are, mostly, those of its answers.
use crate::{
    compare::Case,
    counter,
    counts::{Counts, report},
    generate::{good_identity, identity},
    port::Port,
    random::Random,
    receive::{self, Parsed, Transfer},
    timer::Timer,
};
use bts136::harness::{
    script::{
        ADVANCE, Machine, OPERATIONS, PROCEDURE, PROCEDURE_ACTIVE, PROCEDURE_RESET,
        PROCEDURE_STATE, RECEIVE, SENT, TIMER, TIMER_ADVANCE, TIMER_OBSERVE, TIMER_OWNS,
        TIMER_RECEIVED, TIMER_RESET, TIMER_SOLICITED, TIMER_STATE, TIMER_TOKEN, TIMER_UNSOLICITED,
    },
    wire::TRANSMISSION_OCTETS,
};
use std::process::ExitCode;

/// The longest answer, and an end octet.
const LONGEST: usize = 337;
/// Of RECEIVE and of ADVANCE, where the transmission of an answer begins.
const RECEIVE_TRANSMISSION: usize = 15;
const ADVANCE_TRANSMISSION: usize = 2;
/// The places of a transmission that are 0 or 1.
const MODE: usize = 5;
const KIND: usize = 14;
const COMPLETE_AT_POLL: usize = 15;

pub fn main(seed: u64, count: u64) -> ExitCode {
    report(
        run(seed, count, Port::LINKED),
        |Counts { tally, cases, .. }| {
            tally.print_met(&OPERATIONS);
            counter::print(&cases.rows_from(TIMER));
            println!(
                "compared {} operations in the lives of {} timers and {} procedures, seed {seed}: no difference",
                tally.operations,
                tally.scripts.div_ceil(2),
                tally.scripts / 2
            );
        },
    )
}
/// So many lives, timers and procedures in turn.
pub fn run(seed: u64, count: u64, port: Port) -> Result<Counts, String> {
    let counts = Counts::until(
        seed,
        port,
        |counts| counts.tally.scripts >= count,
        |random, turn| Life::new(random, turn).case(random),
    )?;
    assert!(counts.tally.whole(), "every life was lived whole");
    Ok(counts)
}

/// A life as it is made, and the machine that lives it.
pub struct Life {
    pub script: Vec<u8>,
    /// Where each operation of the script ends.
    ends: Vec<usize>,
    answered: usize,
    machine: Machine,
    state_op: u8,
    /// As the last state has it.
    timer: Timer,
    /// Every token that was current, the present one last, and every transmission that was given out.
    tokens: Vec<u64>,
    transmissions: Vec<[u8; TRANSMISSION_OCTETS]>,
}
/// Of a timer or of a procedure.
pub fn any(random: &mut Random) -> Life {
    let turn = random.next();
    Life::new(random, turn)
}
impl Life {
    /// Of a timer or of a procedure, in turn.
    fn new(random: &mut Random, turn: u64) -> Self {
        match turn % 2 {
            0 => Self::timer(random),
            _ => Self::procedure(random),
        }
    }
    fn unborn(state_op: u8) -> Self {
        Self {
            script: Vec::new(),
            ends: Vec::new(),
            answered: 0,
            machine: Machine::default(),
            state_op,
            timer: Timer::default(),
            tokens: vec![0],
            transmissions: Vec::new(),
        }
    }
    /// Its first operations, at most so many, and how many these are.
    pub fn truncate(&mut self, most: usize) -> usize {
        self.ends.truncate(most);
        self.script.truncate(*self.ends.last().expect("one call"));
        self.ends.len()
    }
    fn case(self, random: &mut Random) -> Case {
        Case {
            script: self.script,
            room: self.answered + LONGEST,
            filler: random.octet(),
        }
    }

    /// A call, and the state after it.
    fn call(&mut self, op: u8, operands: &[&[u8]]) {
        let answer = self.step(op, &operands.concat());
        let given = match op {
            RECEIVE => answer.get(RECEIVE_TRANSMISSION..),
            ADVANCE => answer.get(ADVANCE_TRANSMISSION..),
            _ => None,
        };
        if let Some([1, given @ ..]) = given {
            let given = given.first_chunk().expect("a transmission");
            self.transmissions.push(*given);
        }
        let state = self.step(self.state_op, &[]);
        if let Some(timer) = Timer::of(&state) {
            self.observe(timer);
        }
    }
    fn step(&mut self, op: u8, operands: &[u8]) -> Vec<u8> {
        self.script.push(op);
        self.script.extend_from_slice(operands);
        self.ends.push(self.script.len());
        let mut room = [0; LONGEST];
        let length = self.machine.step(op, operands, &mut room);
        self.answered += length;
        room[..length].to_vec()
    }
    fn observe(&mut self, timer: Timer) {
        if self.tokens.last() != Some(&timer.token) {
            self.tokens.push(timer.token);
        }
        self.timer = timer;
    }

    /// Forward by little, by a wait or just not, or by any; now and then back.
    fn block(&self, random: &mut Random) -> [u8; 8] {
        let step = match random.below(40) {
            0..=11 => 0,
            12..=21 => 1,
            22..=24 => 31,
            25..=30 => 32,
            31..=33 => 33,
            34..=36 => random.below(100) as u64,
            37 => return random.any_length().to_be_bytes(),
            _ => {
                let back = 1 + random.below(40) as u64;
                return self.timer.last_block.saturating_sub(back).to_be_bytes();
            }
        };
        self.timer.last_block.saturating_add(step).to_be_bytes()
    }
    /// The block at which a wait ends, the one before, or the one after; or any.
    fn end_of_wait(&self, random: &mut Random) -> [u8; 8] {
        if random.chance(50) {
            return self.block(random);
        }
        let wait = random.pick(&[31, 32, 32, 33]);
        let end = self
            .timer
            .since
            .saturating_add(wait)
            .max(self.timer.last_block);
        end.to_be_bytes()
    }
    /// Mostly the present one; else an older one, one that is not yet, a neighbour or any.
    fn token(&self, random: &mut Random) -> u64 {
        let present = *self.tokens.last().expect("one token");
        match random.below(20) {
            0..=13 => present,
            14..=16 => random.pick(&self.tokens),
            17 => self.timer.next,
            18 => random.pick(&[present.wrapping_sub(1), present.wrapping_add(1)]),
            _ => number(random),
        }
    }

    fn timer(random: &mut Random) -> Self {
        let mut life = Self::unborn(TIMER_STATE);
        if random.chance(2) {
            life.timer_call(random);
        }
        life.call(TIMER, &[&number(random).to_be_bytes()]);
        for _ in 0..calls(random) {
            life.timer_call(random);
        }
        life
    }
    fn timer_call(&mut self, random: &mut Random) {
        let (token, block) = (self.token(random).to_be_bytes(), self.block(random));
        match random.below(20) {
            0 => self.call(TIMER_RESET, &[]),
            1 => self.call(TIMER_TOKEN, &[]),
            2 => self.call(TIMER_OWNS, &[&token]),
            3 => self.call(TIMER_OBSERVE, &[&block]),
            4..=7 => self.call(TIMER_RECEIVED, &[&block]),
            8..=12 => self.call(TIMER_ADVANCE, &[&self.end_of_wait(random)]),
            13..=16 => self.call(TIMER_UNSOLICITED, &[&token, &block, &[result(random)]]),
            _ => self.call(TIMER_SOLICITED, &[&token, &block, &[result(random)]]),
        }
    }

    fn procedure(random: &mut Random) -> Self {
        let mut life = Self::unborn(PROCEDURE_STATE);
        let kind = random.octet() % 4;
        let own = good_identity(random, kind);
        let mut air = Air::new(random, own);
        if random.chance(2) {
            life.procedure_call(random, &mut air);
        }
        let made = match random.chance(3) {
            true => identity(random),
            false => own,
        };
        life.call(PROCEDURE, &[&made, &number(random).to_be_bytes()]);
        for _ in 0..calls(random) {
            life.procedure_call(random, &mut air);
        }
        life
    }
    fn procedure_call(&mut self, random: &mut Random, air: &mut Air) {
        let block = self.block(random);
        if random.chance(air.frames) {
            return self.call(RECEIVE, &[&block, &air.next(random)]);
        }
        match random.below(24) {
            0 => self.call(PROCEDURE_RESET, &[]),
            1 => self.call(PROCEDURE_ACTIVE, &[]),
            2..=6 => self.call(RECEIVE, &[&block, &air.other(random)]),
            7..=15 => self.call(ADVANCE, &[&self.end_of_wait(random)]),
            _ => {
                let transmission = self.transmission(random);
                self.call(SENT, &[&block, &transmission, &[result(random)]]);
            }
        }
    }
    /// Mostly the last that was given out; else an older one, one with another field, or one made up.
    fn transmission(&self, random: &mut Random) -> [u8; TRANSMISSION_OCTETS] {
        let token = self.token(random);
        let made_up = transmission(random, token);
        let Some(last) = self.transmissions.last() else {
            return made_up;
        };
        match random.below(20) {
            0..=11 => *last,
            12..=15 => random.pick(&self.transmissions),
            16 | 17 => {
                let place = random.below(TRANSMISSION_OCTETS);
                let mut changed = *last;
                changed[place] = made_up[place];
                changed
            }
            _ => made_up,
        }
    }
}
fn calls(random: &mut Random) -> usize {
    10 + random.below(51)
}
/// A first number or a token: small, any, or one of the last 13.
pub fn number(random: &mut Random) -> u64 {
    match random.below(10) {
        0..=4 => random.below(20) as u64,
        5 | 6 => random.any_length(),
        _ => u64::MAX - random.below(13) as u64,
    }
}
/// Mostly Sent; now and then none.
pub fn result(random: &mut Random) -> u8 {
    match random.below(50) {
        0 => random.pick(&[2, 255]),
        1..=9 => 1,
        _ => 0,
    }
}
/// Made up, with this token; one in 20 is none.
pub fn transmission(random: &mut Random, token: u64) -> [u8; TRANSMISSION_OCTETS] {
    let mut octets = random.octets::<TRANSMISSION_OCTETS>();
    for place in [MODE, KIND, COMPLETE_AT_POLL] {
        octets[place] %= 2;
    }
    octets[MODE + 1..KIND].copy_from_slice(&token.to_be_bytes());
    if random.chance(5) {
        octets[random.pick(&[MODE, KIND, COMPLETE_AT_POLL])] = random.pick(&[2, 255]);
    }
    octets
}

/// What a procedure hears.
struct Air {
    transfers: Vec<Transfer>,
    /// The frames that wait, the next one last.
    waiting: Vec<Parsed>,
    /// How many of 100 calls are the next frame.
    frames: usize,
}
impl Air {
    fn new(random: &mut Random, own: [u8; 9]) -> Self {
        let count = 1 + random.below(2);
        Self {
            transfers: (0..count)
                .map(|_| {
                    let length = length(random);
                    Transfer::new(random, own, length)
                })
                .collect(),
            waiting: Vec::new(),
            frames: random.pick(&[10, 30, 60, 80]),
        }
    }
    /// The operands of the next frame of a transfer, in its order.
    fn next(&mut self, random: &mut Random) -> Vec<u8> {
        if self.waiting.is_empty() {
            let transfer = &self.transfers[random.below(self.transfers.len())];
            let order = transfer.order(random).into_iter().rev();
            self.waiting = order.map(|index| transfer.polled(random, index)).collect();
        }
        let frame = self.waiting.pop().expect("a transfer has frames");
        operands(receive::push(random, &frame))
    }
    fn other(&self, random: &mut Random) -> Vec<u8> {
        let index = random.below(self.transfers.len());
        operands(self.transfers[index].other(random))
    }
}
/// A push without its op octet: what RECEIVE has after its block.
fn operands(mut push: Vec<u8>) -> Vec<u8> {
    push.remove(0);
    push
}
/// Of a message of one frame, of two, of several or of many.
fn length(random: &mut Random) -> usize {
    match random.below(20) {
        0..=6 => random.below(7),
        7..=12 => 4 + random.below(13),
        13..=18 => random.below(50),
        _ => random.below(256),
    }
}

#[cfg(test)]
mod tests {
    use super::*;
    use crate::generate::tests::assert_all_reached;
    use bts136::harness::script::operation;

    fn scripts(count: u64) -> Vec<Vec<u8>> {
        let mut random = Random(1);
        let lives = (0..count).map(|turn| Life::new(&mut random, turn));
        lives.map(|life| life.script).collect()
    }
    #[test]
    fn lives_have_every_number_octet_of_their_operations() {
        assert_all_reached(&OPERATIONS[usize::from(TIMER) - 1..], &scripts(4000));
    }
    #[test]
    fn lives_have_every_case_of_their_operations() {
        let counts = run(1, 20_000, Port::DRY).expect("the same twice");
        let rows = counts.cases.rows_from(TIMER);
        assert_eq!(counter::missing(&rows), Vec::<String>::new());
    }
    #[test]
    fn a_life_ends_after_so_many_operations() {
        let mut random = Random(1);
        let mut life = any(&mut random);
        let whole = life.script.clone();
        assert_eq!(life.truncate(2), 2);
        let first = operation(whole[0]).expect("of the table").operands;
        assert_eq!(life.script, whole[..1 + first + 1]);
    }
}
