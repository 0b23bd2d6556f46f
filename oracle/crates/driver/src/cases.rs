//! How the operations of a script were answered, by kind. Beside the number octets: the cases of an answer; the reasons of
//! a refusal where document 01 has several for one number; and of timers and procedures, tokens, waits and the order of
//! refusals. What must be met is document 01's, not what a run met.
use crate::{
    counter::{Counter, Row},
    timer::{State, Timer},
};
use bts136::harness::{
    script::{
        ACCEPT, ADDRESS, ADVANCE, ANSWERED, CHECK, COMPLETE, COUNT, DECODE, ENCODE, EQUAL, FRAME,
        HEADER_A, LEAST_ROOM, PARTS, PROCEDURE_ACTIVE, PROCEDURE_RESET, PROCEDURE_STATE, PUSH,
        RECEIVE, SENT, STATUS, Step, TIMER_ADVANCE, TIMER_OWNS, TIMER_RESET, TIMER_SOLICITED,
        TIMER_STATE, TIMER_TOKEN, TIMER_UNSOLICITED, operation,
    },
    wire::{self, FRAME_OCTETS},
};
use std::ops::{AddAssign, Range};

type Names = &'static [&'static str];

/// Every case that must be met, beside the number octets of each operation.
#[rustfmt::skip]
const CASES: [(u8, &[Names]); 23] = [
    (PARTS,             &[TYPES]),
    (CHECK,             &[IDENTITY]),
    (EQUAL,             &[NO_YES]),
    (ACCEPT,            &[IDENTITY, &["2 type"]]),
    (HEADER_A,          &[USAGES]),
    (ADDRESS,           &[TYPES]),
    (ENCODE,            &[KINDS, &["3 of a Begin", "3 of a Continue", "11 of a Begin", "11 of a Continue",
                          "Continue of a type over 3"]]),
    (DECODE,            &[KINDS, &["Continue with the skipped bit"], DECODED]),
    (COUNT,             &[&["1 frame", "27 frames"]]),
    (FRAME,             &[KINDS]),
    (PUSH,              &[RECEPTIONS, MESSAGES, &["empty message", "message of 255 octets", "Ignored Begin", "Ignored Continue"],
                          DECODED, PUSHED]),
    (STATUS,            &[HELD]),
    (COMPLETE,          &[NO_YES]),
    (TIMER_OWNS,        &[NO_YES]),
    (TIMER_RESET,       &[LEFT]),
    (TIMER_ADVANCE,     &[ACTIONS, WAITS, LEFT, LATE]),
    // A result never asks for a status.
    (TIMER_UNSOLICITED, &[&["None", "Terminate"], FOREIGN, LEFT, LATE]),
    (TIMER_SOLICITED,   &[&["None", "Terminate"], FOREIGN, LEFT, LATE]),
    (PROCEDURE_RESET,   &[LEFT]),
    (PROCEDURE_ACTIVE,  &[NO_YES]),
    (RECEIVE,           &[RECEPTIONS, MESSAGES, &["Begin over filled slots"], IGNORED, DECODED, PUSHED, LEFT, TAKEN, LATE,
                          &["18 before 16", "16 before 17", "refused after an accepted clock"]]),
    (ADVANCE,           &[TIMER_EVENTS, WAITS, LEFT, TAKEN, LATE]),
    (SENT,              &[SEND_EVENTS, FOREIGN, LEFT, LATE]),
];
const NO_YES: Names = &["no", "yes"];
const HELD: Names = &["nothing", "held"];
const TYPES: Names = &["Tmsi20", "Tmsi24", "Min34", "Imsi50"];
const USAGES: Names = &["Arch", "Smsch", "Pch"];
const KINDS: Names = &["Begin", "Continue"];
const IDENTITY: Names = &["2 zero", "2 too wide"];
const ACTIONS: Names = &["None", "RequestUnsolicitedStatus", "Terminate"];
const TIMER_EVENTS: Names = &["None", "SendStatus", "Terminated"];
const SEND_EVENTS: Names = &["Ignored", "Pending", "Complete", "Failed"];
#[rustfmt::skip]
const RECEPTIONS: Names = &["Ignored", "accepted", "message", "status", "message and status"];
#[rustfmt::skip]
const DECODED: Names = &["3 usage", "6 fourth flag", "6 fourth flag of a Pch", "3 Pch", "4 kind", "4 bit after the type",
    "6 reserved of a Begin", "6 reserved of a Continue"];
const MESSAGES: Names = &["message by a Begin", "message by a Continue"];
/// Where a push has further reasons, decode's own among them.
#[rustfmt::skip]
const PUSHED: Names = &["7 filler of a Begin", "12 over 25", "12 not needed", "7 past the message"];
#[rustfmt::skip]
const IGNORED: Names = &["Ignored Begin", "Ignored without a transaction", "Ignored of another echo",
    "Ignored of another channel or type"];
/// Tokens that are left where the call is still answered, and where it is refused.
const LEFT: Names = &["4 left", "3 left"];
/// Two tokens of the last four.
const TAKEN: Names = &["takes 2 of 4"];
const LATE: Names = &["18 before 17"];
#[rustfmt::skip]
const FOREIGN: Names = &["foreign token", "foreign token before 18", "foreign token before 17"];
#[rustfmt::skip]
const WAITS: Names = &["None at 31 blocks", "status at 32 blocks", "None while a status is pending",
    "None at 31 of the final wait", "end at 32 of the final wait"];

#[derive(Default)]
pub struct Cases(Counter<(u8, &'static str)>);
impl AddAssign for Cases {
    fn add_assign(&mut self, other: Self) {
        self.0 += other.0;
    }
}
impl Cases {
    /// The steps of a script, and its answers.
    pub fn add(&mut self, script: &[u8], steps: &[Step], answers: &[u8]) {
        // What the neighbour of a step shows of the state.
        let state = |op: u8, neighbour: Option<usize>| {
            let step = steps.get(neighbour?)?;
            let shows = state_of(op) == Some(step.operation.op);
            shows.then(|| &answers[step.answer.clone()])
        };
        for (index, step) in steps.iter().enumerate() {
            let op = step.operation.op;
            let told = Told {
                op,
                operands: &script[step.operands.clone()],
                answer: &answers[step.answer.clone()],
                before: state(op, index.checked_sub(1)),
                after: state(op, index.checked_add(1)),
            };
            told.cases(|case| self.0.add((op, case)));
        }
    }
    pub fn of(&self, op: u8, case: &'static str) -> u64 {
        self.0.of(&(op, case))
    }
    pub fn rows(&self) -> Vec<Row> {
        self.rows_from(PARTS)
    }
    /// Of the operations from this one on.
    pub fn rows_from(&self, first: u8) -> Vec<Row> {
        let lists = CASES.iter().filter(|(op, _)| *op >= first);
        let rows = lists.flat_map(|(op, lists)| {
            let name = operation(*op).expect("of the table").name;
            let cases = lists.iter().copied().flatten();
            cases.map(move |case| Row::new(name, case, self.of(*op, case)))
        });
        rows.collect()
    }
}
/// The operation that shows what this one changes, a timer or a procedure that there is.
fn state_of(op: u8) -> Option<u8> {
    match op {
        PROCEDURE_RESET.. => Some(PROCEDURE_STATE),
        TIMER_TOKEN..=TIMER_STATE => Some(TIMER_STATE),
        _ => None,
    }
}

/// An operation that was answered, and the states before and after it if the script shows them.
struct Told<'a> {
    op: u8,
    operands: &'a [u8],
    answer: &'a [u8],
    before: Option<&'a [u8]>,
    after: Option<&'a [u8]>,
}
/// The place of a frame's operand that has a Continue's type.
const CONTINUE_TYPE: usize = 24;
/// The places of PROCEDURE_STATE's answer that tell whether a transaction is held, its echo and its map.
const STATE_HELD: usize = 35;
const STATE_ECHO: usize = 36;
const STATE_MAP: Range<usize> = 37..41;
/// The same of a push's answer: a message, its length, and a status.
const MESSAGE_GIVEN: usize = 2;
const MESSAGE_LENGTH: usize = 14;
const STATUS_GIVEN: usize = 15;

impl Told<'_> {
    fn cases(&self, mut add: impl FnMut(&'static str)) {
        let named = |names: Names, index: &u8| names[usize::from(*index)];
        match (self.op, self.answer) {
            (PARTS | ADDRESS, [ANSWERED, kind, ..]) => add(named(TYPES, kind)),
            (CHECK | ACCEPT, [2]) => add(self.identity()),
            (EQUAL | COMPLETE | TIMER_OWNS | PROCEDURE_ACTIVE, [ANSWERED, flag]) => {
                add(named(NO_YES, flag));
            }
            (HEADER_A, [ANSWERED, usage, ..]) => add(match usage {
                3 => "Arch",
                4 => "Smsch",
                _ => "Pch",
            }),
            (ENCODE, _) => self.encoded(&mut add),
            (FRAME, [ANSWERED, kind, ..]) => add(named(KINDS, kind)),
            (DECODE, [ANSWERED, kind, ..]) => {
                add(named(KINDS, kind));
                if *kind == 1 && self.field(12, 1) == 1 {
                    add("Continue with the skipped bit");
                }
            }
            (COUNT, [ANSWERED, 1]) => add("1 frame"),
            (COUNT, [ANSWERED, 27]) => add("27 frames"),
            (DECODE, [number]) => self.refused(*number, &mut add),
            (PUSH | RECEIVE, _) => self.pushed(&mut add),
            (STATUS, [ANSWERED, held, ..]) => add(named(HELD, held)),
            (TIMER_ADVANCE | TIMER_UNSOLICITED | TIMER_SOLICITED, [ANSWERED, action]) => {
                add(named(ACTIONS, action));
            }
            (ADVANCE, [ANSWERED, event, ..]) => add(named(TIMER_EVENTS, event)),
            (SENT, [ANSWERED, event]) => add(named(SEND_EVENTS, event)),
            _ => {}
        }
        if let Some(before) = self.before.and_then(Timer::of) {
            self.tokens(&before, &mut add);
            self.waits(&before, &mut add);
            self.clocks(&before, &mut add);
        }
    }
    fn word(&self, at: usize) -> u64 {
        u64::from_be_bytes(*self.operands[at..].first_chunk().expect("an operand"))
    }
    fn identity(&self) -> &'static str {
        match (self.operands[0], self.word(1)) {
            (4.., _) => "2 type",
            (_, 0) => "2 zero",
            _ => "2 too wide",
        }
    }
    fn encoded(&self, add: &mut impl FnMut(&'static str)) {
        let kind = self.operands[0];
        match (self.answer[0], kind) {
            (ANSWERED, _) => {
                add(KINDS[usize::from(kind)]);
                if kind == 1 && self.operands[CONTINUE_TYPE] > 3 {
                    add("Continue of a type over 3");
                }
            }
            (3, 0) => add("3 of a Begin"),
            (3, _) => add("3 of a Continue"),
            (11, 0) => add("11 of a Begin"),
            (11, _) => add("11 of a Continue"),
            _ => {}
        }
    }

    /// The octets after the length of what was heard.
    fn heard(&self) -> &[u8] {
        match self.op {
            RECEIVE => &self.operands[9..],
            _ => &self.operands[1..],
        }
    }
    /// A field of the frame that was heard.
    fn field(&self, offset: usize, width: usize) -> u8 {
        let bits = wire::unpack_frame(&self.heard()[..FRAME_OCTETS]);
        let bits = bits[offset..offset + width].iter();
        bits.fold(0, |value, bit| value << 1 | u8::from(*bit))
    }
    fn begins(&self) -> bool {
        self.field(7, 3) == 5
    }
    /// The reason of decode's refusals and push's, where one number has several.
    fn refused(&self, number: u8, add: &mut impl FnMut(&'static str)) {
        match number {
            3 if self.field(0, 3) == 7 => add("3 Pch"),
            3 => add("3 usage"),
            4 if self.begins() => add("4 bit after the type"),
            4 => add("4 kind"),
            6 if self.field(6, 1) == 1 => {
                add("6 fourth flag");
                if self.field(0, 3) == 7 {
                    add("6 fourth flag of a Pch");
                }
            }
            6 if self.begins() => add("6 reserved of a Begin"),
            6 => add("6 reserved of a Continue"),
            7 if self.begins() => add("7 filler of a Begin"),
            7 => add("7 past the message"),
            12 if self.field(25, 5) > 25 => add("12 over 25"),
            12 => add("12 not needed"),
            _ => {}
        }
    }
    fn pushed(&self, add: &mut impl FnMut(&'static str)) {
        let [ANSWERED, accepted, ..] = *self.answer else {
            return self.refused(self.answer[0], add);
        };
        let message = self.answer[MESSAGE_GIVEN];
        let case = accepted + message + 2 * self.answer[STATUS_GIVEN];
        add(RECEPTIONS[usize::from(case)]);
        if message == 1 {
            self.delivered(add);
        }
        if accepted == 0 {
            add(self.ignored());
        } else if self.begins()
            && self
                .procedure()
                .is_some_and(|state| state[STATE_MAP] != [0; 4])
        {
            add("Begin over filled slots");
        }
    }
    fn delivered(&self, add: &mut impl FnMut(&'static str)) {
        add(match self.begins() {
            true => "message by a Begin",
            false => "message by a Continue",
        });
        match self.answer[MESSAGE_LENGTH] {
            0 => add("empty message"),
            255 => add("message of 255 octets"),
            _ => {}
        }
    }
    /// The procedure before, if it is shown and there is one.
    fn procedure(&self) -> Option<&[u8]> {
        let shown = self.before.filter(|_| self.op == RECEIVE);
        shown.filter(|state| state[0] == ANSWERED)
    }
    fn ignored(&self) -> &'static str {
        if self.begins() {
            return "Ignored Begin";
        }
        match self.procedure() {
            None => "Ignored Continue",
            Some(state) if state[STATE_HELD] == 0 => "Ignored without a transaction",
            Some(state) if state[STATE_ECHO] != self.field(14, 7) => "Ignored of another echo",
            Some(_) => "Ignored of another channel or type",
        }
    }

    fn block(&self) -> Option<u64> {
        match self.op {
            TIMER_ADVANCE | RECEIVE | ADVANCE | SENT => Some(self.word(0)),
            TIMER_UNSOLICITED | TIMER_SOLICITED => Some(self.word(8)),
            _ => None,
        }
    }
    fn token(&self) -> Option<u64> {
        match self.op {
            TIMER_UNSOLICITED | TIMER_SOLICITED => Some(self.word(0)),
            // A block, then echo, map and mode of a transmission.
            SENT => Some(self.word(14)),
            _ => None,
        }
    }
    fn late(&self, before: &Timer) -> bool {
        self.block().is_some_and(|block| block < before.last_block)
    }
    fn tokens(&self, before: &Timer, add: &mut impl FnMut(&'static str)) {
        let (number, left) = (self.answer[0], before.left());
        if self.token().is_some_and(|token| token != before.token) {
            if number == ANSWERED {
                self.foreign(before, add);
            }
            return;
        }
        match (number, left) {
            (ANSWERED, 4) => add("4 left"),
            (18, 3) => add("3 left"),
            _ => {}
        }
        let after = self.after.and_then(Timer::of);
        if left == 4 && after.is_some_and(|after| after.left() == 2) {
            add("takes 2 of 4");
        }
    }
    fn foreign(&self, before: &Timer, add: &mut impl FnMut(&'static str)) {
        add("foreign token");
        if before.left() < 4 {
            add("foreign token before 18");
        }
        if self.late(before) {
            add("foreign token before 17");
        }
    }
    fn waits(&self, before: &Timer, add: &mut impl FnMut(&'static str)) {
        let ([ANSWERED, event, ..], TIMER_ADVANCE | ADVANCE) = (self.answer, self.op) else {
            return;
        };
        let blocks = self.word(0) - before.since;
        match (before.state, before.pending, blocks, event) {
            (State::Waiting, false, 31, 0) => add("None at 31 blocks"),
            (State::Waiting, false, 32, 1) => add("status at 32 blocks"),
            (State::Waiting, true, 32.., 0) => add("None while a status is pending"),
            (State::FinalWait, _, 31, 0) => add("None at 31 of the final wait"),
            (State::FinalWait, _, 32, 2) => add("end at 32 of the final wait"),
            _ => {}
        }
    }
    /// Which of two refusals that both fit was given, and whether an accepted clock stays moved.
    fn clocks(&self, before: &Timer, add: &mut impl FnMut(&'static str)) {
        let number = self.answer[0];
        if number == 18 && self.late(before) {
            add("18 before 17");
        }
        if self.op != RECEIVE {
            return;
        }
        // Block, length and octets stand before the room.
        let room = u16::from_be_bytes([self.operands[41], self.operands[42]]);
        if number == 18 && usize::from(room) < LEAST_ROOM {
            add("18 before 16");
        }
        if number == 16 && self.late(before) {
            add("16 before 17");
        }
        let after = self.after.and_then(Timer::of);
        if number != ANSWERED && after.is_some_and(|after| after.last_block != before.last_block) {
            add("refused after an accepted clock");
        }
    }
}
