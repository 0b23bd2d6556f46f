//! The part of the fixed script that is about timers and procedures.
use super::{HEADER, Script, changed, pair, undecoded};
use crate::{
    generate::{decode_operands, encoded, identity_operand},
    receive::Parsed,
};
use bts136::harness::{
    script::{
        ADVANCE, DECODE_OCTETS, LEAST_ROOM, PROCEDURE, PROCEDURE_ACTIVE, PROCEDURE_RESET,
        PROCEDURE_STATE, RECEIVE, SENT, TIMER, TIMER_ADVANCE, TIMER_OBSERVE, TIMER_OWNS,
        TIMER_RECEIVED, TIMER_RESET, TIMER_SOLICITED, TIMER_STATE, TIMER_TOKEN, TIMER_UNSOLICITED,
        operation,
    },
    wire::{self, FRAME_OCTETS, HEADER_OCTETS},
};
use std::ops::RangeInclusive;

const LAST: u64 = u64::MAX;
/// Results, and the kinds of a transmission.
pub const GONE: u8 = 0;
pub const FAILED: u8 = 1;
pub const SOLICITED: u8 = 0;
pub const UNSOLICITED: u8 = 1;

/// An operation, its words, and the octets after them.
pub type Row = (u8, &'static [u64], &'static [u8]);
/// Both waits to the block, and a result that comes twice.
const WAITS: [Row; 11] = [
    (TIMER, &[7], &[]),
    (TIMER_RECEIVED, &[10], &[]),
    (TIMER_ADVANCE, &[41], &[]),
    (TIMER_ADVANCE, &[42], &[]),
    (TIMER_ADVANCE, &[80], &[]),
    (TIMER_UNSOLICITED, &[7, 90], &[GONE]),
    (TIMER_UNSOLICITED, &[7, 91], &[FAILED]),
    (TIMER_ADVANCE, &[121], &[]),
    (TIMER_ADVANCE, &[122], &[]),
    (TIMER_UNSOLICITED, &[8, 123], &[FAILED]),
    (TIMER_SOLICITED, &[8, 124], &[FAILED]),
];
/// A frame, then a solicited result while a status is pending; a solicited one in the final wait; results that fail.
const PENDING: [Row; 17] = [
    (TIMER_RECEIVED, &[130], &[]),
    (TIMER_ADVANCE, &[162], &[]),
    (TIMER_RECEIVED, &[163], &[]),
    (TIMER_ADVANCE, &[199], &[]),
    (TIMER_UNSOLICITED, &[8, 200], &[GONE]),
    (TIMER_ADVANCE, &[231], &[]),
    (TIMER_ADVANCE, &[232], &[]),
    (TIMER_SOLICITED, &[8, 240], &[GONE]),
    (TIMER_ADVANCE, &[280], &[]),
    (TIMER_UNSOLICITED, &[8, 281], &[GONE]),
    (TIMER_ADVANCE, &[313], &[]),
    (TIMER_UNSOLICITED, &[8, 313], &[GONE]),
    (TIMER_SOLICITED, &[8, 314], &[GONE]),
    (TIMER_ADVANCE, &[346], &[]),
    (TIMER_UNSOLICITED, &[8, 347], &[FAILED]),
    (TIMER_RECEIVED, &[347], &[]),
    (TIMER_SOLICITED, &[9, 348], &[FAILED]),
];
/// The clock back, foreign tokens before it; a clock at its end.
const CLOCKS: [Row; 12] = [
    (TIMER_OBSERVE, &[347], &[]),
    (TIMER_RECEIVED, &[347], &[]),
    (TIMER_ADVANCE, &[347], &[]),
    (TIMER_UNSOLICITED, &[10, 347], &[GONE]),
    (TIMER_SOLICITED, &[10, 347], &[GONE]),
    (TIMER_UNSOLICITED, &[9, 347], &[FAILED]),
    (TIMER_SOLICITED, &[11, 400], &[FAILED]),
    (TIMER_UNSOLICITED, &[10, 348], &[2]),
    (TIMER_SOLICITED, &[11, 348], &[255]),
    (TIMER_RESET, &[], &[]),
    (TIMER_RECEIVED, &[LAST - 31], &[]),
    (TIMER_ADVANCE, &[LAST], &[]),
];
/// Four tokens left, then three: a foreign token goes before 18, and 18 before the clock.
const TOKENS: [Row; 17] = [
    (TIMER, &[LAST - 5], &[]),
    (TIMER_RECEIVED, &[0], &[]),
    (TIMER_ADVANCE, &[32], &[]),
    (TIMER_UNSOLICITED, &[LAST - 5, 32], &[GONE]),
    (TIMER_ADVANCE, &[64], &[]),
    (TIMER_RESET, &[], &[]),
    (TIMER_ADVANCE, &[63], &[]),
    (TIMER_UNSOLICITED, &[LAST - 4, 63], &[GONE]),
    (TIMER_SOLICITED, &[LAST - 4, 63], &[GONE]),
    (TIMER_UNSOLICITED, &[LAST - 5, 63], &[GONE]),
    (TIMER_SOLICITED, &[LAST - 3, 63], &[GONE]),
    (TIMER_OBSERVE, &[63], &[]),
    (TIMER_OBSERVE, &[65], &[]),
    (TIMER_RECEIVED, &[66], &[]),
    (TIMER, &[LAST - 4], &[]),
    (TIMER_RESET, &[], &[]),
    (TIMER, &[LAST], &[]),
];

impl Script {
    pub fn timers(&mut self) {
        self.unmade(TIMER_TOKEN..=TIMER_STATE);
        for rows in [&WAITS[..], &PENDING, &CLOCKS, &TOKENS] {
            self.rows(rows);
        }
        self.push(TIMER_TOKEN, &[]);
        for number in [LAST, LAST - 1] {
            self.push(TIMER_OWNS, &[&word(number)]);
        }
    }
    /// Operations of a timer, one after the other, and the state after each.
    pub fn rows(&mut self, rows: &[Row]) {
        for (op, words, octets) in rows {
            let words: Vec<u8> = words.iter().flat_map(|word| word.to_be_bytes()).collect();
            self.lived(*op, &[&words, octets]);
        }
    }
    /// Operations that have nothing to work on.
    fn unmade(&mut self, ops: RangeInclusive<u8>) {
        for op in ops {
            let operands = operation(op).expect("an op octet of the table").operands;
            self.push(op, &[&vec![0; operands]]);
        }
    }
    /// An operation of a timer or of a procedure, and the state after it.
    pub fn lived(&mut self, op: u8, operands: &[&[u8]]) {
        self.push(op, operands);
        self.push(
            match op < PROCEDURE {
                true => TIMER_STATE,
                false => PROCEDURE_STATE,
            },
            &[],
        );
    }

    /// Without a procedure, then messages of one, two and three frames.
    pub fn procedures(&mut self) {
        let own = identity_operand(2, 0x1_2345_6789);
        let [one, two, three] = [5, 6, 20].map(|length| {
            let message = vec![0xa5; length];
            wire::cut(UNPOLLED, own, &message).expect("a message that is cut")
        });
        self.unmade(PROCEDURE_RESET..=PROCEDURE_STATE);
        self.made(identity_operand(0, 0), 0);
        self.made(identity_operand(4, 1), 0);
        self.made(own, LAST - 6);
        self.silent(&three);
        self.short_of_tokens(&one);
        // An unpolled Begin of all: two numbers of four.
        self.made(own, LAST - 5);
        self.received(9, &one[0]);
        self.made(own, LAST - 4);
        self.lived(PROCEDURE_RESET, &[]);
        self.made(own, 7);
        self.completed(&one, &two);
        self.pending(&three);
        self.refused(&three);
        self.made_up();
    }
    /// Both waits to the block, a transmission that is used twice, and the end, which takes two numbers of four.
    fn silent(&mut self, three: &[Parsed]) {
        self.received(10, &three[0]);
        self.push(PROCEDURE_ACTIVE, &[]);
        self.advanced(41);
        self.advanced(42);
        for block in [50, 49, 51] {
            self.sent(block, LAST - 5, UNSOLICITED, 0, GONE);
        }
        self.advanced(81);
        self.advanced(82);
        self.push(PROCEDURE_ACTIVE, &[]);
    }
    /// A foreign token goes before 18, and 18 before the room and the clock.
    fn short_of_tokens(&mut self, one: &[Parsed]) {
        self.lived(PROCEDURE_RESET, &[]);
        self.advanced(81);
        self.sent(81, LAST - 3, SOLICITED, 1, GONE);
        self.sent(81, LAST - 5, SOLICITED, 1, GONE);
        let frame = decode_operands(&encoded(&one[0]));
        self.lived(RECEIVE, &[&word(81), &frame, &pair(0), &[0xaa]]);
    }
    /// A polled Begin of all, until its status is sent; a polled Continue that completes and comes again unpolled.
    fn completed(&mut self, one: &[Parsed], two: &[Parsed]) {
        self.received(100, &polled(&one[0]));
        self.advanced(500);
        self.sent(500, 8, SOLICITED, 1, GONE);
        self.sent(500, 8, SOLICITED, 1, GONE);
        self.received(501, &two[0]);
        self.received(502, &polled(&two[1]));
        self.received(503, &two[1]);
        self.sent(504, 10, SOLICITED, 1, GONE);
    }
    /// A frame of another echo, which moves the clock alone; a polled one and its status while an unsolicited one is
    /// pending.
    fn pending(&mut self, three: &[Parsed]) {
        self.received(1000, &three[0]);
        self.received(1010, &changed(&three[1], 3, 6));
        self.advanced(1032);
        self.received(1033, &polled(&three[1]));
        self.advanced(1070);
        self.sent(1071, 12, SOLICITED, 0, GONE);
        self.sent(1072, 12, UNSOLICITED, 0, GONE);
        self.advanced(1103);
        self.advanced(1104);
    }
    /// Refusals in their order; an accepted clock stays moved.
    fn refused(&mut self, three: &[Parsed]) {
        let padded = padded(&three[1]);
        let short = LEAST_ROOM - 1;
        for (block, room) in [
            (1300, short),
            (1103, short),
            (1103, LEAST_ROOM),
            (1300, LEAST_ROOM),
        ] {
            self.lived(RECEIVE, &[&word(block), &padded, &pair(room), &[0xaa]]);
        }
        self.advanced(1299);
        for operands in undecoded(three) {
            self.push(
                RECEIVE,
                &[&word(1301), &operands, &pair(LEAST_ROOM), &[0xaa]],
            );
        }
        self.push(RECEIVE, &[&word(1301), &padded, &pair(305), &[0xaa]]);
        // A number that is not needed, filler, other data.
        for (frame, place, value) in [(1, 25, 2), (2, 35, 2), (1, 26, 0)] {
            self.received(1302, &changed(&three[frame], place, value));
        }
    }
    /// Transmissions made up: Complete, Failed, and four that are none.
    fn made_up(&mut self) {
        self.sent(1400, 12, UNSOLICITED, 1, GONE);
        self.sent(1400, 13, SOLICITED, 1, FAILED);
        for octets in [[2, 0, 0, 0], [0, 2, 0, 0], [0, 0, 2, 0], [0, 0, 0, 2]] {
            let [mode, kind, complete, result] = octets;
            let transmission = transmission(14, mode, kind, complete);
            self.push(SENT, &[&word(1400), &transmission, &[result]]);
        }
        self.lived(PROCEDURE_RESET, &[]);
    }

    pub fn made(&mut self, identity: [u8; 9], first: u64) {
        self.lived(PROCEDURE, &[&identity, &word(first)]);
    }
    pub fn received(&mut self, block: u64, frame: &Parsed) {
        let frame = decode_operands(&encoded(frame));
        self.lived(RECEIVE, &[&word(block), &frame, &pair(LEAST_ROOM), &[0xaa]]);
    }
    pub fn advanced(&mut self, block: u64) {
        self.lived(ADVANCE, &[&word(block)]);
    }
    pub fn sent(&mut self, block: u64, token: u64, kind: u8, complete_at_poll: u8, result: u8) {
        let transmission = transmission(token, 0, kind, complete_at_poll);
        self.lived(SENT, &[&word(block), &transmission, &[result]]);
    }
}
pub fn word(value: u64) -> [u8; 8] {
    value.to_be_bytes()
}
/// HEADER without its polling.
const UNPOLLED: [u8; HEADER_OCTETS] = [HEADER[0], HEADER[1], HEADER[2], 0, HEADER[4]];
pub fn polled(frame: &Parsed) -> Parsed {
    changed(frame, 4, 1)
}
/// The operands of a frame with a set bit of padding.
fn padded(frame: &Parsed) -> [u8; 1 + DECODE_OCTETS] {
    let mut octets = encoded(frame);
    octets[FRAME_OCTETS - 1] |= 1;
    decode_operands(&octets)
}
/// Echo and map are of no account.
fn transmission(token: u64, mode: u8, kind: u8, complete_at_poll: u8) -> Vec<u8> {
    [
        &[5, 0, 0, 0, 1, mode][..],
        &word(token),
        &[kind, complete_at_poll],
    ]
    .concat()
}
