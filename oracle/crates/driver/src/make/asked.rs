//! The end of the fixed script: the first bit past a message, of each type; the bit that decode skips, of each type; COMPLETE after
//! each frame of the longest message; PROCEDURE_ACTIVE after each call on a procedure, with a message of four frames.
use super::{
    Script,
    apart::{OWN, octet},
    changed, cut,
    lives::{GONE, SOLICITED, UNSOLICITED, polled},
};
use crate::{
    generate::{decode_operands, encoded, identity_operand, room},
    receive::Parsed,
};
use bts136::harness::{
    script::{COMPLETE, DECODE, NEW, PROCEDURE_ACTIVE},
    wire,
};

/// Where a frame's Continue data start.
const CONTINUE_DATA: usize = 26;

impl Script {
    /// A message of ten octets has its last bits in the one Continue: the bit after them is refused, they are not.
    pub fn filler_starts(&mut self) {
        let message: Vec<u8> = (0..9).map(octet).chain([0xff]).collect();
        for (header, kind, value) in OWN {
            let own = identity_operand(kind, value);
            let frames = wire::cut(header, own, &message).expect("a message that is cut");
            let past = 8 * message.len() - room(kind);
            let place = CONTINUE_DATA + past / 8;
            let filled = frames[1][place] | 0x80 >> (past % 8);
            self.push(NEW, &[&own]);
            self.heard(&frames[0], 255);
            self.heard(&changed(&frames[1], place, filled), 255);
            self.heard(&frames[1], 255);
        }
    }
    /// Continues with the bit after the type set.
    pub fn skipped(&mut self) {
        for (header, kind, value) in OWN {
            let message: Vec<u8> = (0..30).map(octet).collect();
            let frames = wire::cut(header, identity_operand(kind, value), &message);
            let mut octets = encoded(&frames.expect("a message that is cut")[2]);
            octets[1] |= 0x08;
            self.push(DECODE, &[&decode_operands(&octets)]);
        }
    }
    /// Complete with the last frame of 27, and not before.
    pub fn longest_asked(&mut self) {
        let own = identity_operand(1, 0x9a_bcde);
        let message: Vec<u8> = (0..255).map(octet).collect();
        self.push(NEW, &[&own]);
        for frame in &cut(own, &message) {
            self.heard(frame, 255);
            self.push(COMPLETE, &[]);
        }
    }
    /// Active from the Begin on, in every state of the timer, until the last status was sent; complete with the third Continue alone.
    pub fn active_throughout(&mut self) {
        let own = identity_operand(0, 0x9_abcd);
        let message: Vec<u8> = (0..30).map(octet).collect();
        let four: Vec<Parsed> = cut(own, &message)
            .iter()
            .map(|frame| changed(frame, 4, 0))
            .collect();
        self.made(own, 200);
        self.asked_active();
        self.received(3000, &four[0]);
        self.asked_active();
        self.received(3001, &four[3]);
        self.asked_active();
        self.received(3002, &polled(&four[1]));
        self.asked_active();
        self.sent(3003, 201, SOLICITED, 0, GONE);
        self.asked_active();
        self.advanced(3034);
        self.asked_active();
        self.advanced(3035);
        self.asked_active();
        self.sent(3040, 201, UNSOLICITED, 0, GONE);
        self.asked_active();
        self.advanced(3071);
        self.asked_active();
        self.received(3072, &changed(&four[2], 25, 3));
        self.asked_active();
        self.received(3073, &polled(&four[2]));
        self.asked_active();
        self.advanced(3200);
        self.asked_active();
        self.sent(3201, 201, SOLICITED, 1, GONE);
        self.asked_active();
    }
    fn asked_active(&mut self) {
        self.push(PROCEDURE_ACTIVE, &[]);
    }
}
