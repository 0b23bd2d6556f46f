//! A late part of the fixed script: octets that all differ, so that none may take another's place; bits and fields that are
//! not read; two faults at once; each call of a timer and of a procedure in each state that it can be in.
use super::{
    Script, begin, changed, continuing, cut,
    lives::{FAILED, GONE, Row, SOLICITED, UNSOLICITED, polled, word},
    pair, with_echo,
};
use crate::{
    generate::{MESSAGE_EIGHTHS, decode_operands, encoded, frames, identity_operand},
    receive::Parsed,
};
use bts136::harness::{
    script::{
        COUNT, DECODE, ENCODE, FRAME, MESSAGE, PROCEDURE_ACTIVE, PROCEDURE_RESET, TIMER,
        TIMER_ADVANCE, TIMER_OBSERVE, TIMER_RECEIVED, TIMER_RESET, TIMER_SOLICITED, TIMER_TOKEN,
        TIMER_UNSOLICITED,
    },
    wire::{self, FRAME_OCTETS, HEADER_OCTETS},
};
use std::collections::BTreeSet;

/// A header and an identity of each type, no two of them alike in a field.
pub const OWN: [([u8; HEADER_OCTETS], u8, u64); 4] = [
    ([3, 8, 0x55, 0, 1], 0, 0x9_abcd),
    ([4, 4, 0x2a, 1, 0], 1, 0x9a_bcde),
    ([3, 2, 0x01, 1, 1], 2, 0x2_3456_789a),
    ([4, 1, 0x7e, 0, 0], 3, 0x2_3456_789a_bcde),
];
/// Data whose octets all differ.
const DATA: [u8; 10] = [0x8e, 0x31, 0xc5, 0x5a, 0x0f, 0x72, 0xe9, 0x1b, 0xd4, 0xa7];
/// Frames that decode refuses, or would in another order: each but the last has the fault that it is refused for and the next one.
const FAULTS: [[u8; FRAME_OCTETS]; 13] = [
    [
        0x01, 0x40, 0x00, 0x00, 0x21, 0x40, 0x05, 0x04, 0, 0, 0, 0, 0, 0x01,
    ],
    [
        0xa3, 0x40, 0x00, 0x00, 0x21, 0x40, 0x05, 0x04, 0, 0, 0, 0, 0, 0,
    ],
    [
        0xe3, 0x40, 0x00, 0x00, 0x21, 0x40, 0x05, 0x04, 0, 0, 0, 0, 0, 0,
    ],
    [
        0xe1, 0x00, 0x00, 0x00, 0x21, 0x40, 0x05, 0x04, 0, 0, 0, 0, 0, 0,
    ],
    [
        0x61, 0x0a, 0x00, 0x00, 0x21, 0x40, 0x05, 0x04, 0, 0, 0, 0, 0, 0,
    ],
    [
        0x61, 0x4a, 0x00, 0x00, 0x21, 0x40, 0x05, 0x04, 0, 0, 0, 0, 0, 0,
    ],
    [
        0x61, 0x42, 0x00, 0x00, 0x01, 0x40, 0x05, 0x04, 0, 0, 0, 0, 0, 0,
    ],
    [
        0x61, 0x40, 0x00, 0x00, 0x01, 0x60, 0x05, 0x04, 0, 0, 0, 0, 0, 0,
    ],
    [
        0x61, 0x40, 0x00, 0x00, 0x21, 0x50, 0x01, 0x04, 0, 0, 0, 0, 0, 0,
    ],
    [
        0x61, 0x40, 0x00, 0x00, 0x21, 0x40, 0x01, 0x04, 0, 0, 0, 0, 0, 0,
    ],
    [0x61, 0x80, 0x2c, 0x68, 0, 0, 0, 0, 0, 0, 0, 0, 0, 0],
    [0x61, 0x80, 0x28, 0x68, 0, 0, 0, 0, 0, 0, 0, 0, 0, 0x01],
    [0x61, 0x88, 0x28, 0x00, 0, 0, 0, 0, 0, 0, 0, 0, 0, 0],
];

/// Each call of a timer in each state, with a status pending and with none; every end of a transaction.
const STATES: [Row; 72] = [
    (TIMER, &[20], &[]),
    (TIMER_OBSERVE, &[5], &[]),
    (TIMER_ADVANCE, &[6], &[]),
    (TIMER_RECEIVED, &[10], &[]),
    (TIMER_RECEIVED, &[10], &[]),
    (TIMER_RECEIVED, &[20], &[]),
    (TIMER_OBSERVE, &[30], &[]),
    (TIMER_SOLICITED, &[20, 31], &[GONE]),
    (TIMER_UNSOLICITED, &[20, 32], &[GONE]),
    (TIMER_UNSOLICITED, &[20, 33], &[FAILED]),
    (TIMER_ADVANCE, &[62], &[]),
    (TIMER_ADVANCE, &[63], &[]),
    (TIMER_OBSERVE, &[64], &[]),
    (TIMER_ADVANCE, &[200], &[]),
    (TIMER_SOLICITED, &[20, 201], &[GONE]),
    (TIMER_RECEIVED, &[202], &[]),
    (TIMER_OBSERVE, &[203], &[]),
    (TIMER_ADVANCE, &[300], &[]),
    (TIMER_UNSOLICITED, &[20, 301], &[GONE]),
    (TIMER_ADVANCE, &[332], &[]),
    (TIMER_ADVANCE, &[333], &[]),
    (TIMER_UNSOLICITED, &[20, 334], &[GONE]),
    // The final wait: the clock; a result that nobody waits for; a frame.
    (TIMER_OBSERVE, &[340], &[]),
    (TIMER_UNSOLICITED, &[20, 341], &[FAILED]),
    (TIMER_UNSOLICITED, &[20, 342], &[GONE]),
    (TIMER_ADVANCE, &[365], &[]),
    (TIMER_RECEIVED, &[365], &[]),
    (TIMER_ADVANCE, &[396], &[]),
    (TIMER_ADVANCE, &[397], &[]),
    (TIMER_UNSOLICITED, &[20, 400], &[GONE]),
    (TIMER_SOLICITED, &[20, 410], &[FAILED]),
    // Reset in the final wait, while it waits, while a status is being sent.
    (TIMER_RECEIVED, &[500], &[]),
    (TIMER_ADVANCE, &[532], &[]),
    (TIMER_UNSOLICITED, &[21, 533], &[GONE]),
    (TIMER_RESET, &[], &[]),
    (TIMER_RECEIVED, &[600], &[]),
    (TIMER_RESET, &[], &[]),
    (TIMER_RECEIVED, &[700], &[]),
    (TIMER_ADVANCE, &[732], &[]),
    (TIMER_RESET, &[], &[]),
    // Failed while a status is being sent, and while it waits with one pending, of either kind.
    (TIMER_RECEIVED, &[800], &[]),
    (TIMER_ADVANCE, &[832], &[]),
    (TIMER_SOLICITED, &[24, 833], &[FAILED]),
    (TIMER_RECEIVED, &[900], &[]),
    (TIMER_ADVANCE, &[932], &[]),
    (TIMER_RECEIVED, &[933], &[]),
    (TIMER_SOLICITED, &[25, 934], &[FAILED]),
    (TIMER_RECEIVED, &[1000], &[]),
    (TIMER_ADVANCE, &[1032], &[]),
    (TIMER_RECEIVED, &[1033], &[]),
    (TIMER_RECEIVED, &[1034], &[]),
    (TIMER_UNSOLICITED, &[26, 1035], &[FAILED]),
    (TIMER_RECEIVED, &[1100], &[]),
    (TIMER_ADVANCE, &[1132], &[]),
    (TIMER_UNSOLICITED, &[27, 1133], &[GONE]),
    (TIMER_ADVANCE, &[1164], &[]),
    (TIMER_ADVANCE, &[1165], &[]),
    // Idle again: neither result is heard. A frame, and another state's refusals.
    (TIMER_SOLICITED, &[28, 1166], &[GONE]),
    (TIMER_UNSOLICITED, &[28, 1167], &[GONE]),
    (TIMER_RECEIVED, &[1200], &[]),
    (TIMER_ADVANCE, &[1232], &[]),
    (TIMER_RECEIVED, &[1231], &[]),
    (TIMER_UNSOLICITED, &[28, 1231], &[GONE]),
    (TIMER_UNSOLICITED, &[28, 1233], &[GONE]),
    (TIMER_SOLICITED, &[27, 1], &[FAILED]),
    (TIMER_UNSOLICITED, &[27, 1], &[FAILED]),
    (TIMER_OBSERVE, &[1232], &[]),
    (TIMER_RECEIVED, &[1232], &[]),
    (TIMER_ADVANCE, &[1232], &[]),
    (TIMER_SOLICITED, &[28, 1232], &[FAILED]),
    (TIMER_SOLICITED, &[28, 1240], &[GONE]),
    (TIMER_RESET, &[], &[]),
];

impl Script {
    /// Messages of distinct octets, cut, encoded and decoded, for every type.
    pub fn distinct(&mut self) {
        let message: Vec<u8> = (0..8 * usize::from(MESSAGE_EIGHTHS)).map(octet).collect();
        for (eighth, octets) in message.chunks(8).enumerate() {
            self.push(MESSAGE, &[&[eighth as u8], octets]);
        }
        for (header, kind, value) in OWN {
            let identity = identity_operand(kind, value);
            for length in [0, 1, 7, 30, 255] {
                self.push(COUNT, &[&header, &identity, &pair(length)]);
                let count = frames(kind, length);
                for k in BTreeSet::from([0, 1, 2, count - 1, count]) {
                    self.push(FRAME, &[&header, &identity, &pair(length), &pair(k)]);
                }
            }
            for frame in wire::cut(header, identity, &message[..30]).expect("a message that is cut")
            {
                self.push(ENCODE, &[&frame]);
                self.push(DECODE, &[&decode_operands(&encoded(&frame))]);
            }
        }
    }
    /// Bits past the count, the other kind's fields and the high bits of a type, all set; then two faults at once.
    pub fn unread(&mut self) {
        for (kind, octets, bits) in [
            (0, 200, 0),
            (0, 1, 3),
            (0, 1, 10),
            (0, 1, 11),
            (0, 7, 55),
            (1, 7, 20),
            (1, 3, 26),
            (2, 2, 9),
            (2, 255, 41),
            (3, 3, 24),
            (3, 4, 25),
        ] {
            let (header, kind, value) = OWN[kind];
            let mut frame = begin(header, identity_operand(kind, value), octets, bits, 0);
            frame[17..24].copy_from_slice(&DATA[..7]);
            self.push(ENCODE, &[&frame]);
        }
        for (kind, number, last) in [(0, 0, 0xa6), (5, 7, 0xa7), (10, 12, 1), (255, 25, 0xff)] {
            let mut frame = continuing(OWN[usize::from(kind % 4)].0, kind, number);
            frame[26..].copy_from_slice(&DATA);
            frame[35] = last;
            self.push(ENCODE, &[&frame]);
        }
        let (pch, over) = ([7, 0, 128, 0, 0], with_echo(128));
        let (nobody, own) = (identity_operand(0, 0), identity_operand(0, 1));
        for frame in [
            begin(pch, nobody, 0, 255, 0xff),
            begin(over, nobody, 0, 255, 0xff),
            begin(with_echo(127), nobody, 0, 255, 0xff),
            begin(with_echo(127), own, 0, 56, 0xff),
            begin(with_echo(127), own, 0, 55, 0xff),
            continuing(pch, 0, 26),
            continuing(over, 0, 26),
            continuing(with_echo(127), 0, 26),
        ] {
            self.push(ENCODE, &[&frame]);
        }
        for frame in &FAULTS {
            self.push(DECODE, &[&decode_operands(frame)]);
        }
    }
    pub fn timer_states(&mut self) {
        self.rows(&STATES);
    }
    /// The token that is told, before a reset and after it; procedures for the least, the greatest and too great an identity of each type.
    pub fn told_and_made(&mut self) {
        self.push(TIMER, &[&word(7)]);
        self.push(TIMER_TOKEN, &[]);
        self.push(TIMER_RESET, &[]);
        self.push(TIMER_TOKEN, &[]);
        for (kind, width) in [(0, 20), (1, 24), (2, 34), (3, 50)] {
            for value in [1, (1 << width) - 1, 1 << width] {
                self.made(identity_operand(kind, value), 7);
            }
        }
    }

    /// Procedures in each state: waiting, sending a status, waiting with one pending, in the final wait, complete in each of them.
    pub fn procedure_states(&mut self) {
        let own = identity_operand(2, 0x2_3456_789a);
        let message: Vec<u8> = (0..20).map(octet).collect();
        let [two, three] = [6, 20].map(|length| {
            cut(own, &message[..length])
                .iter()
                .map(|frame| changed(frame, 4, 0))
                .collect::<Vec<Parsed>>()
        });
        self.made(own, 100);
        self.final_wait(&three);
        self.begun_again(&three);
        self.failed(&three);
        self.complete(&two, &three);
    }
    /// A frame in the final wait, again, polled, of another echo, refused; the last one there, which is asked for again.
    fn final_wait(&mut self, three: &[Parsed]) {
        self.received(1000, &three[0]);
        self.advanced(1032);
        self.sent(1040, 101, UNSOLICITED, 0, GONE);
        self.received(1050, &three[1]);
        self.received(1060, &three[1]);
        self.advanced(1091);
        self.advanced(1092);
        self.sent(1095, 101, UNSOLICITED, 0, GONE);
        self.received(1100, &polled(&three[1]));
        self.advanced(1132);
        self.sent(1133, 101, UNSOLICITED, 0, GONE);
        self.received(1140, &changed(&three[2], 3, 6));
        self.received(1141, &changed(&three[2], 25, 2));
        self.received(1150, &polled(&three[2]));
        self.advanced(1165);
        self.received(1170, &polled(&three[2]));
        self.advanced(1300);
        self.sent(1301, 101, SOLICITED, 1, GONE);
        // Complete in the final wait, and not polled.
        self.received(1400, &three[0]);
        self.received(1401, &three[2]);
        self.received(1402, &three[2]);
        self.advanced(1434);
        self.sent(1435, 103, UNSOLICITED, 0, GONE);
        self.received(1440, &three[1]);
        self.push(PROCEDURE_ACTIVE, &[]);
    }
    /// The Begin again in each state, polled and not; a solicited status sent in each.
    fn begun_again(&mut self, three: &[Parsed]) {
        self.received(1500, &three[0]);
        self.received(1510, &three[0]);
        self.advanced(1542);
        self.received(1543, &three[0]);
        self.advanced(1575);
        self.sent(1576, 106, UNSOLICITED, 0, GONE);
        self.sent(1577, 107, UNSOLICITED, 0, GONE);
        self.received(1580, &three[0]);
        self.received(1581, &polled(&three[0]));
        self.sent(1590, 109, SOLICITED, 0, GONE);
        self.advanced(1622);
        self.sent(1623, 109, SOLICITED, 0, GONE);
        self.sent(1630, 109, UNSOLICITED, 0, GONE);
        self.advanced(1662);
        self.sent(1663, 109, UNSOLICITED, 0, GONE);
        self.sent(1670, 109, SOLICITED, 0, GONE);
        self.advanced(1702);
        self.sent(1703, 109, UNSOLICITED, 0, GONE);
        self.sent(1710, 109, SOLICITED, 0, FAILED);
    }
    /// A failed status while it is being sent, and while a frame came since.
    fn failed(&mut self, three: &[Parsed]) {
        self.received(1800, &three[0]);
        self.advanced(1832);
        self.sent(1833, 111, UNSOLICITED, 0, FAILED);
        self.received(1900, &three[0]);
        self.advanced(1932);
        self.received(1933, &three[1]);
        self.received(1934, &three[1]);
        self.sent(1935, 113, UNSOLICITED, 0, FAILED);
    }
    /// Complete with a status pending, and while it is being sent: the timer says nothing any more.
    fn complete(&mut self, two: &[Parsed], three: &[Parsed]) {
        self.received(2000, &three[0]);
        self.advanced(2032);
        self.received(2033, &three[1]);
        self.received(2034, &polled(&three[2]));
        self.advanced(2100);
        self.sent(2101, 115, UNSOLICITED, 0, GONE);
        self.advanced(2200);
        self.sent(2201, 115, SOLICITED, 1, FAILED);
        self.received(2300, &two[0]);
        self.advanced(2332);
        self.received(2333, &polled(&two[1]));
        self.advanced(2400);
        self.sent(2401, 117, UNSOLICITED, 0, GONE);
        self.advanced(2500);
        self.sent(2501, 117, SOLICITED, 0, GONE);
        self.advanced(2600);
        self.lived(PROCEDURE_RESET, &[]);
        self.push(PROCEDURE_ACTIVE, &[]);
    }
}
/// No two of 256 in a row are alike, and neighbours differ in many bits.
pub fn octet(index: usize) -> u8 {
    (167 * index + 19) as u8
}
