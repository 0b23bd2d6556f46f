//! Random scripts, most of their operands at or near a boundary.
use crate::{lives, random::Random, receive};
use bts136::harness::{
    script::{
        ACCEPT, ADDRESS, ADVANCE, CHECK, COMPLETE, COPY, COUNT, DECODE, DECODE_OCTETS, DUMP,
        ENCODE, EQUAL, FIELD_BITS, FILL, FRAME, HEADER_A, LAST_ADDRESS, LAST_HEADER_A, MESSAGE,
        MESSAGE_OCTETS, NEW, OPERATIONS, PARTS, PROCEDURE, PROCEDURE_ACTIVE, PROCEDURE_RESET,
        PROCEDURE_STATE, PUSH, PUT, RECEIVE, RESET, SENT, STATUS, STORE_BITS, TAKE, TIMER,
        TIMER_ADVANCE, TIMER_OBSERVE, TIMER_OWNS, TIMER_RECEIVED, TIMER_RESET, TIMER_SOLICITED,
        TIMER_STATE, TIMER_TOKEN, TIMER_UNSOLICITED, operation,
    },
    wire::{self, FRAME_OCTETS, HEADER_OCTETS, PARSED_OCTETS},
};

const FRAME_BITS: usize = 8 * FRAME_OCTETS;
const EIGHTHS: u8 = 8;
pub const MESSAGE_EIGHTHS: u8 = (MESSAGE_OCTETS / 8) as u8;
/// The data of a Continue, and what a Begin's fields without identity leave of a frame.
const CONTINUE_DATA: usize = 79;
const BEGIN_ROOM: usize = 75;
const HEADER_A_BITS: usize = 7;
/// Header A and the type stand before an address.
const BEFORE_ADDRESS: usize = 10;
/// The longest address.
const ADDRESS_BITS: usize = 55;

/// A script of 0 to some hundreds of operations; some are cut, damaged or have an op octet of no operation.
pub fn script(random: &mut Random) -> Vec<u8> {
    let most = random.pick(&[0, 1, 3, 10, 50, 150, 400]);
    let count = random.below(most + 1);
    let mut script = operations(random, count);
    match random.below(100) {
        0..=11 => script.truncate(random.below(script.len() + 1)),
        12..=19 => push_unknown_op(random, &mut script),
        20..=27 => flip_a_bit(random, &mut script),
        _ => {}
    }
    script
}
/// An op octet of no operation, now and then with operations after it.
fn push_unknown_op(random: &mut Random, script: &mut Vec<u8>) {
    let first_unknown = OPERATIONS.len() as u8 + 1;
    script.push(random.pick(&[0, first_unknown, 0x80, 0xe0, 0xff]));
    let rest = random.below(3);
    script.extend_from_slice(&operations(random, rest));
}
pub fn flip_a_bit(random: &mut Random, script: &mut [u8]) {
    if !script.is_empty() {
        script[random.below(script.len())] ^= 1 << random.below(8);
    }
}

/// This many whole operations.
pub fn operations(random: &mut Random, count: usize) -> Vec<u8> {
    let mut script = Vec::new();
    let mut left = count;
    // A store without zeros, so that a DUMP shows which bits stay.
    if left > usize::from(EIGHTHS) && random.chance(70) {
        fill_all(random, FILL, EIGHTHS, &mut script);
        left -= usize::from(EIGHTHS);
    }
    if left > usize::from(MESSAGE_EIGHTHS) && random.chance(70) {
        fill_all(random, MESSAGE, MESSAGE_EIGHTHS, &mut script);
        left -= usize::from(MESSAGE_EIGHTHS);
    }
    while left > 0 {
        if left > 10 && random.chance(6) {
            let transfer = receive::transfer(random, left);
            left -= transfer.len();
            script.extend(transfer.concat());
            continue;
        }
        if left > 10 && random.chance(2) {
            let mut life = lives::any(random);
            left -= life.truncate(left);
            script.extend(life.script);
            continue;
        }
        let op = 1 + random.below(OPERATIONS.len()) as u8;
        append(random, op, &mut script);
        left -= 1;
        if left > 0 && [PUT, COPY, FILL].contains(&op) && random.chance(50) {
            script.push(DUMP);
            left -= 1;
        }
    }
    script
}
/// The whole store or the whole message.
pub fn fill_all(random: &mut Random, op: u8, eighths: u8, script: &mut Vec<u8>) {
    for eighth in 0..eighths {
        script.extend_from_slice(&[op, eighth]);
        script.extend_from_slice(&random.octets::<8>());
    }
}
/// Appends an operation and its operands.
pub fn append(random: &mut Random, op: u8, script: &mut Vec<u8>) {
    let row = operation(op).expect("an op octet of the table");
    script.push(op);
    let start = script.len();
    match op {
        PARTS | CHECK | ACCEPT | NEW => script.extend_from_slice(&identity(random)),
        EQUAL => equal(random, script),
        HEADER_A => header_a(random, script),
        ADDRESS => address(random, script),
        TAKE => take(random, script),
        PUT => put(random, script),
        FILL => fill(random, EIGHTHS, script),
        DUMP | RESET | STATUS | COMPLETE | TIMER_TOKEN | TIMER_RESET | TIMER_STATE
        | PROCEDURE_RESET | PROCEDURE_ACTIVE | PROCEDURE_STATE => {}
        COPY => copy(random, script),
        ENCODE => script.extend_from_slice(&near_parsed(random)),
        DECODE => decode(random, script),
        MESSAGE => fill(random, MESSAGE_EIGHTHS, script),
        COUNT => {
            cut(random, script);
        }
        FRAME => cut_frame(random, script),
        PUSH => heard(random, script),
        TIMER | TIMER_OWNS => number(random, script),
        TIMER_OBSERVE | TIMER_RECEIVED | TIMER_ADVANCE | ADVANCE => block(random, script),
        TIMER_UNSOLICITED | TIMER_SOLICITED => {
            number(random, script);
            block(random, script);
            script.push(lives::result(random));
        }
        PROCEDURE => {
            script.extend_from_slice(&identity(random));
            number(random, script);
        }
        RECEIVE => {
            block(random, script);
            heard(random, script);
        }
        SENT => {
            block(random, script);
            let token = lives::number(random);
            script.extend_from_slice(&lives::transmission(random, token));
            script.push(lives::result(random));
        }
        _ => unreachable!("{} has no operands yet", row.name),
    }
    assert_eq!(script.len() - start, row.operands, "{}", row.name);
}

pub fn identity(random: &mut Random) -> [u8; 9] {
    let kind = identity_kind(random);
    identity_operand(kind, identity_value(random, kind))
}
pub fn identity_operand(kind: u8, value: u64) -> [u8; 9] {
    let mut octets = [kind; 9];
    octets[1..].copy_from_slice(&value.to_be_bytes());
    octets
}
fn identity_kind(random: &mut Random) -> u8 {
    match random.below(12) {
        0 => random.pick(&[4, 5, 0x7f, 0x80, 0xff]),
        1 => random.octet(),
        _ => random.octet() % 4,
    }
}
/// The values at which an identity of this type begins or ends to be one; a type over 3 borrows another's.
pub fn identity_bounds(kind: u8) -> [u64; 8] {
    let over = 1 << wire::identity_width(kind % 4);
    [
        0,
        1,
        over - 1,
        over,
        over + 1,
        (1 << 32) - 1,
        1 << 32,
        u64::MAX,
    ]
}
fn identity_value(random: &mut Random, kind: u8) -> u64 {
    match random.below(10) {
        0..=3 => random.pick(&identity_bounds(kind)),
        4 => random.any_length(),
        _ => random.any_length() % (1 << wire::identity_width(kind % 4)),
    }
}
fn equal(random: &mut Random, script: &mut Vec<u8>) {
    let left = identity(random);
    let mut right = left;
    match random.below(8) {
        0..=2 => {}
        3 => right[0] = identity_kind(random),
        4 | 5 => flip_a_bit(random, &mut right[1..]),
        _ => right = identity(random),
    }
    script.extend_from_slice(&left);
    script.extend_from_slice(&right);
}

fn header_a(random: &mut Random, script: &mut Vec<u8>) {
    let offset = frame_offset(random, 0, LAST_HEADER_A);
    let mut bits = near_frame(random, Some(offset), offset + BEFORE_ADDRESS);
    damage(random, &mut bits, offset, HEADER_A_BITS);
    script.push(offset as u8);
    script.extend_from_slice(&packed(&bits));
}
fn address(random: &mut Random, script: &mut Vec<u8>) {
    let offset = frame_offset(random, BEFORE_ADDRESS, LAST_ADDRESS);
    let header = offset.checked_sub(BEFORE_ADDRESS);
    let mut bits = near_frame(random, header, offset);
    damage(random, &mut bits, offset, ADDRESS_BITS);
    script.push(offset as u8);
    script.extend_from_slice(&packed(&bits));
}
/// A frame with its header A at bit 0, often one that both readers take.
pub fn frame(random: &mut Random) -> [u8; FRAME_OCTETS] {
    let mut bits = near_frame(random, Some(0), BEFORE_ADDRESS);
    damage(random, &mut bits, 0, BEFORE_ADDRESS + ADDRESS_BITS);
    packed(&bits)
}
pub fn packed(bits: &[bool]) -> [u8; FRAME_OCTETS] {
    let mut octets = [0; FRAME_OCTETS];
    wire::pack(bits, &mut octets);
    octets
}
/// Random bits, mostly with a valid header A and address at these bit offsets.
fn near_frame(random: &mut Random, header: Option<usize>, address: usize) -> [bool; FRAME_BITS] {
    let mut bits = wire::unpack_frame(&random.octets::<FRAME_OCTETS>());
    if random.chance(80) {
        if let Some(header) = header {
            set_header(random, &mut bits, header);
        }
        set_address(random, &mut bits, address);
    }
    bits
}
/// A bit offset in a frame: the usual one, one that fits, the edges of those, or any octet.
fn frame_offset(random: &mut Random, usual: usize, last: usize) -> usize {
    match random.below(10) {
        0..=2 => usual,
        3 => random.pick(&[0, last - 1, last, last + 1, FRAME_BITS, 255]),
        4 => usize::from(random.octet()),
        _ => random.below(last + 1),
    }
}
/// Sets a field; what would stand past the end of the bits is left out.
pub fn set(bits: &mut [bool], offset: usize, width: usize, value: u64) {
    for place in 0..width {
        if let Some(bit) = bits.get_mut(offset + place) {
            *bit = value >> (width - 1 - place) & 1 != 0;
        }
    }
}
/// Header A with a known usage and the fourth flag clear, and the type of an ARQ frame after it.
fn set_header(random: &mut Random, bits: &mut [bool], offset: usize) {
    set(bits, offset, 3, random.pick(&[3, 4, 7]));
    set(bits, offset + 6, 1, 0);
    set(bits, offset + 7, 3, random.pick(&[5, 6]));
}
/// An address of each type, not encrypted, with any identity and now and then with 0.
fn set_address(random: &mut Random, bits: &mut [bool], offset: usize) {
    let kind = random.octet() % 4;
    let width = wire::identity_width(kind);
    let value = match random.below(8) {
        0 => 0,
        1 => random.pick(&[1, (1 << width) - 1, 1 << (width - 1)]),
        _ => random.any_length(),
    };
    set(bits, offset, 2, u64::from(kind));
    set(bits, offset + 2, 1, 0);
    set(bits, offset + 4, 1, 0);
    set(bits, offset + 5, width, value);
}
/// Flips, now and then, one of the bits that are read.
fn damage(random: &mut Random, bits: &mut [bool], offset: usize, count: usize) {
    if random.chance(25)
        && let Some(bit) = bits.get_mut(offset + random.below(count))
    {
        *bit = !*bit;
    }
}

fn take(random: &mut Random, script: &mut Vec<u8>) {
    let width = field_width(random);
    script.extend_from_slice(&store_offset(random, usize::from(width)));
    script.push(width);
}
fn put(random: &mut Random, script: &mut Vec<u8>) {
    take(random, script);
    let value = match random.below(4) {
        0 => random.pick(&[0, 1, u64::MAX, 1 << 49, 1 << 50, 1 << 63]),
        1 => random.any_length(),
        _ => random.next(),
    };
    script.extend_from_slice(&value.to_be_bytes());
}
fn fill(random: &mut Random, eighths: u8, script: &mut Vec<u8>) {
    script.push(match random.below(10) {
        0 => random.pick(&[eighths, eighths + 1, 0x80, 0xff]),
        1 => random.octet(),
        _ => random.octet() % eighths,
    });
    script.extend_from_slice(&match random.below(8) {
        0 => [0; 8],
        1 => [0xff; 8],
        _ => random.octets(),
    });
}
fn copy(random: &mut Random, script: &mut Vec<u8>) {
    let count = match random.below(10) {
        0..=3 => random.pick(&[0, 1, 7, 8, 9, 64, 79, 511, 512, 513, 65535]),
        4 => usize::from(random.next() as u16),
        5 | 6 => random.below(STORE_BITS + 1),
        _ => random.below(100),
    };
    script.extend_from_slice(&store_offset(random, count));
    script.extend_from_slice(&store_offset(random, count));
    script.extend_from_slice(&(count as u16).to_be_bytes());
}
fn field_width(random: &mut Random) -> u8 {
    match random.below(10) {
        0..=2 => random.pick(&[0, 1, 7, 8, 49, 50, 51, 255]),
        3 => random.octet(),
        _ => 1 + random.below(FIELD_BITS) as u8,
    }
}
/// A bit offset in the store for this many bits: one that fits, the edges of those, or any.
fn store_offset(random: &mut Random, count: usize) -> [u8; 2] {
    let last = STORE_BITS.saturating_sub(count);
    let offset = match random.below(20) {
        0 => random.pick(&[0, 1, 7, 8, 511, 512, 513, 65535]),
        1 | 2 => random.pick(&[last.saturating_sub(1), last, last + 1]),
        3 => usize::from(random.next() as u16),
        _ => random.below(last + 1),
    };
    (offset as u16).to_be_bytes()
}

/// A header that names a call, and one in 20 that does not.
fn header(random: &mut Random) -> [u8; HEADER_OCTETS] {
    let mut header = good_header(random);
    match random.below(20) {
        0 => header[0] = 7,
        1 => header[2] = random.pick(&[126, 127, 128, 129, 255]),
        2 => header[2] = random.octet(),
        3 => {
            let place = random.pick(&[0, 1, 3, 4]);
            header[place] = random.pick(&[0, 2, 5, 8, 16, 255]);
        }
        _ => {}
    }
    header
}
pub fn good_header(random: &mut Random) -> [u8; HEADER_OCTETS] {
    [
        random.pick(&[3, 4]),
        random.octet() % 16,
        random.octet() % 128,
        random.octet() % 2,
        random.octet() % 2,
    ]
}
pub fn good_identity(random: &mut Random, kind: u8) -> [u8; 9] {
    let last = (1 << wire::identity_width(kind)) - 1;
    let value = match random.below(8) {
        0 => random.pick(&[1, last - 1, last]),
        1 => 1 + random.any_length() % last,
        _ => 1 + random.next() % last,
    };
    identity_operand(kind, value)
}
/// How many data bits a Begin has room for; a type over 3 borrows another's.
pub fn room(kind: u8) -> usize {
    BEGIN_ROOM - wire::identity_width(kind % 4)
}
/// Zeros from this bit on.
fn clear(octets: &mut [u8], from: usize) {
    for place in from..8 * octets.len() {
        octets[place / 8] &= !(0x80 >> (place % 8));
    }
}

/// The operand of a frame that encodes, garbage where it is not read.
pub fn good_parsed(random: &mut Random) -> [u8; PARSED_OCTETS] {
    let (kind, octets) = (random.octet() % 4, random.octet());
    let octets = random.pick(&[octets % 8, octets]);
    let mut frame = good_begin(random, kind, octets);
    frame[0] = random.octet() % 2;
    frame
}
/// The operand of a Begin that encodes, of this type and octet count; its Continue's fields encode too.
pub fn good_begin(random: &mut Random, kind: u8, message_octets: u8) -> [u8; PARSED_OCTETS] {
    let mut frame = random.octets::<PARSED_OCTETS>();
    frame[0] = 0;
    frame[1..6].copy_from_slice(&good_header(random));
    frame[6..15].copy_from_slice(&good_identity(random, kind));
    frame[15] = message_octets;
    frame[16] = random.below(room(kind) + 1) as u8;
    let end = 8 * usize::from(message_octets);
    if end < usize::from(frame[16]) {
        clear(&mut frame[17..24], end);
    }
    frame[25] = random.octet() % 26;
    frame
}
/// The operand of a frame, most of them near one that encodes.
fn near_parsed(random: &mut Random) -> [u8; PARSED_OCTETS] {
    let mut frame = good_parsed(random);
    let room = room(frame[6]) as u8;
    match random.below(16) {
        0 | 1 => frame[1..6].copy_from_slice(&header(random)),
        2 | 3 => frame[6..15].copy_from_slice(&identity(random)),
        4 => frame[15] = random.octet(),
        5 | 6 => frame[16] = random.pick(&[room - 1, room, room + 1, 55, 56, 57, 255]),
        7 => frame[16] = random.octet(),
        8 | 9 => frame[17..24].copy_from_slice(&random.octets::<7>()),
        // The first and the last bit that is filler, and the first that is not read.
        10 => {
            let (end, bits) = (8 * usize::from(frame[15]), usize::from(frame[16]));
            let place = random.pick(&[end, bits.saturating_sub(1), bits]);
            if let Some(octet) = frame[17..24].get_mut(place / 8) {
                *octet |= 0x80 >> (place % 8);
            }
        }
        11 => frame[25] = random.pick(&[24, 25, 26, 27, 31, 32, 255]),
        12 => frame[25] = random.octet(),
        13 => frame[0] = random.pick(&[0, 1, 2, 128, 255]),
        14 => frame = random.octets(),
        _ => {}
    }
    frame
}

/// The original's octets of a frame that encodes.
pub fn encoded(parsed: &[u8; PARSED_OCTETS]) -> [u8; FRAME_OCTETS] {
    let frame = wire::frame(parsed).expect("a frame");
    wire::pack_frame(&frame.encode().expect("a good frame"))
}
/// The operands of DECODE: the frame, and zeros after it.
pub fn decode_operands(frame: &[u8; FRAME_OCTETS]) -> [u8; 1 + DECODE_OCTETS] {
    let mut operands = [0; 1 + DECODE_OCTETS];
    operands[0] = FRAME_OCTETS as u8;
    operands[1..1 + FRAME_OCTETS].copy_from_slice(frame);
    operands
}
fn decode(random: &mut Random, script: &mut Vec<u8>) {
    let parsed = good_parsed(random);
    let mut octets = encoded(&parsed);
    match random.below(16) {
        0..=4 => flip_a_bit(random, &mut octets),
        5..=7 => octets = spoiled(random, &parsed),
        8 => octets[random.below(3)] = random.octet(),
        9 => octets[FRAME_OCTETS - 1] |= random.octet() & 7,
        10 => octets = frame(random),
        11 => octets = random.octets(),
        _ => {}
    }
    if random.chance(80) {
        octets[FRAME_OCTETS - 1] &= !7;
    }
    let mut operands = decode_operands(&octets);
    match random.below(16) {
        0 => operands[0] = random.octet() % (DECODE_OCTETS as u8 + 1),
        1 => operands[0] = random.pick(&[0, 1, 13, 15, 16, 31, 32, 33, 34, 255]),
        2 => operands[1 + FRAME_OCTETS..].copy_from_slice(&random.octets::<18>()),
        _ => {}
    }
    script.extend_from_slice(&operands);
}
fn heard(random: &mut Random, script: &mut Vec<u8>) {
    decode(random, script);
    script.extend_from_slice(&receive::room(random));
}
fn number(random: &mut Random, script: &mut Vec<u8>) {
    script.extend_from_slice(&lives::number(random).to_be_bytes());
}
fn block(random: &mut Random, script: &mut Vec<u8>) {
    let block = match random.below(3) {
        0 => random.any_length(),
        _ => random.below(80) as u64,
    };
    script.extend_from_slice(&block.to_be_bytes());
}
/// A good frame with another value in one of the fields that decode looks at.
pub fn spoiled(random: &mut Random, parsed: &[u8; PARSED_OCTETS]) -> [u8; FRAME_OCTETS] {
    let mut bits = wire::unpack_frame(&encoded(parsed));
    let (begins, width) = (parsed[0] == 0, wire::identity_width(parsed[6]));
    let echo = if begins { 15 + width } else { 14 };
    let value = random.next();
    match random.below(8) {
        0 => set(&mut bits, 0, 7, value),
        1 => set(&mut bits, 7, 3, value),
        2 => set(&mut bits, 10, 5, value),
        3 => set(&mut bits, echo + 7, 2, value),
        4 if begins => set(&mut bits, 15, width, 0),
        5 if begins => set(&mut bits, echo + 11, 8, value % 8),
        _ => set(&mut bits, echo + 11, 5, 24 + value % 8),
    }
    packed(&bits)
}

/// A header, an identity and a length; how many frames these need, if they are cut.
fn cut(random: &mut Random, script: &mut Vec<u8>) -> usize {
    let kind = random.octet() % 4;
    let header = if random.chance(85) {
        good_header(random)
    } else {
        header(random)
    };
    let identity = if random.chance(85) {
        good_identity(random, kind)
    } else {
        identity(random)
    };
    let length = match random.below(16) {
        0..=4 => random.pick(&[0, 1, 3, 4, 5, 6, 7, 8, 16, 17, 18, 254, 255]),
        5 => random.pick(&[256, 303, 304, 305, 65535]),
        6 => usize::from(random.next() as u16),
        7 => random.below(MESSAGE_OCTETS + 1),
        8..=10 => random.below(40),
        _ => random.below(256),
    };
    script.extend_from_slice(&header);
    script.extend_from_slice(&identity);
    script.extend_from_slice(&(length as u16).to_be_bytes());
    frames(identity[0], length)
}
/// How many frames a message of this length needs.
pub fn frames(kind: u8, length: usize) -> usize {
    1 + (8 * length)
        .saturating_sub(room(kind))
        .div_ceil(CONTINUE_DATA)
}
fn cut_frame(random: &mut Random, script: &mut Vec<u8>) {
    let count = cut(random, script);
    let k = match random.below(12) {
        0 | 1 => 0,
        2 | 3 => count - 1,
        4 => count,
        5 => random.pick(&[count + 1, 26, 27, 255, 256, 65535]),
        6 => usize::from(random.next() as u16),
        _ => random.below(count),
    };
    script.extend_from_slice(&(k as u16).to_be_bytes());
}

#[cfg(test)]
pub mod tests {
    use super::*;
    use bts136::harness::script::{ANSWERED, Operation, run_each};
    use std::collections::BTreeSet;

    /// Every number octet of these rows is an answer to one of the scripts.
    pub fn assert_all_reached(rows: &[Operation], scripts: &[Vec<u8>]) {
        let mut seen = BTreeSet::new();
        let mut answers = vec![0; 1 << 18];
        for script in scripts {
            let mut steps = Vec::new();
            run_each(script, &mut answers, |step| steps.push(step));
            seen.extend(
                steps
                    .iter()
                    .map(|step| (step.operation.op, answers[step.answer.start])),
            );
        }
        for row in rows {
            for number in row.refusals.iter().chain(&[ANSWERED]) {
                assert!(seen.contains(&(row.op, *number)), "{} {number}", row.name);
            }
        }
    }
    #[test]
    fn random_scripts_have_every_number_octet_of_every_operation() {
        let mut random = Random(1);
        let scripts: Vec<_> = (0..6000).map(|_| script(&mut random)).collect();
        assert_all_reached(&OPERATIONS, &scripts);
    }
}
