//! The fixed scripts of the programs `replay` and `replay_sender`, and the original's answers to them.
use crate::{
    generate::{
        MESSAGE_EIGHTHS, append, decode_operands, encoded, frames, identity_bounds,
        identity_operand, packed, room, set,
    },
    hex::hex,
    random::Random,
    senders::Memory,
};
use bts136::harness::{
    script::{
        self, ACCEPT, ADDRESS, CHECK, COMPLETE, COPY, COUNT, DECODE, DECODE_OCTETS, DUMP, ENCODE,
        END, EQUAL, FIELD_BITS, FILL, FRAME, HEADER_A, LAST_ADDRESS, LAST_HEADER_A, MESSAGE, NEW,
        OPERATIONS, PARTS, PUSH, PUT, RESET, STATUS, STORE_BITS, TAKE, sender::run_sender,
    },
    wire::{self, FRAME_OCTETS, HEADER_OCTETS, PARSED_OCTETS},
};
use std::{collections::BTreeSet, fs, io, path::Path, process::ExitCode};

mod apart;
mod asked;
mod lives;
mod senders;

const SEED: u64 = 136;
/// What the programs have room for, script and answers alike.
const MOST_OCTETS: usize = 64_000;
const RANDOM_OPERATIONS: usize = 100;
const LINE_OCTETS: usize = 32;

pub fn main(folder: &Path) -> ExitCode {
    made(folder, &fixed_script(), script::run)
}
/// The script of senders.
pub fn senders(folder: &Path) -> ExitCode {
    made(folder, &senders::fixed_script(), |script, answers| {
        Memory::default().lent_to(run_sender, script, answers)
    })
}
type Run = fn(&[u8], &mut [u8]) -> usize;
fn made(folder: &Path, script: &[u8], run: Run) -> ExitCode {
    let answers = answers(script, run);
    match write(folder, script, &answers) {
        Ok(()) => {
            println!("{} octets, {} answered", script.len(), answers.len());
            ExitCode::SUCCESS
        }
        Err(error) => {
            eprintln!("{}: {error}", folder.display());
            ExitCode::FAILURE
        }
    }
}
fn write(folder: &Path, script: &[u8], answers: &[u8]) -> io::Result<()> {
    fs::create_dir_all(folder)?;
    fs::write(folder.join("stdin"), script)?;
    let lines = answers.chunks(LINE_OCTETS).map(|line| hex(line) + "\n");
    fs::write(folder.join("stdout"), lines.collect::<String>())
}
fn answers(script: &[u8], run: Run) -> Vec<u8> {
    assert!(script.len() <= MOST_OCTETS);
    let mut answers = vec![0; MOST_OCTETS];
    let length = run(script, &mut answers);
    answers.truncate(length);
    assert_eq!(answers.last(), Some(&END), "the whole script was run");
    answers
}

/// Every refusal and every boundary of the operations, then random ones; then what these leave alike is told apart.
fn fixed_script() -> Vec<u8> {
    let mut script = Script(Vec::new());
    script.identities();
    script.equals();
    script.headers();
    script.addresses();
    script.store();
    script.takes();
    script.puts();
    script.copies();
    script.begins();
    script.continues();
    script.decodes();
    script.cuts();
    script.receivers();
    script.timers();
    script.procedures();
    let mut random = Random(SEED);
    for _ in 0..RANDOM_OPERATIONS {
        let op = random.pick(&OPERATIONS.each_ref().map(|operation| operation.op));
        append(&mut random, op, &mut script.0);
    }
    script.distinct();
    script.unread();
    script.timer_states();
    script.procedure_states();
    script.told_and_made();
    script.filler_starts();
    script.skipped();
    script.longest_asked();
    script.active_throughout();
    script.0
}

struct Script(Vec<u8>);
impl Script {
    fn push(&mut self, op: u8, operands: &[&[u8]]) {
        self.0.push(op);
        self.0.extend(operands.concat());
    }
    fn identities(&mut self) {
        for kind in [0, 1, 2, 3, 4, 255] {
            for value in identity_bounds(kind) {
                for op in [PARTS, CHECK, ACCEPT] {
                    self.push(op, &[&identity_operand(kind, value)]);
                }
            }
        }
    }
    /// Every pair of some identities, the last two of which are none.
    fn equals(&mut self) {
        let identities = [
            (0, 1),
            (0, 2),
            (1, 1),
            (2, 1),
            (2, 1 << 32 | 1),
            (3, 1),
            (3, 1 << 32 | 1),
            (1, 1 << 32 | 1),
            (4, 1),
        ]
        .map(|(kind, value)| identity_operand(kind, value));
        for left in &identities {
            for right in &identities {
                self.push(EQUAL, &[left, right]);
            }
        }
    }
    /// All of the 128 headers, and one at the edges of the frame.
    fn headers(&mut self) {
        for header in 0..128 {
            self.frame(HEADER_A, 0, &[(7, header)]);
        }
        for offset in [
            1,
            7,
            8,
            LAST_HEADER_A - 1,
            LAST_HEADER_A,
            LAST_HEADER_A + 1,
            255,
        ] {
            self.frame(HEADER_A, offset, &[(7, 0b100_1010)]);
        }
    }
    /// Every value of the five bits before an identity; identities of 0 with ones after; the edges of the frame.
    fn addresses(&mut self) {
        for before in 0..32 {
            let width = wire::identity_width(before as u8 >> 3);
            for identity in [0, 1, (1 << width) - 1] {
                self.frame(ADDRESS, 10, &[(5, before), (width, identity), (8, 0xff)]);
            }
        }
        for offset in [0, 1, LAST_ADDRESS - 1, LAST_ADDRESS, LAST_ADDRESS + 1, 255] {
            self.frame(ADDRESS, offset, &[(5, 0b11010), (50, 1 << 49 | 1)]);
        }
    }
    /// An operation on a frame that has these fields from the offset on and zeros elsewhere.
    fn frame(&mut self, op: u8, offset: usize, fields: &[(usize, u64)]) {
        let mut bits = [false; 8 * FRAME_OCTETS];
        let mut at = offset;
        for &(width, value) in fields {
            set(&mut bits, at, width, value);
            at += width;
        }
        self.push(op, &[&[offset as u8], &packed(&bits)]);
    }
    /// The store afresh, and filled.
    fn store(&mut self) {
        self.push(DUMP, &[]);
        for eighth in [0, 1, 2, 3, 4, 5, 6, 7, 8, 255] {
            let octets = [0x8e, 0x31, 0xc5, 0x5a, 0x0f, 0x72, 0xe9, eighth];
            self.push(FILL, &[&[eighth], &octets]);
        }
        self.push(DUMP, &[]);
    }
    fn takes(&mut self) {
        for width in [
            0,
            1,
            2,
            7,
            8,
            9,
            FIELD_BITS - 1,
            FIELD_BITS,
            FIELD_BITS + 1,
            255,
        ] {
            for offset in edges(width) {
                self.push(TAKE, &[&pair(offset), &[width as u8]]);
            }
        }
    }
    fn puts(&mut self) {
        for width in [
            0,
            1,
            2,
            7,
            8,
            9,
            FIELD_BITS - 1,
            FIELD_BITS,
            FIELD_BITS + 1,
            255,
        ] {
            for (offset, value) in edges(width)
                .into_iter()
                .zip([u64::MAX, 0].into_iter().cycle())
            {
                self.push(PUT, &[&pair(offset), &[width as u8], &value.to_be_bytes()]);
            }
            self.push(DUMP, &[]);
        }
    }
    /// Overlapping up and down, whole, empty, and past the end on either side.
    fn copies(&mut self) {
        for (to, from, count) in [
            (8, 0, 64),
            (3, 10, 79),
            (10, 3, 79),
            (433, 0, 79),
            (0, 433, 79),
            (5, 5, 100),
            (1, 0, 511),
            (0, 1, 511),
            (0, 0, 512),
            (512, 512, 0),
            (513, 0, 0),
            (0, 513, 0),
            (434, 0, 79),
            (0, 434, 79),
            (0, 0, 513),
            (65535, 65535, 65535),
        ] {
            self.push(COPY, &[&pair(to), &pair(from), &pair(count)]);
            self.push(DUMP, &[]);
        }
    }
    /// Begins of ones around the room of each type and around the last octet; each check of the header and of the identity.
    fn begins(&mut self) {
        for kind in 0..4 {
            let (room, one) = (room(kind), identity_operand(kind, 1));
            for (octets, bits) in [
                (0, 0),
                (0, 1),
                (1, 8),
                (1, 9),
                (255, room - 1),
                (255, room),
                (255, room + 1),
                (255, 255),
            ] {
                self.push(ENCODE, &[&begin(HEADER, one, octets, bits, 0xff)]);
            }
            for value in identity_bounds(kind) {
                let identity = identity_operand(kind, value);
                self.push(ENCODE, &[&begin(HEADER, identity, 1, 8, 0x41)]);
            }
        }
        for (place, value) in [
            (0, 4),
            (0, 7),
            (0, 5),
            (1, 15),
            (1, 16),
            (3, 2),
            (4, 1),
            (4, 2),
        ] {
            let mut header = HEADER;
            header[place] = value;
            let parsed = begin(header, identity_operand(0, 1), 1, 8, 0x41);
            self.push(ENCODE, &[&parsed]);
        }
    }
    /// Echoes, types and numbers; a kind of no frame.
    fn continues(&mut self) {
        for echo in [127, 128, 255] {
            self.push(ENCODE, &[&continuing(with_echo(echo), 1, 2)]);
            let parsed = begin(with_echo(echo), identity_operand(0, 1), 1, 8, 0x41);
            self.push(ENCODE, &[&parsed]);
        }
        for kind in [0, 3, 4, 255] {
            self.push(ENCODE, &[&continuing(HEADER, kind, 0)]);
        }
        for number in [25, 26, 31, 255] {
            self.push(ENCODE, &[&continuing(HEADER, 2, number)]);
        }
        let mut none = continuing(HEADER, 0, 0);
        none[0] = 2;
        self.push(ENCODE, &[&none]);
    }
    /// Document 01's sample, its lengths, and its single-bit flips up to its data; every number of a Continue; filler.
    fn decodes(&mut self) {
        let sample = encoded(&begin(HEADER, identity_operand(0, 1), 1, 8, 0x41));
        for length in [14, 0, 13, 15, 32, 33, 255] {
            let mut operands = decode_operands(&sample);
            operands[0] = length;
            self.push(DECODE, &[&operands]);
        }
        for place in (0..63).chain(107..112) {
            let mut flipped = sample;
            flipped[place / 8] ^= 0x80 >> (place % 8);
            self.push(DECODE, &[&decode_operands(&flipped)]);
        }
        for number in [0, 24, 25, 26, 31] {
            let mut bits = wire::unpack_frame(&encoded(&continuing(HEADER, 2, 0)));
            set(&mut bits, 25, 5, number);
            self.push(DECODE, &[&decode_operands(&packed(&bits))]);
        }
        for kind in 0..4 {
            let full = begin(HEADER, identity_operand(kind, 1), 255, room(kind), 0xff);
            for octets in [room(kind) / 8, room(kind) / 8 + 1, 255] {
                let mut bits = wire::unpack_frame(&encoded(&full));
                set(&mut bits, 109 - room(kind) - 8, 8, octets as u64);
                self.push(DECODE, &[&decode_operands(&packed(&bits))]);
            }
        }
    }
    /// A message of ones: how many frames each length needs, the first, the next and the last, and what is past them.
    fn cuts(&mut self) {
        for eighth in 0..MESSAGE_EIGHTHS {
            self.push(MESSAGE, &[&[eighth], &[0xff; 8]]);
        }
        self.push(MESSAGE, &[&[MESSAGE_EIGHTHS], &[0xff; 8]]);
        for kind in 0..4 {
            let identity = identity_operand(kind, 1);
            for length in [0, 3, 4, 5, 6, 7, 17, 254, 255, 256, 304, 305] {
                self.push(COUNT, &[&HEADER, &identity, &pair(length)]);
                let count = frames(kind, length);
                for k in BTreeSet::from([0, 1, count - 1, count, 65535]) {
                    // Longer ones are refused alike.
                    if length < 256 || k == 0 {
                        self.push(FRAME, &[&HEADER, &identity, &pair(length), &pair(k)]);
                    }
                }
            }
        }
        for (header, kind, value) in [
            (with_echo(127), 2, 1),
            (with_echo(128), 2, 1),
            (with_echo(128), 0, 0),
            ([7, 0, 128, 1, 0], 0, 0),
            ([5, 0, 0, 0, 0], 0, 1),
            (HEADER, 3, 0),
            (HEADER, 0, 1 << 20),
            (HEADER, 1, 1 << 32),
        ] {
            for length in [6, 256] {
                let operands: [&[u8]; 3] = [&header, &identity_operand(kind, value), &pair(length)];
                self.push(COUNT, &operands);
                self.push(FRAME, &[&operands.concat(), &pair(0)]);
            }
        }
    }
    /// Without a receiver; refusals; an empty message, one of two Continues and one of 27 frames.
    fn receivers(&mut self) {
        let (own, other) = (identity_operand(2, 0x1_2345_6789), identity_operand(2, 1));
        let two = cut(own, &[0xa5; 20]);
        let longest: [u8; 255] = std::array::from_fn(|index| index as u8);
        self.push(NEW, &[&identity_operand(0, 0)]);
        self.heard(&two[0], 255);
        for op in [RESET, STATUS, COMPLETE] {
            self.push(op, &[]);
        }
        for (kind, value) in [(0, 1 << 20), (4, 1), (1, 1 << 32), (3, 1)] {
            self.push(NEW, &[&identity_operand(kind, value)]);
        }
        self.push(NEW, &[&own]);
        self.told();
        // A Continue before its Begin, and a Begin to another.
        self.heard(&two[1], 255);
        self.heard(&cut(other, &[])[0], 255);
        // An empty message, twice.
        let empty = &cut(own, &[])[0];
        self.heard(empty, 304);
        self.told();
        self.heard(empty, 255);
        self.refused_pushes(&two);
        // The second Continue first; delivered by the first, and not by a polled one after it.
        self.heard(&two[2], 255);
        self.heard(&changed(&two[2], 30, 0), 255);
        self.told();
        self.heard(&two[1], 256);
        self.told();
        self.heard(&two[1], 255);
        // The Begin again: all is to be heard again.
        for frame in &two {
            self.heard(frame, 255);
        }
        self.push(RESET, &[]);
        self.told();
        self.heard(&two[1], 255);
        for frame in &cut(own, &longest) {
            self.heard(frame, 255);
        }
        self.told();
    }
    /// Every refusal of a push, with a transaction of two Continues held afterwards that has heard none.
    fn refused_pushes(&mut self, two: &[[u8; PARSED_OCTETS]]) {
        self.heard(&two[0], 255);
        for room in [0, 254, 305, 65535] {
            self.heard(&two[1], room);
        }
        for operands in undecoded(two) {
            self.push(PUSH, &[&operands, &pair(255), &[0xaa]]);
        }
        // Echo, channel and type of another; a number that is not needed; filler; other data.
        for (place, value) in [(3, 6), (1, 4), (24, 1), (25, 2), (25, 25)] {
            self.heard(&changed(&two[1], place, value), 255);
        }
        self.heard(&changed(&two[2], 35, 2), 255);
        self.heard(&two[1], 255);
        self.heard(&changed(&two[1], 26, 0), 255);
        self.heard(&two[0], 255);
    }
    fn heard(&mut self, frame: &[u8; PARSED_OCTETS], room: usize) {
        let operands = decode_operands(&encoded(frame));
        self.push(PUSH, &[&operands, &pair(room), &[0xaa]]);
    }
    fn told(&mut self) {
        self.push(STATUS, &[]);
        self.push(COMPLETE, &[]);
    }
}
/// The operands of frames that decode refuses, the last length of which names no call.
fn undecoded(frames: &[[u8; PARSED_OCTETS]]) -> Vec<[u8; 1 + DECODE_OCTETS]> {
    let (begin, good) = (encoded(&frames[0]), encoded(&frames[1]));
    let lengths = [0, 13, 15, 32, 33].map(|length| {
        let mut operands = decode_operands(&good);
        operands[0] = length;
        operands
    });
    // Padding, usage, kind and the fourth flag of the Continue; the Begin with the bit after its type, encrypted, and
    // to nobody.
    let flipped = [
        (good, 111),
        (good, 0),
        (good, 9),
        (good, 6),
        (begin, 12),
        (begin, 14),
    ]
    .map(|(mut octets, place)| {
        octets[place / 8] ^= 0x80 >> (place % 8);
        decode_operands(&octets)
    });
    let mut nobody = wire::unpack_frame(&begin);
    set(&mut nobody, 15, 34, 0);
    let nobody = decode_operands(&packed(&nobody));
    [&lengths[..], &flipped, &[nobody]].concat()
}
/// The frames of a message, polled.
fn cut(identity: [u8; 9], message: &[u8]) -> Vec<[u8; PARSED_OCTETS]> {
    wire::cut(HEADER, identity, message).expect("a message that is cut")
}
fn changed(frame: &[u8; PARSED_OCTETS], place: usize, value: u8) -> [u8; PARSED_OCTETS] {
    let mut changed = *frame;
    changed[place] = value;
    changed
}
/// Arch, flags 0, echo 5, polling, Contention.
const HEADER: [u8; HEADER_OCTETS] = [3, 0, 5, 1, 0];
fn with_echo(echo: u8) -> [u8; HEADER_OCTETS] {
    let mut header = HEADER;
    header[2] = echo;
    header
}
/// The operand of a Begin whose data is one octet again and again; ones stand where a Begin is not read.
fn begin(
    header: [u8; HEADER_OCTETS],
    identity: [u8; 9],
    octets: u8,
    bits: usize,
    data: u8,
) -> [u8; PARSED_OCTETS] {
    let mut frame = [0xff; PARSED_OCTETS];
    frame[0] = 0;
    frame[1..6].copy_from_slice(&header);
    frame[6..15].copy_from_slice(&identity);
    frame[15..17].copy_from_slice(&[octets, bits as u8]);
    frame[17..24].fill(data);
    frame
}
/// A Continue's, of ones, beside the fields of a Begin that would be refused.
fn continuing(header: [u8; HEADER_OCTETS], kind: u8, number: u8) -> [u8; PARSED_OCTETS] {
    let mut frame = begin(header, identity_operand(0, 0), 0, 255, 0xff);
    frame[0] = 1;
    frame[24..26].copy_from_slice(&[kind, number]);
    frame
}
fn pair(value: usize) -> [u8; 2] {
    u16::try_from(value).expect("two octets").to_be_bytes()
}
/// Offsets at both ends of the store for a field of this width, and past the last.
fn edges(width: usize) -> [usize; 6] {
    let last = STORE_BITS - width;
    [0, 1, 7, last, last + 1, 65535]
}

#[cfg(test)]
mod tests {
    use super::*;
    use crate::generate::tests::assert_all_reached;

    #[test]
    fn the_fixed_script_has_every_number_octet_of_every_operation() {
        assert_all_reached(&OPERATIONS, &[fixed_script()]);
    }
}
