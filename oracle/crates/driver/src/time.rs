//! Times both sides on the same inputs, and prints the rows of a table.
use crate::{
    generate,
    port::{self, Call},
    random::Random,
};
use bts136::harness::{
    script::{self, END},
    timing::{self, Frames},
    wire::{self, FRAME_OCTETS},
};
use clock::{Clock, rounds};
use std::{process::ExitCode, rc::Rc};

const SEED: u64 = 1;
const FRAME_BITS: usize = 8 * FRAME_OCTETS;
const PLACES: usize = 1000;
/// How many frames header A and address, encode and decode have.
const FRAMES: usize = 256;
const ARQ_FRAMES: usize = 64;
const ECHOES: usize = 128;
const MESSAGE_OCTETS: usize = 255;
/// How many frames a loop of single calls has: one Begin, and the same Continue again and again.
const AGAIN: usize = 64;
const TICKS: usize = 1000;
const SCRIPT_OPERATIONS: usize = 1000;
/// More than any operations of that number answer.
const ANSWER_OCTETS: usize = 1 << 19;

pub fn main() -> ExitCode {
    let mut rows = Rows {
        clock: Clock::default(),
        random: Random(SEED),
    };
    for width in [1, 3, 7, 8, 20, 50] {
        rows.fields(width);
    }
    rows.copies();
    let frames: Rc<[u8]> = (0..FRAMES)
        .flat_map(|_| generate::frame(&mut rows.random))
        .collect();
    rows.frames(
        "read header A",
        &frames,
        FRAMES,
        Call::HeaderA,
        timing::header_a,
    );
    rows.frames(
        "read the address",
        &frames,
        FRAMES,
        Call::Address,
        timing::address,
    );
    for (kind, label) in [(0, "a Begin"), (1, "a Continue")] {
        rows.codec(kind, label);
    }
    rows.cuts();
    rows.lives();
    rows.ticks();
    rows.whole_script();
    rows.clock.run();
    ExitCode::SUCCESS
}

fn unpack(octets: &[u8]) -> Vec<bool> {
    let mut bits = vec![false; 8 * octets.len()];
    wire::unpack(octets, &mut bits);
    bits
}

type ReadFrames = fn(Frames, u64) -> u64;

struct Rows {
    clock: Clock,
    random: Random,
}
impl Rows {
    /// A row of so many calls in each round. A round's sum is told by each side.
    fn add(
        &mut self,
        call: impl Into<String>,
        calls: usize,
        original: impl FnMut(u64) -> u64 + 'static,
        port: impl FnMut(u64) -> u64 + 'static,
    ) {
        self.clock
            .add(call, None, calls, 1, rounds(original), rounds(port));
    }
    /// The original on ready-made bools, and again with the unpacking of the 14 octets counted.
    fn frames(
        &mut self,
        label: &str,
        octets: &Rc<[u8]>,
        calls: usize,
        call: Call,
        original: ReadFrames,
    ) {
        let bits = unpack(octets);
        let [unpacked, first, second] = [(); 3].map(|()| octets.clone());
        self.add(
            format!("{label}, on bools"),
            calls,
            move |round| original(Frames::Bools(&bits), round),
            move |round| port::time_calls(call, &mut [], &[], &first, round),
        );
        self.add(
            format!("{label}, unpacking counted"),
            calls,
            move |round| original(Frames::Octets(&unpacked), round),
            move |round| port::time_calls(call, &mut [], &[], &second, round),
        );
    }

    fn fields(&mut self, width: usize) {
        let places: Rc<[u8]> = places(width).into();
        let calls = places.len() / 2;
        let mut octets = self.random.octets::<FRAME_OCTETS>();
        let bits = unpack(&octets);
        let (mut put_octets, mut put_bits) = (octets, bits.clone());
        timing::put(&mut put_bits, &places, SEED);
        port::time_calls(Call::Put, &mut put_octets, &[], &places, SEED);
        assert_eq!(put_bits, unpack(&put_octets)[..put_bits.len()]);

        let [take, port_take, put, port_put] = [(); 4].map(|()| places.clone());
        self.add(
            format!("read a field, width {width}"),
            calls,
            move |_| timing::take(&bits, &take),
            move |round| port::time_calls(Call::Take, &mut octets, &[], &port_take, round),
        );
        self.add(
            format!("write a field, width {width}"),
            calls,
            move |round| {
                timing::put(&mut put_bits, &put, round);
                0
            },
            move |round| port::time_calls(Call::Put, &mut put_octets, &[], &port_put, round),
        );
    }
    /// The data of a Continue, cut from any bit of a message.
    fn copies(&mut self) {
        const TO: u8 = 30;
        const COUNT: u8 = 79;
        let from = self.random.octets::<42>();
        let places: Rc<[u8]> = (0..PLACES)
            .flat_map(|_| [TO, self.random.octet(), COUNT])
            .collect();
        let from_bits = unpack(&from);
        let (mut to, mut to_bits) = ([0; FRAME_OCTETS], [false; FRAME_BITS]);
        timing::copy(&mut to_bits, &from_bits, &places);
        port::time_calls(Call::Copy, &mut to, &from, &places, 0);
        assert_eq!(to_bits, wire::unpack_frame(&to));

        let port_places = places.clone();
        self.add(
            format!("copy {COUNT} bits"),
            PLACES,
            move |_| {
                timing::copy(&mut to_bits, &from_bits, &places);
                0
            },
            move |round| port::time_calls(Call::Copy, &mut to, &from, &port_places, round),
        );
    }
    /// Frames of one kind, of all identity types, that encode.
    fn codec(&mut self, kind: u8, label: &str) {
        let parsed: Vec<_> = (0..ARQ_FRAMES)
            .map(|_| {
                let mut parsed = generate::good_parsed(&mut self.random);
                parsed[0] = kind;
                parsed
            })
            .collect();
        let octets: Rc<[u8]> = parsed.iter().flat_map(generate::encoded).collect();
        let parsed: Rc<[u8]> = parsed.concat().into();
        for (how, packing) in [("into bools", false), ("packing counted", true)] {
            let [frames, port_frames] = [(); 2].map(|()| parsed.clone());
            self.add(
                format!("encode {label}, {how}"),
                ARQ_FRAMES * ECHOES,
                move |_| timing::encode(&frames, packing),
                move |round| port::time_calls(Call::Encode, &mut [], &[], &port_frames, round),
            );
        }
        self.frames(
            &format!("decode {label}"),
            &octets,
            ARQ_FRAMES,
            Call::Decode,
            timing::decode,
        );
    }
    /// A message of 255 octets, 27 frames: one call is the whole message.
    fn cuts(&mut self) {
        let operands: Rc<[u8]> = [&[3, 0, 0, 1, 0][..], &timing::IDENTITY_OPERAND]
            .concat()
            .into();
        let message = self.random.octets::<MESSAGE_OCTETS>();
        let [cut, port_cut] = [(); 2].map(|()| operands.clone());
        self.add(
            "cut 255 octets into 27 frames",
            1,
            move |round| timing::cut(&cut, &message, round),
            move |round| port::time_calls(Call::Cut, &mut [], &message, &port_cut, round),
        );
        for (how, packing) in [("into bools", false), ("packing counted", true)] {
            let [cut, port_cut] = [(); 2].map(|()| operands.clone());
            self.add(
                format!("cut 255 octets and encode, {how}"),
                1,
                move |round| timing::cut_encode(&cut, &message, round, packing),
                move |round| port::time_calls(Call::CutEncode, &mut [], &message, &port_cut, round),
            );
        }
    }
    /// A transfer of 255 octets, 27 frames, of which one call is the whole; and single calls, of a Begin once and of its
    /// first Continue again and again. Each round has a receiver or a procedure of its own.
    fn lives(&mut self) {
        let message = self.random.octets::<MESSAGE_OCTETS>();
        let frames = wire::cut([3, 0, 5, 1, 0], timing::IDENTITY_OPERAND, &message)
            .expect("a message that is cut");
        let frames: Vec<_> = frames.iter().map(generate::encoded).collect();
        let mut again = vec![frames[1]; AGAIN];
        again[0] = frames[0];
        let transfer: Rc<[u8]> = frames.concat().into();
        let again: Rc<[u8]> = again.concat().into();
        self.frames("`push`", &again, AGAIN, Call::Push, timing::push);
        self.frames(
            "27 `push`, 255 octets",
            &transfer,
            1,
            Call::Push,
            timing::push,
        );
        self.frames("`receive`", &again, AGAIN, Call::Receive, timing::receive);
        self.frames(
            "27 `receive`, 255 octets",
            &transfer,
            1,
            Call::Receive,
            timing::receive,
        );
        self.frames(
            "`receive` and `status_sent`",
            &again,
            AGAIN,
            Call::Report,
            timing::report,
        );
        let bits = unpack(&again);
        self.add(
            "the procedure's `advance`, nothing due",
            AGAIN,
            move |round| timing::advance(Frames::Bools(&bits), round),
            move |round| port::time_calls(Call::Advance, &mut [], &[], &again, round),
        );
    }
    fn ticks(&mut self) {
        for (label, step, call, original) in [
            (
                "the timer's `received_frame`",
                1,
                Call::TimerReceivedFrame,
                timing::timer_received_frame as fn(&[u8]) -> u64,
            ),
            (
                "the timer's `advance`, nothing due",
                0,
                Call::TimerAdvance,
                timing::timer_advance,
            ),
        ] {
            let steps = [step; TICKS];
            self.add(
                label,
                TICKS,
                move |_| original(&steps),
                move |round| port::time_calls(call, &mut [], &[], &steps, round),
            );
        }
    }
    fn whole_script(&mut self) {
        let script: Rc<[u8]> = generate::operations(&mut self.random, SCRIPT_OPERATIONS).into();
        let mut original = vec![0; ANSWER_OCTETS];
        let mut answers = original.clone();
        let length = script::run(&script, &mut original);
        assert_eq!(port::run(&script, &mut answers), length);
        assert_eq!(original, answers);
        assert_eq!(original[length - 1], END);

        let port_script = script.clone();
        self.add(
            format!("a script of {SCRIPT_OPERATIONS} operations, each"),
            SCRIPT_OPERATIONS,
            move |_| script::run(&script, &mut original) as u64,
            move |_| port::run(&port_script, &mut answers) as u64,
        );
    }
}

/// Pairs of offset and width that pass through a frame again and again, from every first offset of 0 to 7. They follow
/// one another, so that `put` appends at the place at which the port puts.
fn places(width: usize) -> Vec<u8> {
    let mut places = Vec::new();
    for pass in 0.. {
        let starts = (pass % 8..=FRAME_BITS - width).step_by(width);
        places.extend(starts.flat_map(|at| [at as u8, width as u8]));
        if places.len() >= 2 * PLACES {
            break;
        }
    }
    places
}
