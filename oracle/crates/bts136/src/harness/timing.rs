//! The loops that `time` runs on the original, each of the shape of the port's: once over the operands of one call, in a
//! round of some number, with a sum of what is told.
use super::wire::{self, FRAME_OCTETS, HEADER_OCTETS, PARSED_OCTETS};
use crate::{
    link::{
        rach::MobileIdentity,
        spach::{
            SingleMessage, SpachError, SpachReceiver as Given,
            arq::{
                self, ArqFrame, ArqHeader, ArqReassembler, Reception,
                inactivity::{ArqInactivity, StatusResult},
                procedure::{ArqProcedure, ProcedureError, ReceiveEvent, TimerEvent},
            },
        },
    },
    phy::control::INFORMATION_BITS,
};
use std::hint::black_box;

const HEADER_A: usize = 0;
const ADDRESS: usize = 10;
const ECHOES: u8 = 128;
/// The identity that frames are for, and the operand that names it.
const IDENTITY: MobileIdentity = MobileIdentity::Tmsi20(1);
pub const IDENTITY_OPERAND: [u8; 9] = [0, 0, 0, 0, 0, 0, 0, 0, 1];

/// Frames, 112 ready-made bools or 14 octets each; the octets are unpacked at every call.
#[derive(Clone, Copy)]
pub enum Frames<'a> {
    Bools(&'a [bool]),
    Octets(&'a [u8]),
}
impl Frames<'_> {
    fn each(self, mut read: impl FnMut(&[bool]) -> u64) -> u64 {
        match self {
            Self::Bools(bits) => sum(bits.chunks_exact(8 * FRAME_OCTETS).map(read)),
            Self::Octets(octets) => {
                let frames = octets.chunks_exact(FRAME_OCTETS);
                sum(frames.map(|octets| read(&wire::unpack_frame(octets))))
            }
        }
    }
}
fn sum(told: impl Iterator<Item = u64>) -> u64 {
    told.fold(0, u64::wrapping_add)
}
fn told_or_refused<T>(answer: Result<T, SpachError>, told: impl FnOnce(T) -> u64) -> u64 {
    match answer {
        Ok(value) => told(value),
        Err(error) => u64::from(wire::number(error)),
    }
}

fn pairs(places: &[u8]) -> impl Iterator<Item = (usize, usize)> {
    let (pairs, _) = places.as_chunks();
    pairs
        .iter()
        .map(|&[offset, width]| (usize::from(offset), usize::from(width)))
}
#[inline(never)]
pub fn take(bits: &[bool], places: &[u8]) -> u64 {
    sum(pairs(places)
        .map(|(offset, width)| Given::take(bits, offset, width).map_or(0, |(value, _)| value)))
}
/// The original appends, so each place is made the end of the bits first.
#[inline(never)]
pub fn put(bits: &mut Vec<bool>, places: &[u8], round: u64) {
    for (offset, width) in pairs(places) {
        bits.truncate(offset);
        Given::put(bits, round, width);
    }
}
#[inline(never)]
pub fn copy(to: &mut [bool], from: &[bool], places: &[u8]) {
    let (triples, _) = places.as_chunks();
    for triple in triples {
        let [start, source, count] = triple.map(usize::from);
        let source = &from[source..source + count];
        to[start..start + count].copy_from_slice(source);
        // So that no copy is left out for the next one over it.
        black_box(&mut *to);
    }
}

/// The exclusive or of usage, flags and the offset after them.
#[inline(never)]
pub fn header_a(frames: Frames, _round: u64) -> u64 {
    frames.each(|bits| {
        let header = Given::header_a(bits, HEADER_A);
        told_or_refused(header, |((channel, flags), after)| {
            channel as u64 ^ u64::from(wire::flags(flags)) ^ after as u64
        })
    })
}
/// The exclusive or of the identity's value, the reservation response and the offset after it.
#[inline(never)]
pub fn address(frames: Frames, _round: u64) -> u64 {
    frames.each(|bits| {
        let address = Given::address(bits, ADDRESS);
        told_or_refused(address, |((identity, reservation_response), after)| {
            let (_, _, value) = identity.parts();
            value ^ u64::from(reservation_response) ^ after as u64
        })
    })
}

/// Every echo in turn, so that no round repeats another.
fn echo(round: u64) -> u8 {
    (round % u64::from(ECHOES)) as u8
}
fn header_of(frame: &mut ArqFrame) -> &mut ArqHeader {
    match frame {
        ArqFrame::Begin { header, .. } | ArqFrame::Continue { header, .. } => header,
    }
}
/// An octet of a frame as it is encoded: of the bools themselves, or of all octets packed.
fn encoded(frame: &ArqFrame, round: u64, packing: bool) -> u64 {
    let index = round as usize % FRAME_OCTETS;
    told_or_refused(frame.encode(), |bits| {
        u64::from(if packing {
            black_box(wire::pack_frame(&bits))[index]
        } else {
            wire::octet(&bits, index)
        })
    })
}
/// What is told of a frame: the exclusive or of echo, octet count or number, and an octet of the data.
fn told(frame: &ArqFrame, round: u64) -> u64 {
    let (header, number, octet) = match frame {
        ArqFrame::Begin {
            header,
            message_octets,
            data,
            ..
        } => (
            header,
            message_octets,
            wire::octet(data, round as usize % 7),
        ),
        ArqFrame::Continue {
            header,
            frame_number,
            data,
            ..
        } => (header, frame_number, wire::octet(data, round as usize % 10)),
    };
    u64::from(header.partial_echo ^ number ^ octet)
}
/// Each frame operand is read once, and encoded under every echo.
#[inline(never)]
pub fn encode(frames: &[u8], packing: bool) -> u64 {
    let (frames, _) = frames.as_chunks::<PARSED_OCTETS>();
    let frames = frames.iter().filter_map(wire::frame);
    sum(frames.map(|mut frame| {
        sum((0..ECHOES).map(|echo| {
            header_of(&mut frame).partial_echo = echo;
            encoded(&frame, u64::from(echo), packing)
        }))
    }))
}
#[inline(never)]
pub fn decode(frames: Frames, round: u64) -> u64 {
    frames.each(|bits| {
        let frame = arq::decode(&bits[..INFORMATION_BITS]);
        told_or_refused(frame, |frame| told(&frame, round))
    })
}
#[inline(never)]
pub fn cut(operands: &[u8], message: &[u8], round: u64) -> u64 {
    cut_each(operands, message, round, |frame| told(frame, round))
}
#[inline(never)]
pub fn cut_encode(operands: &[u8], message: &[u8], round: u64, packing: bool) -> u64 {
    cut_each(operands, message, round, |frame| {
        encoded(frame, round, packing)
    })
}
fn cut_each(operands: &[u8], message: &[u8], round: u64, each: impl Fn(&ArqFrame) -> u64) -> u64 {
    let (header, identity) = operands.split_at(HEADER_OCTETS);
    let mut header = wire::header(header.try_into().expect("its octets")).expect("a header");
    let value = u64::from_be_bytes(identity[1..].try_into().expect("its octets"));
    let identity = wire::identity(identity[0], value).expect("an identity");
    header.partial_echo = echo(round);
    let frames = arq::fragment_message(header, identity, message);
    told_or_refused(frames, |frames| sum(frames.iter().map(&each)))
}

/// 1, and the length and an octet of a message.
fn delivered(message: Option<&SingleMessage>, round: u64) -> u64 {
    message.map_or(1, |delivered| {
        let octet = delivered.message.get(round as usize % 255);
        1 + delivered.message.len() as u64 + u64::from(octet.copied().unwrap_or(0))
    })
}
#[inline(never)]
pub fn push(frames: Frames, round: u64) -> u64 {
    let mut receiver = ArqReassembler::try_new(IDENTITY).expect("a good identity");
    frames.each(|bits| {
        let heard = receiver.push(&bits[..INFORMATION_BITS]);
        told_or_refused(heard, |heard| match heard {
            Reception::Ignored => 0,
            Reception::Accepted { message, .. } => delivered(message.as_ref(), round),
        })
    })
}

fn told_or_stopped<T>(answer: Result<T, ProcedureError>, told: impl FnOnce(T) -> u64) -> u64 {
    match answer {
        Ok(value) => told(value),
        Err(ProcedureError::Wire(error)) => u64::from(wire::number(error)),
        Err(ProcedureError::Clock(_)) => CLOCK_BACKWARDS,
    }
}
const CLOCK_BACKWARDS: u64 = 17;
fn procedure() -> ArqProcedure {
    ArqProcedure::try_new(IDENTITY).expect("a good identity")
}
fn receive_one(procedure: &mut ArqProcedure, bits: &[bool], round: u64) -> u64 {
    let heard = procedure.receive(round, &bits[..INFORMATION_BITS]);
    told_or_stopped(heard, |heard| match heard {
        ReceiveEvent::Ignored => 0,
        ReceiveEvent::Accepted { message, .. } => delivered(message.as_ref(), round),
    })
}
#[inline(never)]
pub fn receive(frames: Frames, round: u64) -> u64 {
    let mut procedure = procedure();
    frames.each(|bits| receive_one(&mut procedure, bits, round))
}
/// The status that a frame asks for is sent.
#[inline(never)]
pub fn report(frames: Frames, round: u64) -> u64 {
    let mut procedure = procedure();
    frames.each(
        |bits| match procedure.receive(round, &bits[..INFORMATION_BITS]) {
            Ok(ReceiveEvent::Accepted {
                status: Some(status),
                ..
            }) => {
                let sent = procedure.status_sent(round, status, StatusResult::Sent);
                told_or_stopped(sent, |event| event as u64)
            }
            _ => 0,
        },
    )
}
/// The first frame opens a transaction; for each of the others the clock is asked.
#[inline(never)]
pub fn advance(frames: Frames, round: u64) -> u64 {
    let mut procedure = procedure();
    let mut open = false;
    frames.each(|bits| {
        if !open {
            open = true;
            return receive_one(&mut procedure, bits, round);
        }
        told_or_stopped(procedure.advance(round), |event| match event {
            TimerEvent::None => 1,
            TimerEvent::SendStatus(_) => 2,
            TimerEvent::Terminated => 3,
        })
    })
}

/// A timer that waits; for each octet a call so many blocks later.
fn tick(steps: &[u8], mut call: impl FnMut(&mut ArqInactivity, u64) -> u64) -> u64 {
    let mut timer = ArqInactivity::default();
    let _ = timer.received_frame(0);
    let mut block = 0u64;
    sum(steps.iter().map(|step| {
        block = block.wrapping_add(u64::from(*step));
        call(&mut timer, block)
    }))
}
#[inline(never)]
pub fn timer_received_frame(steps: &[u8]) -> u64 {
    tick(steps, |timer, block| {
        let seen = timer.received_frame(block);
        seen.map_or(CLOCK_BACKWARDS, |()| 1)
    })
}
#[inline(never)]
pub fn timer_advance(steps: &[u8]) -> u64 {
    tick(steps, |timer, block| {
        let acted = timer.advance(block);
        acted.map_or(CLOCK_BACKWARDS, |action| action as u64)
    })
}
