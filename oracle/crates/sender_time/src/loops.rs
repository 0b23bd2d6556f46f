//! The loops that `sender-time` runs on the original, each of the shape of the port's exported one: the same transfers, the
//! same rounds, the same sum. They are a part of the library `plain`, since some calls are its own.
use crate::{
    link::{
        rach::{ARQ_MAP_BITS, ArqStatus, MobileIdentity},
        spach::Channel,
    },
    runtime::spach_arq::{Error, Request, Sender, TransferToken},
};
use std::hint::black_box;

const CAPACITY: usize = 128;
const FAR_MS: u64 = 1_000_000_000;
/// The frames of as many transfers as a sender has at most.
const ALL_FRAMES: usize = 27 * CAPACITY;

/// The message for the identity `number`.
fn ask(
    sender: &mut Sender<u64>,
    number: u64,
    deadline_ms: u64,
    now_ms: u64,
) -> Result<TransferToken, Error> {
    let request = Request {
        identity: MobileIdentity::Min34(number),
        channel: Channel::Arch,
        message: vec![7; 255],
        completion: number,
        deadline_ms,
    };
    sender.enqueue(request, 0, now_ms)
}
/// A sender with transfers for the identities after `first`, up to `last`.
fn filled(first: u64, last: u64) -> Sender<u64> {
    let mut sender = Sender::try_new(CAPACITY).expect("a capacity");
    for number in first + 1..=last {
        ask(&mut sender, number, FAR_MS, 0).expect("a free place");
    }
    sender
}
/// How many rounds are true.
fn sum(rounds: u64, mut round: impl FnMut(u64) -> bool) -> u64 {
    (1..=rounds).map(|at| u64::from(round(at))).sum()
}

#[inline(never)]
pub fn advance(live: u64, rounds: u64) -> u64 {
    let mut sender = filled(0, live);
    sum(rounds, |_| black_box(&mut sender).advance(0, 0).is_ok())
}
/// The frame that was prepared first, again and again.
#[inline(never)]
pub fn prepare(live: u64, rounds: u64) -> u64 {
    let mut sender = filled(0, live);
    sum(rounds, |_| {
        black_box(black_box(&mut sender).prepare(0, 0)).is_ok()
    })
}
#[inline(never)]
pub fn refresh(live: u64, rounds: u64) -> u64 {
    let mut sender = filled(0, live);
    sum(rounds, |_| {
        black_box(&mut sender).refresh_waiting(0, 0).is_ok()
    })
}

/// The next frame is prepared, submitted and transmitted.
fn send(sender: &mut Sender<u64>) -> bool {
    let Ok(Some(frame)) = black_box(sender.prepare(0, 0)) else {
        return false;
    };
    // Both are accepted: after a refusal the sum would be another.
    let _ = black_box(sender.submitted(&frame.token, 0, 0));
    let _ = black_box(sender.transmitted(&frame.token, 0, 0));
    true
}
/// One frame after the other; once all are out, a round begins again with a new sender.
#[inline(never)]
pub fn frame(live: u64, rounds: u64) -> u64 {
    let mut sender = filled(0, live);
    sum(rounds, |_| {
        let sent = send(&mut sender);
        if !sent {
            sender = filled(0, live);
        }
        sent
    })
}
/// An empty status of the one transfer whose Begin went out.
#[inline(never)]
pub fn status(live: u64, rounds: u64) -> u64 {
    let mut sender = filled(0, live);
    let begin = sender.prepare(0, 0).expect("a good clock");
    let begin = begin.expect("a frame");
    let submitted = sender.submitted(&begin.token, 0, 0);
    submitted.expect("the frame prepared");
    let status = ArqStatus {
        partial_echo: begin.partial_echo(),
        received_frames: [false; ARQ_MAP_BITS],
    };
    sum(rounds, |_| {
        black_box(&mut sender)
            .status(black_box(&status), 0, 0)
            .is_ok_and(|found| found)
    })
}
/// The transfer of the identity 1 is replaced, and the event of that taken. Its echo is free again in the next round, 2 ms
/// later.
#[inline(never)]
pub fn enqueue(live: u64, rounds: u64) -> u64 {
    let mut sender = filled(1, live);
    sum(rounds, |round| {
        let now_ms = 2 * round;
        let _ = black_box(ask(&mut sender, 1, now_ms + 1, now_ms));
        black_box(sender.pop_event()).is_some()
    })
}

/// An identity that no transfer has, another in each round.
fn stranger(round: u64) -> MobileIdentity {
    MobileIdentity::Min34(256 + round % 256)
}
#[inline(never)]
pub fn cancel(live: u64, rounds: u64) -> u64 {
    let mut sender = filled(0, live);
    sum(rounds, |round| {
        black_box(&mut sender).cancel(stranger(round))
    })
}
#[inline(never)]
pub fn contains(live: u64, rounds: u64) -> u64 {
    let sender = filled(0, live);
    sum(rounds, |round| black_box(&sender).contains(stranger(round)))
}
/// All frames are out.
#[inline(never)]
pub fn ready(live: u64, rounds: u64) -> u64 {
    let mut sender = filled(0, live);
    for _ in 0..ALL_FRAMES {
        send(&mut sender);
    }
    sum(rounds, |_| black_box(&sender).ready())
}
