//! Safe names of what the port exports. A slice is two C arguments there, pointer then length.
//!
//! None of these has a precondition beyond a valid slice, and Rust's borrows keep the slices apart.
use bts136::harness::script;

mod raw {
    unsafe extern "C" {
        pub fn script_run(script: *const u8, length: usize, answers: *mut u8, room: usize)
        -> usize;
        pub fn sender_run(
            script: *const u8,
            length: usize,
            answers: *mut u8,
            room: usize,
            octets: *mut u8,
            octets_length: usize,
            words: *mut u64,
            words_length: usize,
        ) -> usize;
        pub fn time_calls(
            call: u8,
            dst: *mut u8,
            dst_length: usize,
            src: *const u8,
            src_length: usize,
            operands: *const u8,
            operands_length: usize,
            round: u64,
        ) -> u64;
    }
}

/// The side that is compared with the original.
#[derive(Clone, Copy)]
pub struct Port {
    pub run: fn(&[u8], &mut [u8]) -> usize,
    pub sender_run: SenderRun,
}
/// How a side runs a sender's script on a memory.
pub type SenderRun = fn(&[u8], &mut [u8], &mut [u8], &mut [u64]) -> usize;
impl Port {
    pub const LINKED: Self = Self { run, sender_run };
    /// The original in the port's place.
    pub const DRY: Self = Self {
        run: script::run,
        sender_run: script::sender::run_sender,
    };
}

pub fn run(script: &[u8], answers: &mut [u8]) -> usize {
    unsafe {
        raw::script_run(
            script.as_ptr(),
            script.len(),
            answers.as_mut_ptr(),
            answers.len(),
        )
    }
}
pub fn sender_run(
    script: &[u8],
    answers: &mut [u8],
    octets: &mut [u8],
    words: &mut [u64],
) -> usize {
    unsafe {
        raw::sender_run(
            script.as_ptr(),
            script.len(),
            answers.as_mut_ptr(),
            answers.len(),
            octets.as_mut_ptr(),
            octets.len(),
            words.as_mut_ptr(),
            words.len(),
        )
    }
}
/// The calls that are timed, in the port's order.
#[derive(Clone, Copy)]
pub enum Call {
    Take,
    Put,
    Copy,
    HeaderA,
    Address,
    Decode,
    Encode,
    Cut,
    CutEncode,
    Push,
    Receive,
    Report,
    Advance,
    TimerReceivedFrame,
    TimerAdvance,
}
pub fn time_calls(call: Call, dst: &mut [u8], src: &[u8], operands: &[u8], round: u64) -> u64 {
    unsafe {
        raw::time_calls(
            call as u8,
            dst.as_mut_ptr(),
            dst.len(),
            src.as_ptr(),
            src.len(),
            operands.as_ptr(),
            operands.len(),
            round,
        )
    }
}
