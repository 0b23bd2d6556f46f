//! A safe name of the port's loop. A slice is two C arguments there, pointer then length.
//!
//! It has no precondition beyond valid slices, and Rust's borrows keep the slices apart.
const OCTETS: usize = 32_640;
const WORDS: usize = 3_456;

mod raw {
    unsafe extern "C" {
        pub fn time_sender(
            call: u8,
            live: u64,
            rounds: u64,
            store: *mut u8,
            store_length: usize,
            words: *mut u64,
            words_length: usize,
        ) -> u64;
    }
}

/// The memory that is lent to a sender.
pub struct Memory {
    store: Vec<u8>,
    words: Vec<u64>,
}
impl Default for Memory {
    fn default() -> Self {
        Self {
            store: vec![0; OCTETS],
            words: vec![0; WORDS],
        }
    }
}

/// The calls, in the port's order.
#[derive(Clone, Copy)]
pub enum Call {
    Frame,
    Status,
    Enqueue,
    Prepare,
    Advance,
    Refresh,
    Cancel,
    Contains,
    Ready,
}
pub fn time_sender(call: Call, live: u64, rounds: u64, memory: &mut Memory) -> u64 {
    let Memory { store, words } = memory;
    // SAFETY: both slices are valid, and apart.
    unsafe {
        raw::time_sender(
            call as u8,
            live,
            rounds,
            store.as_mut_ptr(),
            store.len(),
            words.as_mut_ptr(),
            words.len(),
        )
    }
}
