//! Shim: not given. Names the given `spach_arq.rs` and the timers that it uses.
// Skipped, here and in link.rs, so that `cargo fmt` leaves the given files as they are.
#[rustfmt::skip]
pub mod spach_arq;
/// Zero makes ECHO_GUARD_MS zero, so that `after_restart` takes the guard as it is.
pub(crate) mod timers {
    pub const REGISTRATION_MS: u64 = 0;
    pub const SUPERFRAME_MS: u64 = 0;
}
