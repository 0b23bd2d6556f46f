//! Shim: the root of the library `plain`, the given files with the real `Arc`, for timing.
#[allow(dead_code, unused_imports)]
pub mod link;
#[path = "../../sender_time/src/loops.rs"]
pub mod loops;
pub mod phy;
#[allow(dead_code, clippy::unnecessary_min_or_max)]
pub mod runtime {
    // Named by its path, the given file takes `reuse.rs` beside it, not the one of `bts136` in a folder of its own name.
    #[path = "spach_arq.rs"]
    #[rustfmt::skip]
    pub mod spach_arq;
    pub(crate) mod timers {
        pub const REGISTRATION_MS: u64 = 0;
        pub const SUPERFRAME_MS: u64 = 0;
    }
}
