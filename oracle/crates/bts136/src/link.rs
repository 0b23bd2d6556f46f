//! Shim: not given. Names the given files and gives `rach.rs` back the one cut item that the ARQ path uses.
#[rustfmt::skip]
pub mod spach;
/// The given `rach.rs`, unchanged, and `ArqStatus`, whose fields and types are forced by their uses.
pub mod rach {
    include!("link/rach.rs");

    #[derive(Debug, Clone, PartialEq, Eq)]
    pub struct ArqStatus {
        pub partial_echo: u8,
        pub received_frames: [bool; ARQ_MAP_BITS],
    }
}
