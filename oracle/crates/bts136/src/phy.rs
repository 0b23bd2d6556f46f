//! Shim: not given. One number and two names that the given files use.
pub mod control {
    /// The fields of a Continue add up to this.
    pub const INFORMATION_BITS: usize = 109;
}
pub mod dcch {
    pub struct BlockFormat;
}
pub mod rach {
    pub struct BurstFormat;
}
