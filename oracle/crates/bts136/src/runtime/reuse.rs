//! Shim: not given. The `ReusePolicy` that the given `spach_arq.rs` names, in the library `plain`; nothing of it is used.
pub struct ReusePolicy {
    pub quiet_ms: u64,
}
impl ReusePolicy {
    pub fn quiet_blocks(&self) -> u64 {
        0
    }
}
