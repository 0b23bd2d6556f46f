//! Shim: not given. `arq.rs` re-exports these names; nothing else of them is used.
pub struct ArqDelivery;
pub struct DeliveryState;
pub struct StatusDisposition;
