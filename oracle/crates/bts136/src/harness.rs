//! Not part of the original: what runs its code for the driver.
mod numbered;
pub mod opened;
pub mod script;
pub mod sending;
pub mod timing;
pub mod wire;
