//! Shim: the crate root. The alias makes every `std::sync::Arc` of the given files a numbered one.
extern crate arcount as std;

pub mod harness;
// The given files are here without most of their callers.
#[allow(dead_code, unused_imports)]
pub mod link;
pub mod phy;
// The shim's guard of 0 makes a `max` of a given file look needless.
#[allow(dead_code, clippy::unnecessary_min_or_max)]
pub mod runtime;
