//! Shim: not given. `rach.rs` names the module; nothing of it is used.
