//! Links the port, the static library that `rt lib` writes in crates/port. `sender_time` is built by this file too.
use std::{
    env,
    path::{Path, PathBuf},
};

const OVERRIDE: &str = "PORT_LIB_DIR";

fn main() {
    let here = env::var("CARGO_MANIFEST_DIR").expect("cargo sets it");
    let folder = env::var_os(OVERRIDE).map_or_else(
        || Path::new(&here).join("../../../crates/port/out"),
        PathBuf::from,
    );
    let archive = folder.join("libport.a");
    assert!(
        archive.exists(),
        "{} is missing: run `rt lib` in crates/port first, or name its folder in {OVERRIDE}",
        archive.display()
    );
    println!("cargo::rustc-link-search=native={}", folder.display());
    println!("cargo::rustc-link-lib=static=port");
    println!("cargo::rerun-if-env-changed={OVERRIDE}");
    println!("cargo::rerun-if-changed={}", archive.display());
}
