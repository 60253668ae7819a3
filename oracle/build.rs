//! Links the archive, where one of its calls is asked for.
use std::{env, path::PathBuf};

const CALLS: [&str; 12] = [
    "PANEL", "PORT", "BUCKET", "CHECK", "LIST", "SEARCH", "BOUND", "PLAIN", "LETTERS", "SPELL", "WRITE",
    "READ",
];

fn main() {
    println!("cargo:rerun-if-env-changed=PANEL_ROUTES_LIB");
    println!("cargo:rerun-if-changed=build.rs");
    if CALLS.iter().all(|c| env::var_os(format!("CARGO_FEATURE_{c}")).is_none()) {
        return;
    }
    let top = PathBuf::from(env::var("CARGO_MANIFEST_DIR").unwrap());
    let archive = env::var_os("PANEL_ROUTES_LIB")
        .map(PathBuf::from)
        .unwrap_or_else(|| top.join("../target/staticlib/libpanel_routes.a"));
    println!("cargo:rerun-if-changed={}", archive.display());
    println!("cargo:rustc-link-arg-bins={}", archive.display());
}
