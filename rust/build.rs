//! Links libpanel_routes.a: the repository's own, or the archive that PANEL_ROUTES_LIB names.
use std::{env, path::PathBuf};

fn main() {
    println!("cargo:rerun-if-env-changed=PANEL_ROUTES_LIB");
    println!("cargo:rerun-if-changed=build.rs");
    let arch = env::var("CARGO_CFG_TARGET_ARCH").unwrap();
    assert_eq!(arch, "x86_64", "libpanel_routes.a is x86-64 code; rust/cargo builds for it on any machine");
    let top = PathBuf::from(env::var("CARGO_MANIFEST_DIR").unwrap());
    let archive = env::var_os("PANEL_ROUTES_LIB")
        .map(PathBuf::from)
        .unwrap_or_else(|| top.join("../target/staticlib/libpanel_routes.a"));
    println!("cargo:rerun-if-changed={}", archive.display());
    let archive = archive.canonicalize().unwrap_or_else(|e| {
        panic!(
            "{}: {e}; `./archive` builds it, PANEL_ROUTES_LIB names another",
            archive.display()
        )
    });
    let name = archive.file_stem().and_then(|n| n.to_str()).and_then(|n| n.strip_prefix("lib"));
    let name = name.expect("an archive is named libNAME.a");
    println!("cargo:rustc-link-search=native={}", archive.parent().unwrap().display());
    println!("cargo:rustc-link-lib=static={name}");
}
