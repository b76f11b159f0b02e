//! Links the verified library to the programs.

use std::env;
use std::path::PathBuf;

fn archive(name: &str, default: impl FnOnce() -> PathBuf) -> PathBuf {
    println!("cargo:rerun-if-env-changed={name}");
    let path = env::var_os(name).map_or_else(default, PathBuf::from);
    let path = path
        .canonicalize()
        .unwrap_or_else(|error| panic!("{name}: {}: {error}", path.display()));
    println!("cargo:rerun-if-changed={}", path.display());
    println!("cargo:rustc-link-arg-bins={}", path.display());
    path
}

fn main() {
    println!("cargo:rerun-if-changed=build.rs");
    let package = PathBuf::from(env::var_os("CARGO_MANIFEST_DIR").expect("set by cargo"));
    let panel = archive("PANEL_A", || package.join("../target/staticlib/libpanel.a"));
    println!("cargo:rustc-env=PANEL_ARCHIVE={}", panel.display());
}
