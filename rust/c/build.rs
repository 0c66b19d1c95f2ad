//! Gives the shared object its name, with the version of the interface, and leaves out what only a
//! debugger reads. The tables for backtraces stay.

use std::env;

fn main() {
    println!("cargo::rerun-if-changed=build.rs");
    let of = |name| env::var(name).unwrap_or_default();
    if of("CARGO_CFG_TARGET_OS") != "linux" {
        return;
    }
    let (major, minor) = (of("CARGO_PKG_VERSION_MAJOR"), of("CARGO_PKG_VERSION_MINOR"));
    println!("cargo::rustc-cdylib-link-arg=-Wl,-soname,libcubejobs_source.so.{major}.{minor}");
    println!("cargo::rustc-cdylib-link-arg=-Wl,--strip-all");
}
