//! Tells cargo where `host/archive` leaves the archive.

use std::path::Path;

fn main() {
    let here = std::env::var("CARGO_MANIFEST_DIR").expect("cargo sets this");
    let archives = Path::new(&here).join("../../target/staticlib");
    println!("cargo:rustc-link-search=native={}", archives.display());
    println!("cargo:rerun-if-changed={}", archives.display());
    if !archives.join("libnufsadeem.a").exists() {
        println!("cargo:warning=there is no archive to link; `host/archive` makes it");
    }
    if std::env::var("CARGO_CFG_TARGET_ARCH").as_deref() != Ok("x86_64") {
        println!("cargo:warning=the archive is x86-64 code; host/run has a way to link and run it on Arm");
    }
}
