//! Links the proved archives.
//!
//! - `KAV_ARCHIVE`, or `../target/staticlib/libabi.a`, is linked when it exists.
//! - Feature `archive`: it must exist, otherwise the build fails.
//! - `../target/staticlib/libmeasure.a` is linked to the benchmark `digits` alone when it exists.
//!
//! `cfg(kav_linked)` tells the rest of the crate that the ten functions can be called, `cfg(kav_measured)` that both digit
//! writers can.

use std::env;
use std::path::PathBuf;

fn main() {
    println!("cargo::rustc-check-cfg=cfg(kav_linked)");
    println!("cargo::rerun-if-env-changed=KAV_ARCHIVE");
    println!("cargo::rerun-if-changed=build.rs");

    let here = PathBuf::from(env::var_os("CARGO_MANIFEST_DIR").expect("cargo sets it"));
    let archive = match env::var_os("KAV_ARCHIVE") {
        Some(path) => here.join(path),
        None => here.join("../target/staticlib/libabi.a"),
    };
    // While the file is missing cargo asks again at every build, so one made later is noticed.
    println!("cargo::rerun-if-changed={}", archive.display());

    let wanted = env::var_os("CARGO_FEATURE_ARCHIVE").is_some();
    if archive.is_file() {
        // The file is named whole, so that no other library of that name can be taken for it.
        println!("cargo::rustc-link-arg={}", archive.display());
        println!("cargo::rustc-cfg=kav_linked");
    } else {
        assert!(!wanted, "no archive at {}: run `tools/build.sh abi` first", archive.display());
    }

    println!("cargo::rustc-check-cfg=cfg(kav_measured)");
    let measured = here.join("../target/staticlib/libmeasure.a");
    println!("cargo::rerun-if-changed={}", measured.display());
    if measured.is_file() {
        println!("cargo::rustc-link-arg-bin=digits={}", measured.display());
        println!("cargo::rustc-cfg=kav_measured");
    }
}
