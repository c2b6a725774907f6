//! Names the proved archive to the linker, for the two programs alone: the library and its unit
//! tests stand without it. SCOAP_ARCHIVE names another archive, relative to this folder.

use std::env;
use std::path::Path;

fn main() {
    println!("cargo:rerun-if-changed=build.rs");
    println!("cargo:rerun-if-env-changed=SCOAP_ARCHIVE");
    let here = env::var("CARGO_MANIFEST_DIR").unwrap();
    let named = env::var("SCOAP_ARCHIVE")
        .unwrap_or_else(|_| "../../target/staticlib/libscoap_c.a".to_string());
    let archive = Path::new(&here).join(named);
    // The archive's own change must link the programs anew.
    println!("cargo:rerun-if-changed={}", archive.display());
    for program in ["compare", "bench"] {
        println!("cargo:rustc-link-arg-bin={program}={}", archive.display());
    }
}
