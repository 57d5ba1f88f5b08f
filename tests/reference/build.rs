//! Links the static library that HMCS_LIBRARY names, if it is set. HMCS_CALLS says that the library has the calls on a caller's state.

use std::env;
use std::path::Path;

fn main() {
    println!("cargo:rustc-check-cfg=cfg(library, calls)");
    println!("cargo:rerun-if-env-changed=HMCS_LIBRARY");
    println!("cargo:rerun-if-env-changed=HMCS_CALLS");
    println!("cargo:rerun-if-changed=build.rs");
    let library = match env::var("HMCS_LIBRARY") {
        Ok(library) => library,
        Err(_) => return,
    };
    assert!(Path::new(&library).is_absolute() && Path::new(&library).is_file(), "HMCS_LIBRARY is no absolute path of a file: {library}");
    println!("cargo:rerun-if-changed={library}");
    println!("cargo:rustc-cfg=library");
    println!("cargo:rustc-link-arg={library}");
    if env::var("HMCS_CALLS").is_ok() {
        println!("cargo:rustc-cfg=calls");
        println!("cargo:rustc-link-arg-bin=copies=-Wl,--wrap=memcpy");
    }
}
