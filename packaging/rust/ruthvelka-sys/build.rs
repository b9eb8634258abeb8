//! Links the library that the folder `lib` of this crate has. A tree of sources has none: there RUTHVELKA_LIBRARY names the folder of one.

use std::path::PathBuf;

fn main() {
    println!("cargo:rerun-if-env-changed=RUTHVELKA_LIBRARY");
    let own = PathBuf::from(std::env::var("CARGO_MANIFEST_DIR").expect("cargo sets it")).join("lib");
    let folder = if own.join("libruthvelka.a").is_file() {
        own
    } else {
        let named = std::env::var("RUTHVELKA_LIBRARY").expect("the crate has no lib/libruthvelka.a, and RUTHVELKA_LIBRARY names no folder");
        PathBuf::from(named)
    };
    println!("cargo:rerun-if-changed={}", folder.join("libruthvelka.a").display());
    println!("cargo:rustc-link-search=native={}", folder.display());
    println!("cargo:rustc-link-lib=static=ruthvelka");
}
