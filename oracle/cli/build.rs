//! What is linked, as the build scripts of `original` and `oracle` found it.

use std::env;

fn main() {
    println!("cargo::rerun-if-changed=build.rs");
    for (cfg, found) in [
        ("original", "DEP_ORIGINAL_HERE"),
        ("library", "DEP_PROVED_LIBRARY"),
        ("switch", "DEP_PROVED_SWITCH"),
        ("batch", "DEP_PROVED_BATCH"),
    ] {
        println!("cargo::rustc-check-cfg=cfg({cfg})");
        if env::var_os(found).is_some() {
            println!("cargo::rustc-cfg={cfg}");
        }
    }
}
