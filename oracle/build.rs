//! Links the static library. `BVM_LIB` names the folder that holds
//! libhumdelzi.a, the proved functions; without it the crate builds without them.

use std::{env, fs, process};

fn main() {
    println!("cargo::rerun-if-changed=build.rs");
    println!("cargo::rerun-if-env-changed=BVM_LIB");
    println!("cargo::rustc-check-cfg=cfg(library)");
    println!("cargo::rustc-check-cfg=cfg(switch)");
    println!("cargo::rustc-check-cfg=cfg(batch)");
    let Some(lib) = env::var_os("BVM_LIB").filter(|s| !s.is_empty()) else {
        return;
    };
    let lib = fs::canonicalize(&lib).unwrap_or_else(|e| {
        eprintln!("BVM_LIB: {e}");
        process::exit(1)
    });
    println!("cargo::rustc-link-search=native={}", lib.display());
    println!("cargo::rerun-if-changed={}", lib.join("libhumdelzi.a").display());
    println!("cargo::rustc-link-lib=static=humdelzi");
    // told here, and to the build script of `cli`: all calls, the two switches, the batch
    for cfg in ["library", "switch", "batch"] {
        println!("cargo::rustc-cfg={cfg}");
        println!("cargo::metadata={cfg}=1");
    }
}
