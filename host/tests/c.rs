//! The C program, compiled with `cc` against the header and the library.

use std::path::Path;
use std::process::Command;
use std::{env, fs};

fn compiles_and_runs(name: &str, flags: &[&str]) {
    let here = Path::new(env!("CARGO_MANIFEST_DIR"));
    let program = env::temp_dir().join(format!("humdelzi-{name}-{}", std::process::id()));
    let made = Command::new("cc")
        .args(["-std=c11", "-O1", "-Wall", "-Wextra", "-Wpedantic", "-Werror"])
        .args(flags)
        .arg("-I")
        .arg(here.join("include"))
        .arg(here.join("tests/c/sleep.c"))
        .args(["-L", env!("HUMDELZI_LIB_FOUND"), "-lhumdelzi", "-o"])
        .arg(&program)
        .output();
    let Ok(made) = made else {
        println!("{name}: skipped: cc is not here, so the C program was not compiled");
        return;
    };
    assert!(made.status.success(), "{}", String::from_utf8_lossy(&made.stderr));
    let ran = Command::new(&program).output().expect("the program runs");
    let _ = fs::remove_file(&program);
    let told = String::from_utf8_lossy(&ran.stdout);
    print!("{name}: {told}");
    assert!(ran.status.success(), "{told}");
}

#[test]
fn a_script_sleeps_and_wakes_through_c() {
    compiles_and_runs("tested", &[]);
    compiles_and_runs("unchecked", &["-DBVM_UNCHECKED"]);
}
