//! Compiles C by hand, c/, which the benchmark measures ours beside, with the compiler that CATTLECLEAT_CC names or else `cc`.
//! Where that is no C compiler for x86-64 the program is built without it, and the cfg `floor` is not set.

use std::env;
use std::path::{Path, PathBuf};
use std::process::{Command, Stdio};

const SOURCES: [&str; 2] = ["floor", "replay"];

/// As the archive was compiled when the times of docs/PERFORMANCE.md were taken; today it is for x86-64-v2.
const FLAGS: [&str; 4] = ["-std=c99", "-O3", "-march=x86-64", "-fPIC"];
const WARNINGS: [&str; 4] = ["-Wall", "-Wextra", "-Wpedantic", "-Werror"];

fn main() {
    println!("cargo::rustc-check-cfg=cfg(floor)");
    println!("cargo::rerun-if-env-changed=CATTLECLEAT_CC");
    for watched in ["build.rs", "c", "../../include/cattlecleat.h"] {
        println!("cargo::rerun-if-changed={watched}");
    }
    let compiler = env::var("CATTLECLEAT_CC").unwrap_or("cc".to_string());
    if named("CARGO_CFG_TARGET_ARCH") != "x86_64" || !compiles(&compiler) {
        return;
    }
    let out = PathBuf::from(named("OUT_DIR"));
    for source in SOURCES {
        let object = out.join(source).with_extension("o");
        compile(&compiler, &Path::new("c").join(source).with_extension("c"), &object);
        println!("cargo::rustc-link-arg={}", object.display());
    }
    println!("cargo::rustc-cfg=floor");
}

fn named(variable: &str) -> String {
    env::var(variable).unwrap_or_else(|_| panic!("cargo sets {variable}"))
}

/// Whether it is there and compiles for x86-64: an empty file, so that nothing but the compiler can be wrong.
fn compiles(compiler: &str) -> bool {
    let mut empty = Command::new(compiler);
    empty.args(FLAGS).args(["-fsyntax-only", "-x", "c", "/dev/null"]);
    let status = empty.stdout(Stdio::null()).stderr(Stdio::null()).status();
    status.is_ok_and(|status| status.success())
}

fn compile(compiler: &str, source: &Path, object: &Path) {
    let mut command = Command::new(compiler);
    command
        .args(FLAGS)
        .args(WARNINGS)
        .args(["-I", "../../include", "-c", "-o"])
        .args([object, source]);
    let compiled = command.status().is_ok_and(|status| status.success());
    assert!(compiled, "{compiler} does not compile {}", source.display());
}
