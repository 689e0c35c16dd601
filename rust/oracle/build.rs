//! Takes the Rust's own files from the folder that CATTLECLEAT_RUST_SRC names, byte for byte as published, or fails.

#[path = "src/sha256.rs"]
mod sha256;

use std::{env, fs, path::Path, process::exit};

/// Path under the folder, name under OUT_DIR, SHA-256 of the file in wasmi 2.0.0.
const FILES: [(&str, &str, &str); 2] = [
    (
        "src/engine/executor/handler/state.rs",
        "state.rs",
        "4313e4a43ede071652dd280a4075bbe4822ec50289ce8f44b8f1966bc61658bb",
    ),
    (
        "src/engine/utils.rs",
        "utils.rs",
        "b881d72c5e925bbf7a47a08bbc0989835fa7fe778068ef2f67b3d598023d5d90",
    ),
];

fn main() {
    println!("cargo::rerun-if-env-changed=CATTLECLEAT_RUST_SRC");
    println!("cargo::rerun-if-changed=build.rs");
    println!("cargo::rerun-if-changed=src/sha256.rs");
    let Some(folder) = env::var_os("CATTLECLEAT_RUST_SRC") else {
        fail("CATTLECLEAT_RUST_SRC is not set: it names the folder that holds the source of wasmi 2.0.0")
    };
    let out = env::var_os("OUT_DIR").expect("cargo sets OUT_DIR");
    for (path, name, digest) in FILES {
        let from = Path::new(&folder).join(path);
        println!("cargo::rerun-if-changed={}", from.display());
        take(&from, &Path::new(&out).join(name), digest);
    }
}

/// Copies a file unchanged, or fails where its bytes are not those of wasmi 2.0.0.
fn take(from: &Path, to: &Path, digest: &str) {
    let bytes = match fs::read(from) {
        Ok(bytes) => bytes,
        Err(error) => fail(&format!("cannot read {}: {error}", from.display())),
    };
    let found = sha256::hex(&bytes);
    if found != digest {
        fail(&format!(
            "{} is not the file of wasmi 2.0.0: its SHA-256 is {found}, not {digest}",
            from.display()
        ));
    }
    if let Err(error) = fs::write(to, &bytes) {
        fail(&format!("cannot write {}: {error}", to.display()));
    }
}

fn fail(why: &str) -> ! {
    println!("cargo::error={why}");
    exit(1)
}
