//! Links the archive, libcattlecleat.a, from the folder that CATTLECLEAT_ARCHIVE names; by default the repository's target/lib.
//! Where it cannot, it says why and goes on: `cargo check` and `cargo doc` need no archive, and whatever does stops at the library that is not found.
use std::env;
use std::path::{Path, PathBuf};

fn main() {
    println!("cargo::rerun-if-env-changed=CATTLECLEAT_ARCHIVE");
    let folder = archive_folder();
    let archive = folder.join("libcattlecleat.a");
    match problem_with(&archive) {
        None => watch(&folder, &archive),
        Some(problem) => {
            println!("cargo::warning=nothing can be linked: {problem}");
            look_again();
        }
    }
    println!("cargo::rustc-link-search=native={}", folder.display());
    println!("cargo::rustc-link-lib=static=cattlecleat");
}

/// An archive that takes this one's place may be older than this run, and then its folder is newer.
fn watch(folder: &Path, archive: &Path) {
    println!("cargo::rerun-if-changed={}", archive.display());
    println!("cargo::rerun-if-changed={}", folder.display());
}

/// A file that is not there counts as changed: this is run at each build, until there is an archive, whatever its date.
fn look_again() {
    let out = PathBuf::from(env::var_os("OUT_DIR").expect("cargo names the folder for what is made"));
    println!("cargo::rerun-if-changed={}", out.join("never-made").display());
}

fn archive_folder() -> PathBuf {
    let crate_folder = PathBuf::from(env::var_os("CARGO_MANIFEST_DIR").expect("cargo names the crate's folder"));
    match env::var_os("CATTLECLEAT_ARCHIVE") {
        Some(named) => PathBuf::from(named),
        None => crate_folder.join("../../target/lib"),
    }
}

fn problem_with(archive: &Path) -> Option<String> {
    let target = env::var("TARGET").expect("cargo names the target");
    if !target.starts_with("x86_64-") || target.contains("windows") {
        return Some(format!(
            "the archive is for x86-64 with the System V calling convention, and the target is {target}"
        ));
    }
    let missing = !archive.is_file();
    missing.then(|| {
        format!(
            "there is no {}; `./cattlecleat archive` makes it, and CATTLECLEAT_ARCHIVE names its folder",
            archive.display()
        )
    })
}
