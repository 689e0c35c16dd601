//! A file beside this program, below target/, for as long as it is needed.

use std::path::{Path, PathBuf};
use std::{env, fs, process};

pub struct Scratch {
    path: PathBuf,
}

impl Scratch {
    /// A name of this run's own; nothing is written yet.
    pub fn new(name: &str) -> Result<Self, String> {
        let program = env::current_exe().map_err(|error| format!("no folder for {name}: {error}"))?;
        let path = program.with_file_name(format!("{name}.{}", process::id()));
        Ok(Self { path })
    }

    pub fn path(&self) -> &Path {
        &self.path
    }
}

impl Drop for Scratch {
    /// It may never have been written.
    fn drop(&mut self) {
        let _ = fs::remove_file(&self.path);
    }
}
