//! The folder of the vectors: the files in data, their names in args, and in stdout what the program has to print.

use super::text::{File, said};
use std::path::Path;
use std::{fs, io};

/// What stands in the folder, and nothing else.
const PARTS: [&str; 3] = ["args", "data", "stdout"];

/// Writes beside the folder and puts it in its place at once; a folder of other things is left alone.
pub fn write(name: &str, files: &[File]) -> Result<(), String> {
    let said = |error: io::Error| format!("{name}: {error}");
    let (folder, beside) = (Path::new(name), format!("{}.new", name.trim_end_matches('/')));
    if let Some(other) = other_thing(folder).map_err(said)? {
        return Err(format!("{name} has {other}, which is none of the vectors"));
    }
    fill(Path::new(&beside), files).map_err(said)?;
    if folder.exists() {
        fs::remove_dir_all(folder).map_err(said)?;
    }
    fs::rename(&beside, folder).map_err(said)
}

/// The first thing that is none of the three parts.
fn other_thing(folder: &Path) -> io::Result<Option<String>> {
    if !folder.exists() {
        return Ok(None);
    }
    for entry in fs::read_dir(folder)? {
        let name = entry?.file_name().to_string_lossy().into_owned();
        if !PARTS.contains(&name.as_str()) {
            return Ok(Some(name));
        }
    }
    Ok(None)
}

fn fill(folder: &Path, files: &[File]) -> io::Result<()> {
    if folder.exists() {
        fs::remove_dir_all(folder)?;
    }
    let data = folder.join("data");
    fs::create_dir_all(&data)?;
    for file in files {
        fs::write(data.join(&file.name), &file.text)?;
    }
    let names: String = files.iter().map(|file| file.name.clone() + "\n").collect();
    fs::write(folder.join("args"), names)?;
    fs::write(folder.join("stdout"), said(files))
}
