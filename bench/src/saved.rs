//! Keeps what was found to differ.

use std::fs;
use std::io;
use std::path::{Path, PathBuf};

/// Writes the bytes into a file of this name below `target/`, and says where it is.
pub fn save(name: &str, bytes: &[u8]) -> String {
    match write(name, bytes) {
        Ok(path) => format!("saved in {}", path.display()),
        Err(error) => format!("could not be saved: {error}"),
    }
}

fn write(name: &str, bytes: &[u8]) -> io::Result<PathBuf> {
    let folder = Path::new(env!("CARGO_MANIFEST_DIR")).join("target");
    fs::create_dir_all(&folder)?;
    let path = folder.join(name);
    fs::write(&path, bytes)?;
    Ok(path)
}
