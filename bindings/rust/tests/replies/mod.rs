//! The real replies of vectors/replies.

use std::fs;
use std::path::{Path, PathBuf};

/// Every file of a folder and of those in it.
fn files(folder: &Path) -> Vec<PathBuf> {
    let entries = fs::read_dir(folder).expect("a folder").map(|entry| entry.expect("an entry").path());
    entries.flat_map(|path| if path.is_dir() { files(&path) } else { vec![path] }).collect()
}

/// The files of the models; tables.txt stands beside each.
pub fn models() -> Vec<PathBuf> {
    let mut files = files(&Path::new(env!("CARGO_MANIFEST_DIR")).join("../../vectors/replies"));
    files.retain(|path| path.to_string_lossy().ends_with(".model.txt"));
    files
}
