//! The recordings that the repository keeps. Beside each `NAME.rec` is `NAME.lines`, the lines that are expected of it.

use std::fs;
use std::path::{Path, PathBuf};

/// All recordings of a folder of the repository: `recordings` has those of real senders, `recordings/malformed` those
/// that end with a malformed record.
pub fn recordings(folder: &str) -> Vec<PathBuf> {
    let top = Path::new(env!("CARGO_MANIFEST_DIR")).join("../..");
    let entries = fs::read_dir(top.join(folder)).unwrap();
    let mut paths: Vec<PathBuf> = entries.map(|entry| entry.unwrap().path()).collect();
    paths.retain(|path| path.extension().is_some_and(|ending| ending == "rec"));
    paths.sort();
    assert!(!paths.is_empty(), "{folder} has no recording");
    paths
}
