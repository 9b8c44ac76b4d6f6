//! What both kinds of tests share.

use std::fs;
use std::path::{Path, PathBuf};

/// An empty folder of a test, by its name: below that which the variable PAGED_ROOM names, or the
/// system's own.
pub fn room(name: &str) -> PathBuf {
    let base = std::env::var_os("PAGED_ROOM").map_or_else(std::env::temp_dir, PathBuf::from);
    let path = base.join(format!("paged-{name}-{}", std::process::id()));
    fs::create_dir_all(&path).expect("a folder of a test is made");
    path
}

pub fn remove(path: &Path) {
    fs::remove_dir_all(path).expect("a folder of a test is removed");
}

/// Plays tests one after another, a line for each; `only` is a part of the names of those to play.
pub fn play(tests: &[(&str, fn())], only: Option<&str>) {
    for (name, test) in tests {
        if only.map_or(true, |part| name.contains(part)) {
            test();
            println!("ok: {name}");
        }
    }
}
