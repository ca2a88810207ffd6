//! The stored examples: NAME.txt is written by hand, NAME.sheet and some NAME.svg are made from it by
//! scripts/make-examples.

use std::fs;
use std::io;
use std::path::{Path, PathBuf};

/// The folder of the repository in which they lie.
pub fn folder() -> PathBuf {
    Path::new(env!("CARGO_MANIFEST_DIR")).join("../examples")
}

/// The names of all examples; worked figures begin with `worked/`.
pub fn names() -> io::Result<Vec<String>> {
    let mut names = Vec::new();
    for part in ["", "worked/"] {
        for entry in fs::read_dir(folder().join(part))? {
            let name = entry?.file_name().to_string_lossy().into_owned();
            names.extend(name.strip_suffix(".txt").map(|stem| format!("{part}{stem}")));
        }
    }
    names.sort();
    Ok(names)
}
