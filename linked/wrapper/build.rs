//! Tells cargo where `scripts/prove` has put the proved libraries, and the crate its version.

use std::fs;
use std::path::Path;

fn main() {
    let root = Path::new(env!("CARGO_MANIFEST_DIR")).join("../..");
    let folder = root.join("target/staticlib");
    println!("cargo:rustc-link-search=native={}", folder.display());
    for name in ["engine", "builder"] {
        let library = folder.join(format!("lib{name}.a"));
        println!("cargo:rerun-if-changed={}", library.display());
        assert!(library.exists(), "{} is missing: scripts/prove makes it", library.display());
        println!("cargo:rustc-link-lib=static={name}");
    }
    println!("cargo:rustc-env=HIZGRAEL_VERSION={}", version(&root.join("include/hizgrael.h")));
}

/// The version stands in the header alone.
fn version(header: &Path) -> String {
    println!("cargo:rerun-if-changed={}", header.display());
    let text =
        fs::read_to_string(header).unwrap_or_else(|error| panic!("{}: {error}", header.display()));
    text.lines()
        .find_map(|line| line.strip_prefix("#define HIZGRAEL_VERSION \"")?.strip_suffix('"'))
        .unwrap_or_else(|| {
            panic!("{}: no line '#define HIZGRAEL_VERSION \"..\"'", header.display())
        })
        .to_string()
}
