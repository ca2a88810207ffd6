//! The header's version and lengths are the wrapper's, and no cargo package has a version of its own.

use std::fs;
use std::path::{Path, PathBuf};

fn root() -> PathBuf {
    PathBuf::from(env!("CARGO_MANIFEST_DIR")).join("../..")
}

fn read(path: &Path) -> String {
    fs::read_to_string(path).unwrap_or_else(|error| panic!("{}: {error}", path.display()))
}

/// What the header defines a name as.
fn defined(name: &str) -> String {
    let header = read(&root().join("include/hizgrael.h"));
    let mark = format!("#define {name} ");
    let found: Vec<_> = header.lines().filter_map(|line| line.strip_prefix(&mark)).collect();
    assert_eq!(found.len(), 1, "{name}");
    found[0].to_string()
}

/// Every package of the repository: the folders, at most two deep, that have a Cargo.toml.
fn packages() -> Vec<PathBuf> {
    let folders = |path: &Path| -> Vec<PathBuf> {
        let entries = fs::read_dir(path).unwrap().map(|entry| entry.unwrap().path());
        entries.filter(|path| path.is_dir() && !path.ends_with("target")).collect()
    };
    let tops = folders(&root());
    let inner = tops.iter().flat_map(|top| folders(top));
    inner.chain(tops.clone()).filter(|path| path.join("Cargo.toml").exists()).collect()
}

#[test]
fn the_wrapper_has_the_headers_version() {
    assert_eq!(defined("HIZGRAEL_VERSION"), format!("\"{}\"", hizgrael::VERSION));
}

#[test]
fn the_version_is_three_numbers() {
    let numbers: Vec<_> = hizgrael::VERSION.split('.').map(str::parse::<u32>).collect();
    assert_eq!(numbers.len(), 3);
    assert!(numbers.iter().all(Result::is_ok), "{}", hizgrael::VERSION);
}

#[test]
fn the_wrapper_has_the_headers_lengths() {
    let state: hizgrael::State = [0; 64];
    let operands: hizgrael::Operands = [0; 9];
    for (name, length) in [
        ("HIZGRAEL_LONGEST_REPORT", hizgrael::LONGEST_REPORT),
        ("HIZGRAEL_LONGEST_SHEET", hizgrael::LONGEST_SHEET),
        ("HIZGRAEL_DECIDING_LENGTH", hizgrael::DECIDING_LENGTH),
        ("HIZGRAEL_STATE_LENGTH", state.len()),
        ("HIZGRAEL_OPERANDS", operands.len()),
    ] {
        assert_eq!(defined(name), length.to_string(), "{name}");
    }
}

#[test]
fn no_package_has_a_version_of_its_own() {
    let packages = packages();
    assert!(packages.len() >= 7, "{packages:?}");
    for package in packages {
        let manifest = read(&package.join("Cargo.toml"));
        let version =
            manifest.lines().find(|line| line.starts_with("version = ")).unwrap_or_default();
        assert!(version.starts_with("version = \"0.0.0\""), "{}: {version}", package.display());
    }
}

#[test]
fn the_changelog_begins_with_the_version() {
    let changelog = read(&root().join("CHANGELOG.md"));
    let first = changelog.lines().find(|line| line.starts_with("## ")).unwrap_or_default();
    assert!(first.starts_with(&format!("## {} (", hizgrael::VERSION)), "{first}");
}
