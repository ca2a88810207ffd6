//! Hands the version of include/hizgrael.h, its one place, to the program.

use std::fs;
use std::path::Path;

const MARK: &str = "#define HIZGRAEL_VERSION \"";

fn main() {
    let header = Path::new(env!("CARGO_MANIFEST_DIR")).join("../include/hizgrael.h");
    println!("cargo:rerun-if-changed={}", header.display());
    let text = fs::read_to_string(&header).expect("include/hizgrael.h can be read");
    let version = text.lines().find_map(|line| line.strip_prefix(MARK)?.split('"').next());
    let version = version.expect("include/hizgrael.h defines HIZGRAEL_VERSION");
    println!("cargo:rustc-env=HIZGRAEL_VERSION={version}");
}
