//! The program `hizgrael`: what its arguments ask for is done, and the exit status says how it went.

use std::process::ExitCode;

fn main() -> ExitCode {
    hizgrael_cli::run(std::env::args_os().skip(1))
}
