//! A file that may not be read, with every subcommand. It is alone in its file: while a program is copied, no other test may start one,
//! which would hold the copy open.
#![cfg(feature = "proved")]

mod common;

use std::fs::{self, File};
use std::os::unix::fs::PermissionsExt;
use std::os::unix::process::CommandExt;
use std::process::Command;

use common::{own_folder, said, status, PROGRAM, SUBCOMMANDS};

/// Who runs the tests may be allowed to read everything; the program is then run as nobody.
#[test]
fn a_file_that_may_not_be_read() {
    const NOBODY: u32 = 65534;
    let folder = own_folder("unreadable");
    let secret = folder.join("secret.txt");
    fs::write(&secret, "TASK\n  ADD r0 r0\nEND\n").unwrap();
    fs::set_permissions(&secret, fs::Permissions::from_mode(0o000)).unwrap();
    fs::set_permissions(&folder, fs::Permissions::from_mode(0o755)).unwrap();
    let program = folder.join("hizgrael");
    fs::copy(PROGRAM, &program).unwrap();
    for subcommand in SUBCOMMANDS {
        let mut command = Command::new(&program);
        command.args([subcommand, "secret.txt"]).current_dir(&folder);
        if File::open(&secret).is_ok() {
            command.uid(NOBODY).gid(NOBODY);
        }
        let output = command.output().unwrap();
        assert_eq!((status(&output), output.stdout.len()), (2, 0));
        assert_eq!(said(&output), "secret.txt: permission denied\n");
    }
    fs::remove_dir_all(&folder).unwrap();
}
