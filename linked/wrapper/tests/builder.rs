//! Every command by its name, with its bytes written out.

use hizgrael::{Builder, Command, Refusal};

const COMMANDS: [(Command, &[u8]); 14] = [
    (Command::Word { value: 0x0102_0304 }, &[0x01, 1, 2, 3, 4]),
    (
        Command::Block { version: 9, values: [1, 2, 3, 4, 5, 6, 7, 0x0800] },
        &[
            0x02, 0, 0, 0, 9, 0, 0, 0, 1, 0, 0, 0, 2, 0, 0, 0, 3, 0, 0, 0, 4, 0, 0, 0, 5, 0, 0, 0,
            6, 0, 0, 0, 7, 0, 0, 8, 0,
        ],
    ),
    (Command::Task, &[0x03]),
    (Command::Load { register: 1, value: 0xFFFF_FFFE }, &[0x10, 1, 0xFF, 0xFF, 0xFF, 0xFE]),
    (Command::Add { register: 2, other: 3 }, &[0x11, 2, 3]),
    (Command::Read { register: 4, word: 0 }, &[0x12, 4, 0]),
    (Command::Pair { word: 0, old: 5, new: 6 }, &[0x13, 0, 5, 6]),
    (Command::Swap { register: 7 }, &[0x14, 7]),
    (Command::Begin, &[0x20]),
    (Command::Get { register: 1, block: 0, offset: 2 }, &[0x21, 1, 0, 2]),
    (Command::Put { block: 0, offset: 3, register: 4 }, &[0x22, 0, 3, 4]),
    (Command::Commit, &[0x23]),
    (Command::Release { tick: 0x0506, task: 0 }, &[0x04, 5, 6, 0]),
    (Command::End, &[0x05]),
];

#[test]
fn every_command_has_its_bytes() {
    let mut buffer = [0x2E; 128];
    let mut builder = Builder::new(&mut buffer);
    let mut expected = Vec::new();
    for (command, bytes) in COMMANDS {
        expected.extend_from_slice(bytes);
        assert_eq!(builder.compose(command), Ok(expected.len()), "{command:?}");
        assert_eq!(builder.filled(), expected);
    }
    assert_eq!(hizgrael::check(builder.filled()).number, 0);
    assert_eq!(builder.into_filled(), expected);
}

#[test]
fn refusals_leave_the_builder_as_it_was() {
    let mut buffer = [0x2E; 6];
    let mut builder = Builder::new(&mut buffer);
    let refused = |number, place| Err(Refusal { number, place });
    assert_eq!(builder.compose(Command::End), refused(4, 0));
    assert_eq!(builder.compose_raw(0xFF, &[0; 9]), refused(1, 0));
    assert_eq!(builder.filled(), []);
    assert_eq!(builder.compose(Command::Task), Ok(1));
    assert_eq!(builder.compose(Command::Load { register: 256, value: 0 }), refused(6, 1));
    assert_eq!(builder.compose(Command::Load { register: 1, value: 0 }), refused(11, 1));
    assert_eq!(builder.filled(), [3]);
    assert_eq!(builder.compose(Command::Add { register: 0, other: 0 }), Ok(4));
    assert_eq!(builder.compose(Command::Commit), refused(4, 4));
    assert_eq!(builder.compose(Command::Add { register: 0, other: 0 }), refused(11, 4));
    assert_eq!(builder.compose(Command::End), Ok(5));
    assert_eq!(builder.compose(Command::End), refused(3, 5));
    assert_eq!(builder.into_filled(), [3, 0x11, 0, 0, 5]);
    assert_eq!(buffer[5], 0x2E);
}
