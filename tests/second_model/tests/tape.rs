//! The reader and the writer of the command tape.

use common::random::Random;
use second_model::generate::fields_named;
use second_model::ring::{BatchNumber, ChannelNumber, Fields, NodeNumber, Refusal, Unit};
use second_model::tape::{read, width, write, Command, Read};

const COMMAND_BYTES: [u8; 9] = [0x10, 0x11, 0x12, 0x20, 0x21, 0x22, 0x23, 0x24, 0x25];

/// "The writer takes every operand value": any at all.
fn any_command(random: &mut Random) -> Command {
    let (one, two) = (random.byte(), random.byte());
    match random.below(9) {
        0 => Command::AddNode { slots: one },
        1 => Command::AddChannel { sender: NodeNumber(one), receiver: NodeNumber(two) },
        2 => Command::Start,
        3 => Command::Receive(ChannelNumber(one)),
        4 | 5 => {
            let fields = Fields {
                unit: random.pick(&Unit::ALL),
                number: BatchNumber(random.draw() as u32),
                vessel: two,
                temperature: random.draw() as i16,
                length: random.byte(),
                name: std::array::from_fn(|_| random.byte()),
            };
            Command::Send(ChannelNumber(one), fields)
        }
        6 => Command::Enter(NodeNumber(one)),
        7 => Command::Move(NodeNumber(one)),
        _ => Command::Withdraw(ChannelNumber(one)),
    }
}

#[test]
fn written_then_read() {
    let random = &mut Random::new(1);
    for _ in 0..20_000 {
        let command = any_command(random);
        let place = random.below(30);
        let before: Vec<u8> = (0..100).map(|_| random.byte()).collect();
        let mut bytes = before.clone();
        let next = write(&command, &mut bytes, place).unwrap();
        assert_eq!(next, place + command.width());
        assert_eq!(read(&bytes, place), Ok(Read::Command(command, next)));
        // "writes only the part of the lent buffer that begins at the given
        // place, as long as the command"
        assert_eq!(bytes[..place], before[..place]);
        assert_eq!(bytes[next..], before[next..]);
    }
}

#[test]
fn read_then_written() {
    let random = &mut Random::new(2);
    for _ in 0..20_000 {
        let place = random.below(30);
        let mut bytes: Vec<u8> = (0..100).map(|_| random.byte()).collect();
        bytes[place] = random.pick(&COMMAND_BYTES);
        let Ok(Read::Command(command, next)) = read(&bytes, place) else {
            panic!("a whole command is read");
        };
        let mut written = bytes.clone();
        written[place..next].fill(0);
        assert_eq!(write(&command, &mut written, place), Ok(next));
        assert_eq!(written, bytes);
    }
}

#[test]
fn low_byte_first() {
    for (unit, byte) in [(Unit::Tenths, 0x21), (Unit::Hundredths, 0x25)] {
        let number = BatchNumber(0x0403_0201);
        let fields = Fields { unit, number, vessel: 5, temperature: -400, ..fields_named(b"A1") };
        let mut bytes = [0xEE; 44];
        assert_eq!(write(&Command::Send(ChannelNumber(9), fields), &mut bytes, 1), Ok(43));
        assert_eq!(bytes[..13], [0xEE, byte, 9, 1, 2, 3, 4, 5, 0x70, 0xFE, 2, b'A', b'1']);
        assert!(bytes[13..43].iter().all(|&byte| byte == 0));
        assert_eq!(bytes[43], 0xEE);
    }
}

#[test]
fn refusals_of_the_reader() {
    assert_eq!(read(&[], 0), Ok(Read::End));
    assert_eq!(read(&[], 1), Err(Refusal::PlaceBeyond));
    assert_eq!(read(&[0x12], 1), Ok(Read::End));
    assert_eq!(read(&[0x12], 2), Err(Refusal::PlaceBeyond));
    assert_eq!(read(&[0x12], usize::MAX), Err(Refusal::PlaceBeyond));
    for byte in 0..=255 {
        let bytes = [byte; 42];
        match width(byte) {
            None => {
                assert!(!COMMAND_BYTES.contains(&byte));
                assert_eq!(read(&bytes, 0), Err(Refusal::UnknownCommand));
                assert_eq!(read(&bytes, 41), Err(Refusal::UnknownCommand));
            }
            Some(width) => {
                assert!(COMMAND_BYTES.contains(&byte));
                for length in 1..width {
                    assert_eq!(read(&bytes[..length], 0), Err(Refusal::CommandCut));
                }
                assert!(matches!(read(&bytes[..width], 0), Ok(Read::Command(_, next)) if next == width));
            }
        }
    }
}

#[test]
fn refusals_of_the_writer() {
    let random = &mut Random::new(3);
    for _ in 0..2_000 {
        let command = any_command(random);
        let length = random.below(60);
        let before: Vec<u8> = (0..length).map(|_| random.byte()).collect();
        for place in (0..length + 3).chain([usize::MAX]) {
            let mut bytes = before.clone();
            let answer = write(&command, &mut bytes, place);
            if place > length {
                assert_eq!(answer, Err(Refusal::PlaceBeyond));
            } else if length - place < command.width() {
                assert_eq!(answer, Err(Refusal::NoRoomToWrite));
            } else {
                assert_eq!(answer, Ok(place + command.width()));
                continue;
            }
            assert_eq!(bytes, before);
        }
    }
}
