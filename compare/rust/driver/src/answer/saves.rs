//! Saves, which document 01 adds: fields as it has them, with frames that the Rust writes, reads and
//! executes.
use bytes::Bytes;
use minidsp::utils::mock_device::MockDevice;
use minidsp_protocol::{
    commands::{Addr, BytesWrap, Commands, Value},
    packet,
};

use super::{device::caught, packet::exactly};

/// Tag, length and content.
fn field(tag: u8, content: &[u8]) -> Vec<u8> {
    let length = (content.len() as u16).to_be_bytes();
    [&[tag], &length[..], content].concat()
}

/// A command for each block of the EEPROM and each word of the settings.
fn commands(mock: &MockDevice) -> Vec<Commands> {
    let blocks = mock.eeprom.chunks(32).enumerate().map(|(k, block)| Commands::WriteMemory {
        addr: 32 * k as u16,
        data: BytesWrap(Bytes::copy_from_slice(block)),
    });
    let words = mock.settings.iter().enumerate().map(|(k, word)| Commands::Write {
        addr: Addr::new(k as u16, 3),
        value: Value::Unknown(Bytes::copy_from_slice(&word.to_le_bytes())),
    });
    blocks.chain(words).collect()
}

/// The save of a mock's memories.
pub fn save(mock: &MockDevice) -> Vec<u8> {
    let size = |n: usize| (n as u32).to_be_bytes();
    let commands = commands(mock);
    let mut save = field(0x01, &[size(mock.eeprom.len()), size(mock.settings.len())].concat());
    for command in &commands {
        save.extend(field(0x10, &packet::frame(command.to_bytes())));
    }
    save.extend(field(0x7F, &size(commands.len())));
    save
}

fn number(four: &[u8]) -> usize {
    four.iter().fold(0, |n, &byte| 256 * n + byte as usize)
}

/// The first field's tag and content, and what is behind it.
fn take(stream: &[u8]) -> Result<(u8, &[u8], &[u8]), u8> {
    let length = number(stream.get(1..3).ok_or(13)?);
    let content = stream.get(3..3 + length).ok_or(13)?;
    Ok((stream[0], content, &stream[3 + length..]))
}

/// The sizes that a stream is for, and its other fields.
pub fn sizes(stream: &[u8]) -> Result<((usize, usize), &[u8]), u8> {
    match take(stream)? {
        (0x01, sizes, rest) if sizes.len() == 8 => Ok(((number(&sizes[..4]), number(&sizes[4..])), rest)),
        _ => Err(13),
    }
}

/// The mock executes each frame, up to the first fault.
pub fn run(mock: &mut MockDevice, fields: &[u8]) -> Result<(), u8> {
    let mut rest = fields;
    let mut frames = 0;
    loop {
        let (tag, content, behind) = take(rest)?;
        match tag {
            0x10 => execute(mock, exactly(content)?)?,
            0x7F if content.len() == 4 && number(content) == frames && behind.is_empty() => return Ok(()),
            _ => return Err(13),
        }
        frames += 1;
        rest = behind;
    }
}

/// Only what writes one of the memories; the mock panics at a place outside.
fn execute(mock: &mut MockDevice, packet: &[u8]) -> Result<(), u8> {
    if !matches!(packet.first(), None | Some(0x04 | 0x13)) {
        return Err(13);
    }
    let command = Commands::from_bytes(Bytes::copy_from_slice(packet)).map_err(|_| 3)?;
    if matches!(command, Commands::Write { .. }) && packet.len() != 8 {
        return Err(13);
    }
    caught(|| mock.execute(&command)).map(|_| ()).ok_or(7)
}
