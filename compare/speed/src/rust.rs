//! The Rust of docs/src, which makes each packet and each frame in a buffer of its own; a save, which it has not, out of its frames.
use crate::side::{Out, Side};
use bytes::Bytes;
use minidsp_protocol::{
    commands::{Addr, BytesWrap, Commands, Value},
    packet,
};

pub const RUST: Side = Side { name: "docs/src", frame, command, save };

fn frame(packet: &[u8], out: &mut Out) -> u8 {
    out.made = Some(packet::frame(packet));
    0
}

fn command(id: u8, payload: &[u8], out: &mut Out) -> u8 {
    let payload = BytesWrap(Bytes::copy_from_slice(payload));
    out.made = Some(packet::frame(Commands::Unknown { cmd_id: id, payload }.to_bytes()));
    0
}

fn put(tag: u8, content: &[u8], save: &mut Vec<u8>) {
    save.push(tag);
    save.extend_from_slice(&(content.len() as u16).to_be_bytes());
    save.extend_from_slice(content);
}

fn save(eeprom: &[u8], settings: &[u32], out: &mut Out) -> u8 {
    let save = &mut out.lent;
    let size = |n: usize| (n as u32).to_be_bytes();
    save.clear();
    put(0x01, &[size(eeprom.len()), size(settings.len())].concat(), save);
    let blocks = eeprom.chunks(32);
    let frames = blocks.len() + settings.len();
    for (k, block) in blocks.enumerate() {
        let data = BytesWrap(Bytes::copy_from_slice(block));
        put(0x10, &packet::frame(Commands::WriteMemory { addr: 32 * k as u16, data }.to_bytes()), save);
    }
    for (k, word) in settings.iter().enumerate() {
        let value = Value::Unknown(Bytes::copy_from_slice(&word.to_le_bytes()));
        put(0x10, &packet::frame(Commands::Write { addr: Addr::new(k as u16, 3), value }.to_bytes()), save);
    }
    put(0x7F, &size(frames), save);
    0
}
