//! packet.rs
use bytes::Bytes;
use minidsp_protocol::packet::{self, ParseError};

use super::{
    outside,
    words::{bytes, hex, number, refused, written, LONGEST},
};

pub fn answer(verb: &str, args: &[&str]) -> Option<String> {
    Some(match verb {
        "checksum" => format!("{:02X}", packet::checksum(bytes(args[0]))),
        "frame" => frame(&bytes(args[0]), number(args[1])),
        "plain" => plain(bytes(args[0])),
        "strict" => received(strictly(&bytes(args[0]))),
        "exact" => received(exactly(&bytes(args[0]))),
        _ => return None,
    })
}

fn frame(packet: &[u8], room: usize) -> String {
    if packet.len() > LONGEST {
        return outside(5);
    }
    written(&packet::frame(packet), room)
}

fn plain(frame: Vec<u8>) -> String {
    match packet::unframe(Bytes::copy_from_slice(&frame)) {
        Ok(packet) => format!("1 {} {}", packet.len(), hex(&packet)),
        Err(ParseError::EmptyPacket) => refused(1),
        Err(ParseError::UnexpectedLength { .. }) => refused(2),
    }
}

fn received(packet: Result<&[u8], u8>) -> String {
    match packet {
        Ok(packet) => format!("1 {} {}", packet.len(), hex(packet)),
        Err(number) => refused(number),
    }
}

/// Strict receipt is added: read from documents 01 and 02, since the Rust has none. A report of 64 bytes may have filler.
fn strictly(bytes: &[u8]) -> Result<&[u8], u8> {
    match bytes.first() {
        Some(&length) if bytes.len() == 64 => exactly(&bytes[..64.min(length as usize + 1)]),
        _ => exactly(bytes),
    }
}

/// Strict receipt as document 01 has it, which a save still asks for: nothing follows the checksum.
pub fn exactly(frame: &[u8]) -> Result<&[u8], u8> {
    let length = frame.first().map_or(0, |&byte| byte as usize);
    if length == 0 {
        return Err(1);
    }
    if frame.len() < length + 1 {
        return Err(2);
    }
    if frame.len() > length + 1 {
        return Err(10);
    }
    if frame[..length].iter().fold(0u8, |sum, &b| sum.wrapping_add(b)) != frame[length] {
        return Err(9);
    }
    Ok(&frame[1..length])
}
