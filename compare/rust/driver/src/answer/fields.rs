//! Addr and Value of commands.rs
use bytes::{Bytes, BytesMut};
use minidsp_protocol::{
    commands::{Addr, Value},
    FixedPoint,
};

use super::words::{
    bit, byte, bytes, float, half, hex32, number, place, refused, unwritten, word32, written,
};

pub fn answer(verb: &str, args: &[&str]) -> Option<String> {
    Some(match verb {
        "addr" => read_addr(&bytes(args[1]), byte(args[0])),
        "value" => read_value(&bytes(args[0]), number(args[1]), number(args[2])),
        "encode_addr" => encode_addr(number(args[0]), addr(&mut args[1..].iter())),
        "encode_value" => encode_value(&bytes(args[0]), number(args[1]), &args[2..]),
        _ => return None,
    })
}

pub type Words<'a> = std::slice::Iter<'a, &'a str>;

/// Bytes that a record's places lie in. A place outside them is one more thing that the port has and
/// the Rust has not: the Rust is given what is there of it.
pub struct Lent<'a> {
    pub bytes: &'a [u8],
    pub outside: bool,
}

impl Lent<'_> {
    pub fn part(&mut self, start: usize, len: usize) -> Bytes {
        let all = self.bytes.len();
        self.outside |= all < start || all - start < len;
        Bytes::copy_from_slice(&self.bytes[start.min(all)..(start + len).min(all)])
    }
}

pub fn addr(words: &mut Words) -> Addr {
    let len = byte(words.next().unwrap());
    let extra_bit = bit(words.next().unwrap());
    Addr::new_with_extra_bit(hex32(words.next().unwrap()), len, extra_bit)
}

pub fn addr_words(addr: Addr) -> String {
    format!("{} {} {}", addr.len, addr.extra_bit as u8, word32(addr.val))
}

pub fn value(words: &mut Words, lent: &mut Lent) -> Value {
    let kind = *words.next().unwrap();
    let word = words.next().unwrap();
    match kind {
        "Float" => Value::Float(float(word)),
        "FixedPoint" => Value::FixedPoint(FixedPoint::from_u32(hex32(word))),
        "Int" => Value::Int(half(word)),
        "Int32" => Value::Int32(hex32(word)),
        "Unknown" => Value::Unknown(lent.part(number(word), number(words.next().unwrap()))),
        _ => panic!("no such kind of value: {kind}"),
    }
}

/// A value that was read at `start`.
pub fn value_words(value: &Value, packet: &[u8], start: usize) -> String {
    match value {
        Value::Float(x) => format!("Float {}", word32(x.to_bits())),
        Value::FixedPoint(x) => format!("FixedPoint {}", word32(x.to_u32())),
        Value::Int(n) => format!("Int {n}"),
        Value::Int32(n) => format!("Int32 {}", word32(*n)),
        Value::Unknown(part) => format!("Unknown {}", place(packet, start, part)),
    }
}

fn read_addr(buffer: &[u8], len: u8) -> String {
    match Addr::read(&mut Bytes::copy_from_slice(buffer), len) {
        Ok(addr) => addr_words(addr),
        Err(_) => refused(3),
    }
}

/// A place outside the bytes is refused with 7: added.
fn read_value(packet: &[u8], start: usize, len: usize) -> String {
    let mut lent = Lent { bytes: packet, outside: false };
    let part = lent.part(start, len);
    if lent.outside {
        return refused(7);
    }
    match Value::from_bytes(part) {
        Ok(value) => value_words(&value, packet, start),
        Err(_) => refused(3),
    }
}

fn encode_addr(room: usize, addr: Addr) -> String {
    let mut out = BytesMut::with_capacity(4);
    addr.write(&mut out);
    written(&out, room)
}

fn encode_value(payload: &[u8], room: usize, words: &[&str]) -> String {
    let mut lent = Lent { bytes: payload, outside: false };
    let result = value(&mut words.iter(), &mut lent).into_bytes();
    if lent.outside {
        return unwritten(7, room);
    }
    written(&result, room)
}
