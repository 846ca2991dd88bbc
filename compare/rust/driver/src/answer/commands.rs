//! Commands of commands.rs, and dialect.rs
use bytes::Bytes;
use minidsp_protocol::{
    commands::{Commands, ProtocolError, WriteInt},
    AddrEncoding, Dialect, FloatEncoding,
};

use super::{
    fields::{addr, addr_words, value_words},
    outside, records,
    words::{bit, bytes, float, half, hex32, refused, LONGEST},
};

pub fn answer(verb: &str, args: &[&str]) -> Option<String> {
    Some(match verb {
        "command" => command(&bytes(args[0])),
        "mute" => records::words(&Commands::mute(addr(&mut args.iter()), bit(args[3])), &[]),
        "write_int" => format!(
            "DISABLED {} ENABLED {} BYPASSED {}",
            WriteInt::DISABLED,
            WriteInt::ENABLED,
            WriteInt::BYPASSED
        ),
        "dialect" => asked(dialect(args[0], args[1]), args[2], args[3]),
        "dialect_default" => default(),
        _ => return None,
    })
}

fn command(packet: &[u8]) -> String {
    if packet.len() > LONGEST {
        return outside(5);
    }
    match Commands::from_bytes(Bytes::copy_from_slice(packet)) {
        Ok(command) => records::words(&command, packet),
        Err(ProtocolError::DecodeError(_)) => refused(3),
        Err(_) => "(another error)".to_string(),
    }
}

fn dialect(len: &str, encoding: &str) -> Dialect {
    Dialect {
        addr_encoding: match len {
            "2" => AddrEncoding::AddrLen2,
            _ => AddrEncoding::AddrLen3,
        },
        float_encoding: match encoding {
            "float" => FloatEncoding::Float32LE,
            _ => FloatEncoding::FixedPoint,
        },
    }
}

fn asked(dialect: Dialect, what: &str, word: &str) -> String {
    let value = match what {
        "addr" => return addr_words(dialect.addr(half(word))),
        "float" => dialect.float(float(word)),
        "int" => dialect.int(half(word)),
        "delay" => dialect.delay(hex32(word)),
        "mute" => dialect.mute(bit(word)),
        "invert" => dialect.invert(bit(word)),
        _ => panic!("a dialect has no {what}"),
    };
    value_words(&value, &[], 0)
}

fn default() -> String {
    let dialect = Dialect::const_default();
    let encoding = match dialect.float_encoding {
        FloatEncoding::Float32LE => "float",
        FloatEncoding::FixedPoint => "fixed",
    };
    format!("{} {encoding}", dialect.addr_encoding as u8)
}
