//! Packets of commands, and what commands are made of.
use super::Random;
use crate::answer::words::hex;

/// The command bytes that are read as a kind of their own.
pub const KINDS: &[u8] = &[
    0x02, 0x04, 0x05, 0x06, 0x07, 0x12, 0x13, 0x14, 0x17, 0x19, 0x25, 0x29, 0x30, 0x31, 0x34, 0x39,
    0x3A, 0x3B, 0x3F, 0x42,
];

/// How many bytes follow the command byte.
pub fn lengths() -> impl Iterator<Item = usize> {
    (0..=40).chain(248..=257)
}

pub fn requests(random: &mut Random, line: &mut dyn FnMut(String)) {
    line("command -".to_string());
    for kind in 0..=255u8 {
        for n in lengths() {
            command(kind, random.bytes(n), line);
            command(kind, random.sparse(n), line);
        }
    }
    for &kind in KINDS {
        for n in lengths() {
            for _ in 0..12 {
                command(kind, random.bytes(n), line);
                command(kind, random.sparse(n), line);
            }
        }
        for byte in 0..=255u8 {
            command(kind, vec![byte], line);
            command(kind, vec![byte; 4], line);
        }
    }
    for _ in 0..4_000 {
        damaged("command", KINDS, random, line);
    }
    addresses(random, line);
    values(random, line);
    dialects(random, line);
    line("write_int".to_string());
}

fn command(kind: u8, mut rest: Vec<u8>, line: &mut dyn FnMut(String)) {
    rest.insert(0, kind);
    line(format!("command {}", hex(&rest)));
}

/// A packet, and copies of it that are cut, extended, or changed in one bit.
pub fn damaged(verb: &str, kinds: &[u8], random: &mut Random, line: &mut dyn FnMut(String)) {
    let n = random.below(45);
    let mut packet = random.bytes(n);
    packet.insert(0, random.pick(kinds));
    line(format!("{verb} {}", hex(&packet)));
    line(format!("{verb} {}", hex(&packet[..random.below(packet.len())])));
    let at = random.below(packet.len());
    packet[at] ^= 1 << random.below(8);
    line(format!("{verb} {}", hex(&packet)));
    packet.push(random.next() as u8);
    line(format!("{verb} {}", hex(&packet)));
}

fn addresses(random: &mut Random, line: &mut dyn FnMut(String)) {
    for len in 0..=255 {
        for n in 0..5 {
            line(format!("addr {len} {}", hex(&random.bytes(n))));
        }
    }
    for len in [2, 3] {
        for top in 0..=255u8 {
            let mut bytes = random.bytes(3);
            bytes[0] = top;
            line(format!("addr {len} {}", hex(&bytes)));
        }
        for _ in 0..1_000 {
            line(format!("addr {len} {}", hex(&random.bytes(len))));
        }
    }
}

fn values(random: &mut Random, line: &mut dyn FnMut(String)) {
    for n in 0..9 {
        for start in 0..n + 3 {
            for len in 0..n + 3 {
                line(format!("value {} {start} {len}", hex(&random.bytes(n))));
                line(format!("value {} {start} {len}", hex(&random.sparse(n))));
            }
        }
    }
    for _ in 0..4_000 {
        line(format!("value {} 0 4", hex(&random.sparse(4))));
    }
}

fn dialects(random: &mut Random, line: &mut dyn FnMut(String)) {
    line("dialect_default".to_string());
    for dialect in ["2 float", "2 fixed", "3 float", "3 fixed"] {
        for bit in [0, 1] {
            line(format!("dialect {dialect} mute {bit}"));
            line(format!("dialect {dialect} invert {bit}"));
        }
        for number in [0, 1, 2, 255, 256, 4095, 4096, 32767, 32768, 65535] {
            line(format!("dialect {dialect} addr {number}"));
            line(format!("dialect {dialect} int {number}"));
        }
        for word in [0, 1, 0xFFFF, 0x1_0000, 0x7FC0_0001, 0x7F80_0000, u32::MAX] {
            line(format!("dialect {dialect} delay {word:08X}"));
            line(format!("dialect {dialect} float {word:08X}"));
        }
        for _ in 0..500 {
            line(format!("dialect {dialect} addr {}", random.next() as u16));
            line(format!("dialect {dialect} int {}", random.next() as u16));
            line(format!("dialect {dialect} delay {:08X}", random.next() as u32));
            line(format!("dialect {dialect} float {:08X}", random.next() as u32));
        }
    }
}
