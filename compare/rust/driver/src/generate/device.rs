//! Devices, each with a run of frames and calls, and both memories compared at its end.
use super::{
    commands,
    packet::{framed, padded},
    records, Random,
};
use crate::answer::words::hex;

/// Sizes at and around each address that a command names, and the most that a device has.
const EEPROMS: &[usize] = &[
    0, 1, 5, 300, 16_380, 16_382, 0xFFA4, 0xFFC8, 0xFFCC, 0xFFD8, 0xFFD9, 0xFFDA, 0xFFDB, 0xFFDC,
    65_532, 65_534, 65_535, 65_536,
];

const SETTINGS: &[usize] = &[0, 1, 2, 5, 62, 63, 64, 300, 65_535, 65_536];

const KINDS: &[&str] = &["Generic", "M2x4Hd", "Flex", "DDRC88BM"];

/// The two sizes that are lent.
pub struct Sizes {
    pub eeprom: usize,
    pub settings: usize,
}

pub type Line<'a> = &'a mut dyn FnMut(String);

pub fn requests(random: &mut Random, line: Line) {
    for i in 0..420 {
        let full = Sizes { eeprom: 65_536, settings: 65_536 };
        let sizes = match i % 3 {
            0 => full,
            _ => Sizes { eeprom: random.pick(EEPROMS), settings: random.pick(SETTINGS) },
        };
        if i % 20 == 10 {
            too_large(random, line);
        }
        line(format!("lend {} {}", sizes.eeprom, sizes.settings));
        make(i % 3 == 0, &sizes, random, line);
        line("zero".to_string());
        for _ in 0..20 + random.below(20) {
            run(&sizes, random, line);
        }
        looked_at(line);
    }
    for _ in 0..20 {
        in_reports(random, line);
    }
}

fn looked_at(line: Line) {
    for address in [0, 0xFFA0, 0xFFC0, 0xFFE0, 0xFFF0] {
        line(format!("peek {address} 32"));
        line(format!("peek_words {} 8", address / 256));
    }
    line("tally".to_string());
    line("digest".to_string());
}

/// Frames in 64 bytes, good and damaged, as the wire has them.
fn in_reports(random: &mut Random, line: Line) {
    let sizes = Sizes { eeprom: random.pick(EEPROMS), settings: random.pick(SETTINGS) };
    line(format!("lend {} {}", sizes.eeprom, sizes.settings));
    make(false, &sizes, random, line);
    line("zero".to_string());
    for _ in 0..30 {
        let mut frame = framed(&packet(&sizes, random));
        if random.below(4) == 0 {
            let at = random.below(frame.len());
            frame[at] ^= 1 << random.below(8);
        }
        send(&padded(&frame, random.pick(&[0, 0, 0xFF])), random, line);
    }
    looked_at(line);
}

/// Every call is refused where a memory is too large.
fn too_large(random: &mut Random, line: Line) {
    let sizes = Sizes { eeprom: 65_537, settings: 65_537 };
    for lent in ["65537 65536", "65536 65537", "65537 0", "0 65537"] {
        line(format!("lend {lent}"));
        make(false, &sizes, random, line);
        make(true, &sizes, random, line);
        for _ in 0..4 {
            run(&sizes, random, line);
        }
        line("tally".to_string());
        line("digest".to_string());
    }
}

pub fn make(new: bool, sizes: &Sizes, random: &mut Random, line: Line) {
    let (hw, dsp) = (random.next() as u8, random.next() as u8);
    let device = format!("{hw} {dsp} {} {}", random.pick(KINDS), records::half(random));
    if !new && (sizes.eeprom != 65_536 || random.below(2) == 0) {
        line(format!("bare {device}"));
        if random.below(4) > 0 {
            return;
        }
    }
    let count = random.below(12);
    let meters: Vec<u8> = (0..count)
        .flat_map(|_| (near(sizes.settings, random) as u16).to_be_bytes())
        .collect();
    line(format!("new {device} {}", hex(&meters)));
}

/// A number around a size, around 65,536, or any.
fn near(size: usize, random: &mut Random) -> usize {
    let any = random.below(65_536);
    let inside = random.below(size.max(1));
    let around = (size + 3).saturating_sub(random.below(8));
    let top = 65_535 - random.below(70);
    random.pick(&[any, inside, inside, inside, inside, around, around, top])
}

/// A few frames, good, damaged and random, and at times another call.
pub fn run(sizes: &Sizes, random: &mut Random, line: Line) {
    for _ in 0..3 {
        let frame = framed(&packet(sizes, random));
        send(&frame, random, line);
    }
    let mut frame = framed(&packet(sizes, random));
    match random.below(4) {
        0 => frame.truncate(random.below(frame.len())),
        1 => frame.push(random.next() as u8),
        2 => frame[0] ^= 1 << random.below(8),
        _ => {
            let at = random.below(frame.len());
            frame[at] ^= 1 << random.below(8);
        }
    }
    send(&frame, random, line);
    if random.below(2) == 0 {
        let n = random.below(40);
        send(&random.bytes(n), random, line);
    }
    execute(random, line);
    write(sizes, random, line);
}

fn send(frame: &[u8], random: &mut Random, line: Line) {
    let small = random.below(12);
    let room = random.pick(&[300, 300, 300, 300, 300, 256, 64, small, 0]);
    line(format!("send {} {room}", hex(frame)));
}

/// A packet of a command, most of them of those that name a place.
fn packet(sizes: &Sizes, random: &mut Random) -> Vec<u8> {
    let byte = random.next() as u8;
    let low = random.below(64) as u8;
    let kind = random.pick(&[0x04, 0x04, 0x05, 0x05, 0x13, 0x13, 0x14, 0x14, 0x25, 0x17, 0x34, 0x42, 0]);
    let size = if matches!(kind, 0x13 | 0x14) { sizes.settings } else { sizes.eeprom };
    let address = near(size, random);
    let [_, top, high, end] = (address as u32).to_be_bytes();
    let length = random.pick(&[0, 1, 2, low, low, low, 61, 62, 251, 252, byte]);
    let mut packet = vec![kind, high, end];
    match kind {
        0x04 => packet.extend(random.bytes(length.min(251) as usize)),
        0x05 | 0x14 => packet.push(length),
        0x13 => {
            packet.insert(1, 0x80 | top);
            let n = random.pick(&[4, 4, 4, 4, 4, 4, 3, 5, 0, 40]);
            let value = if random.below(3) == 0 { random.sparse(n) } else { random.bytes(n) };
            packet.extend(value);
        }
        0x25 | 0x17 | 0x34 | 0x42 => packet = vec![kind, byte, low % 2],
        _ => {
            let n = random.below(30);
            packet = random.bytes(n);
            packet.insert(0, random.pick(commands::KINDS));
        }
    }
    packet
}

/// A record of any kind.
fn execute(random: &mut Random, line: Line) {
    let n = random.pick(&[0, 1, 4, 5, 20, 250, 255, 300]);
    let kind = random.pick(records::KINDS);
    let record = kind(random, n);
    let payload = hex(&random.bytes(n));
    if random.below(2) == 0 {
        line(format!("execute {payload} {record}"));
    } else {
        let room = random.pick(&[0, 1, 3, 4, 5, 7, 8, 64, 254, 300]);
        line(format!("execute_into {payload} {room} {record}"));
    }
}

fn write(sizes: &Sizes, random: &mut Random, line: Line) {
    let address = near(sizes.eeprom, random).min(65_535);
    let word = random.next() as u32;
    let serial = random.pick(&[0, 899_999, 900_000, 900_001, word, u32::MAX]);
    match random.below(10) {
        0 => line(format!("write_u8 {address} {}", word as u8)),
        1 => line(format!("write_u16 {address} {}", word as u16)),
        2 => line(format!("write_u32 {address} {word:08X}")),
        3 => line(format!("set_serial {serial:08X}")),
        4 => line(format!("set_timestamp {word:08X}")),
        _ => {}
    }
}
