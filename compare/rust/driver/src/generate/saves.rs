//! Saves of devices after a run of calls, looked at and put back: on the same device after other calls,
//! on another of the same sizes, and on one of other sizes; then streams of writes in any order.
use super::{
    device::{make, run, Line, Sizes},
    packet::{framed, padded},
    Random,
};
use crate::answer::words::hex;

/// Sizes around the blocks of a save, and the most that a device has.
const SIZES: &[(usize, usize)] = &[
    (33, 3),
    (0, 0),
    (1, 1),
    (31, 2),
    (32, 0),
    (0, 7),
    (300, 20),
    (65_535, 5),
    (65_505, 65_535),
    (65_536, 65_536),
];

/// The most bytes of the save that is kept that a request shows.
const SHOWN: usize = 1024;

/// What a save takes.
fn room(sizes: &Sizes) -> usize {
    18 + sizes.eeprom + 8 * ((sizes.eeprom + 31) / 32) + 13 * sizes.settings
}

pub fn requests(random: &mut Random, line: Line) {
    for times in 0..3 {
        for &(eeprom, settings) in SIZES {
            let sizes = Sizes { eeprom, settings };
            saved(&sizes, times == 0, random, line);
            put_back(&sizes, random, line);
            streams(&sizes, random, line);
        }
    }
    too_large(line);
    for &(eeprom, settings) in SIZES {
        other_words(&Sizes { eeprom, settings }, random, line);
    }
}

/// A device that was used, and its save: every byte of it where it is whole.
fn saved(sizes: &Sizes, whole: bool, random: &mut Random, line: Line) {
    used(sizes, random, line);
    let room = room(sizes);
    for room in [0, room - 1, room, room + 1] {
        line(format!("keep {room}"));
        line(format!("save {}", room.min(SHOWN)));
    }
    let shown = room / SHOWN + 1;
    for i in 0..shown {
        if whole || i < 2 || shown < i + 3 || random.below(100) == 0 {
            line(format!("kept {} {SHOWN}", i * SHOWN));
        }
    }
    line("digest".to_string());
}

fn used(sizes: &Sizes, random: &mut Random, line: Line) {
    line(format!("lend {} {}", sizes.eeprom, sizes.settings));
    make(random.below(2) == 0, sizes, random, line);
    for _ in 0..8 {
        run(sizes, random, line);
    }
}

fn put_back(sizes: &Sizes, random: &mut Random, line: Line) {
    run(sizes, random, line);
    restored(line);
    used(sizes, random, line);
    restored(line);
    restored(line);
    let other = Sizes { eeprom: sizes.eeprom / 2 + 1, settings: sizes.settings };
    used(&other, random, line);
    restored(line);
}

/// A save put back on devices of more and of fewer words; and one with a frame in 64 bytes.
fn other_words(sizes: &Sizes, random: &mut Random, line: Line) {
    used(sizes, random, line);
    line("keep 1048576".to_string());
    for settings in [sizes.settings + 1, sizes.settings.saturating_sub(1), sizes.settings / 2, 65_536] {
        used(&Sizes { eeprom: sizes.eeprom, settings }, random, line);
        restored(line);
    }
    line(format!("lend {} {}", sizes.eeprom, sizes.settings));
    restored(line);
    for _ in 0..4 {
        let frames = [framed(&write(sizes, random)), padded(&framed(&write(sizes, random)), 0)];
        replayed(&stream(sizes, &frames), line);
    }
}

fn restored(line: Line) {
    line("digest".to_string());
    line("restore".to_string());
    line("digest".to_string());
}

fn too_large(line: Line) {
    for sizes in ["65537 0", "0 65537"] {
        line(format!("lend {sizes}"));
        line("save 100".to_string());
        line("keep 1048576".to_string());
        restored(line);
    }
}

/// Streams of writes in any order, good and damaged, replayed one after the other.
fn streams(sizes: &Sizes, random: &mut Random, line: Line) {
    line(format!("lend {} {}", sizes.eeprom, sizes.settings));
    make(false, sizes, random, line);
    for _ in 0..40 {
        let frames: Vec<_> = (0..random.below(4)).map(|_| framed(&write(sizes, random))).collect();
        let mut stream = stream(sizes, &frames);
        match random.below(8) {
            0 => stream.truncate(random.below(stream.len())),
            1 => stream.push(random.next() as u8),
            2 | 3 => {
                let at = random.below(stream.len());
                stream[at] ^= 1 << random.below(8);
            }
            _ => {}
        }
        replayed(&stream, line);
    }
}

fn replayed(stream: &[u8], line: Line) {
    line(format!("replay {}", hex(stream)));
    line("digest".to_string());
    line(format!("judge {}", hex(stream)));
}

fn stream(sizes: &Sizes, frames: &[Vec<u8>]) -> Vec<u8> {
    let size = |n: usize| (n as u32).to_be_bytes();
    let mut stream = field(0x01, &[size(sizes.eeprom), size(sizes.settings)].concat());
    for frame in frames {
        stream.extend(field(0x10, frame));
    }
    stream.extend(field(0x7F, &size(frames.len())));
    stream
}

fn field(tag: u8, content: &[u8]) -> Vec<u8> {
    let length = (content.len() as u16).to_be_bytes();
    [&[tag], &length[..], content].concat()
}

/// A packet that writes, most of them within the memories.
fn write(sizes: &Sizes, random: &mut Random) -> Vec<u8> {
    let past = random.below(9) / 8;
    if random.below(2) == 0 && sizes.settings > 0 || sizes.eeprom == 0 {
        let address = random.below((sizes.settings + past).max(1));
        let [_, top, high, low] = (address as u32).to_be_bytes();
        let first = top | random.pick(&[0x80, 0x80, 0x80, 0x00, 0xF0]);
        let n = random.pick(&[4, 4, 4, 4, 4, 4, 4, 4, 3, 5]);
        return [&[0x13, first, high, low], &random.bytes(n)[..]].concat();
    }
    let n = random.pick(&[0, 1, 2, 32, 33, 251]).min(sizes.eeprom);
    let address = random.below(sizes.eeprom - n + 1 + past);
    let [high, low] = (address as u16).to_be_bytes();
    [&[0x04, high, low], &random.bytes(n)[..]].concat()
}
