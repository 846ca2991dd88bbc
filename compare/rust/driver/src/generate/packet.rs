//! Packets and frames.
use super::Random;
use crate::answer::words::hex;

/// Lengths at and around each boundary.
const LENGTHS: &[usize] = &[
    0, 1, 2, 3, 4, 30, 31, 32, 33, 61, 62, 63, 64, 65, 126, 127, 128, 129, 251, 252, 253, 254, 255,
    256, 257, 300,
];

pub fn framed(packet: &[u8]) -> Vec<u8> {
    let mut frame = vec![(packet.len() + 1) as u8];
    frame.extend_from_slice(packet);
    frame.push(frame.iter().fold(0u8, |sum, &b| sum.wrapping_add(b)));
    frame
}

/// A frame in as many bytes as the wire has for it, filled up with others.
pub fn padded(frame: &[u8], fill: u8) -> Vec<u8> {
    let mut padded = frame.to_vec();
    padded.resize(padded.len().max(64), fill);
    padded
}

fn receive(bytes: &[u8], line: &mut dyn FnMut(String)) {
    line(format!("plain {}", hex(bytes)));
    line(format!("strict {}", hex(bytes)));
}

pub fn requests(random: &mut Random, line: &mut dyn FnMut(String)) {
    for first in 0..=255u8 {
        receive(&[first], line);
        for second in [0, 1, first, 255] {
            receive(&[first, second], line);
        }
    }
    for &n in LENGTHS {
        for _ in 0..40 {
            let packet = random.bytes(n);
            line(format!("checksum {}", hex(&packet)));
            for room in n.saturating_sub(1)..n + 5 {
                line(format!("frame {} {room}", hex(&packet)));
            }
            line(format!("frame {} 0", hex(&packet)));
            damaged(&framed(&packet), random, line);
        }
    }
    for _ in 0..12_000 {
        let n = random.below(70);
        let packet = random.bytes(n);
        line(format!("frame {} {}", hex(&packet), random.below(80)));
        let any = random.bytes(n);
        receive(&any, line);
    }
}

/// A good frame, and copies of it that are cut, extended, or changed in one byte.
fn damaged(frame: &[u8], random: &mut Random, line: &mut dyn FnMut(String)) {
    receive(frame, line);
    receive(&frame[..frame.len() - 1], line);
    receive(&frame[..random.below(frame.len())], line);
    let mut longer = frame.to_vec();
    longer.push(random.next() as u8);
    receive(&longer, line);
    receive(&padded(frame, 0), line);
    for _ in 0..6 {
        let mut changed = frame.to_vec();
        let at = random.below(changed.len());
        changed[at] ^= 1 << random.below(8);
        receive(&changed, line);
    }
}
