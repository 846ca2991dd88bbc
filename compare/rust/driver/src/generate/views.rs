//! Reads and joins around every boundary.
use super::Random;
use crate::answer::words::hex;

const BASES: &[usize] = &[0, 1, 2, 255, 4096, 32767, 32768, 65500, 65530, 65533, 65534, 65535];

pub fn requests(random: &mut Random, line: &mut dyn FnMut(String)) {
    for &base in BASES {
        for n in [0usize, 1, 2, 3, 5, 8] {
            for start in 0..n + 2 {
                for len in 0..n.saturating_sub(start) + 2 {
                    let bytes = hex(&random.bytes(n));
                    read(&format!("{bytes} {base} {start} {len}"), base, len, line);
                }
            }
        }
        for n in [0usize, 3, 4, 5, 8, 13, 24] {
            for start in [0, 1, 3, 4] {
                for count in 0..n.saturating_sub(start) / 4 + 2 {
                    let bytes = hex(&random.bytes(n));
                    get(&format!("{bytes} {base} {start} {count}"), base, count, line);
                }
            }
        }
    }
    nans(random, line);
    joins(random, line);
}

/// Addresses around the view's first and last, and the ends.
fn around(base: usize, len: usize) -> impl Iterator<Item = usize> {
    let from = base.saturating_sub(2);
    let to = (base + len + 2).min(65535);
    (from..=to).chain([0, 65535])
}

fn read(view: &str, base: usize, len: usize, line: &mut dyn FnMut(String)) {
    for addr in around(base, len) {
        let left = (base + len).saturating_sub(addr);
        for n in [0, 1, 2, left.saturating_sub(1), left, left + 1, 255] {
            line(format!("read_at {view} {addr} {}", n.min(255)));
        }
        line(format!("read_u8 {view} {addr}"));
        line(format!("read_u16 {view} {addr}"));
    }
}

fn get(view: &str, base: usize, count: usize, line: &mut dyn FnMut(String)) {
    for addr in around(base, count) {
        line(format!("get {view} {addr}"));
    }
}

/// A NaN keeps its payload.
fn nans(random: &mut Random, line: &mut dyn FnMut(String)) {
    for _ in 0..200 {
        let mut bytes = random.bytes(8);
        bytes[3] |= 0x7F;
        bytes[2] |= 0x80;
        let bytes = hex(&bytes);
        line(format!("get {bytes} 16 0 2 16"));
        line(format!("join_floats {bytes} 16 0 1 {bytes} 17 4 1 8"));
    }
}

/// Two views that adjoin, are apart by one, or overlap; places in and around their bytes; a first
/// view that ends around 65,535; every room around the result.
fn joins(random: &mut Random, line: &mut dyn FnMut(String)) {
    for &base in BASES {
        for len in 0..8 {
            for other_len in 0..5 {
                for _ in 0..12 {
                    join("join_memory", 1, base, len, other_len, random, line);
                    join("join_floats", 4, base, len, other_len, random, line);
                }
            }
        }
    }
}

fn join(
    verb: &str,
    width: usize,
    base: usize,
    len: usize,
    other_len: usize,
    random: &mut Random,
    line: &mut dyn FnMut(String),
) {
    let start = random.below(3);
    let other_start = random.below(3);
    let slack = random.pick(&[0, 0, 0, 1, 4]);
    let have = start + len * width + slack;
    let cut = random.pick(&[0, 0, 0, 0, 0, 0, 1]);
    let bytes = random.bytes(have.saturating_sub(cut));
    let other = random.bytes(other_start + other_len * width + slack);
    let next = (base + len + random.pick(&[0, 0, 0, 0, 1, 65535])) % 65536;
    let size = (len + other_len) * width;
    let room = random.pick(&[0, size.saturating_sub(1), size, size, size + 1, size + 9]);
    let other_len = other_len + random.pick(&[0, 0, 0, 0, 0, 0, 1]);
    line(format!(
        "{verb} {} {base} {start} {len} {} {next} {other_start} {other_len} {room}",
        hex(&bytes),
        hex(&other)
    ));
}
