//! Requests for the comparison, from a seed.
mod commands;
mod device;
mod facts;
mod numbers;
mod packet;
mod records;
mod responses;
mod saves;
mod views;

use std::io::Write;

type Part = fn(&mut Random, &mut dyn FnMut(String));

/// The parts of the comparison.
pub const PARTS: &[(&str, Part)] = &[
    ("packet", packet::requests),
    ("numbers", numbers::requests),
    ("commands", commands::requests),
    ("records", records::requests),
    ("facts", facts::requests),
    ("views", views::requests),
    ("responses", responses::requests),
    ("device", device::requests),
    ("saves", saves::requests),
];

pub fn part(name: &str, seed: u64, out: &mut impl Write) {
    let (_, make) = PARTS
        .iter()
        .find(|(part, _)| *part == name)
        .unwrap_or_else(|| panic!("no part {name}"));
    make(&mut Random(seed), &mut |line| {
        writeln!(out, "{line}").unwrap()
    });
}

/// SplitMix64.
pub struct Random(u64);

impl Random {
    fn next(&mut self) -> u64 {
        self.0 = self.0.wrapping_add(0x9E37_79B9_7F4A_7C15);
        let mut z = self.0;
        z = (z ^ (z >> 30)).wrapping_mul(0xBF58_476D_1CE4_E5B9);
        z = (z ^ (z >> 27)).wrapping_mul(0x94D0_49BB_1331_11EB);
        z ^ (z >> 31)
    }

    /// A number below `n`.
    fn below(&mut self, n: usize) -> usize {
        (self.next() % n as u64) as usize
    }

    fn bytes(&mut self, n: usize) -> Vec<u8> {
        (0..n).map(|_| self.next() as u8).collect()
    }

    /// Bytes of which most are 0, or 255.
    fn sparse(&mut self, n: usize) -> Vec<u8> {
        (0..n)
            .map(|_| match self.below(8) {
                0 => self.next() as u8,
                1 => 255,
                _ => 0,
            })
            .collect()
    }

    fn pick<T: Copy>(&mut self, from: &[T]) -> T {
        from[self.below(from.len())]
    }
}
