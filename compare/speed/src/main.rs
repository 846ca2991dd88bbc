//! How fast the port writes: frames of packets, frames of commands by their row of fields, and a save of full size. A case more is
//! a function in each side and a line here.
mod by_hand;
mod port;
mod rust;
mod side;
mod timing;

use timing::report;

/// How many bytes a packet has.
const LENGTHS: [usize; 5] = [1, 4, 16, 64, 254];
const FULL: usize = 65_536;

/// Bytes that are nothing in particular.
fn bytes(n: usize) -> Vec<u8> {
    let mut state = 0x2545_F491u32;
    let next = |_| {
        state = state.wrapping_mul(1_664_525).wrapping_add(1_013_904_223);
        (state >> 24) as u8
    };
    (0..n).map(next).collect()
}

fn main() {
    let sides = [
        by_hand::BY_HAND,
        port::NOW,
        #[cfg(feature = "before")]
        port::BEFORE,
        rust::RUST,
    ];
    println!("The time of Rust written by hand over lent buffers, and how many times that the others take");
    for n in LENGTHS {
        let packet = bytes(n);
        report(&format!("frame {n}"), &sides, n + 2, |side, out| (side.frame)(&packet, out));
    }
    for n in LENGTHS {
        let payload = bytes(n - 1);
        report(&format!("command {n}"), &sides, n + 2, |side, out| (side.command)(0x7A, &payload, out));
    }
    let eeprom = bytes(FULL);
    let settings: Vec<u32> = bytes(4 * FULL).chunks_exact(4).map(|four| u32::from_le_bytes(four.try_into().unwrap())).collect();
    let room = 18 + FULL + 8 * FULL.div_ceil(32) + 13 * FULL;
    report("save", &sides, room, |side, out| (side.save)(&eeprom, &settings, out));
}
