//! 5.23 codes, gains and floats.
use super::Random;

/// Mantissas at both ends, in the middle, and one bit each.
fn mantissas() -> Vec<u32> {
    let mut all = vec![0, 1, 2, 3, 0x3F_FFFF, 0x40_0000, 0x40_0001, 0x7F_FFFD, 0x7F_FFFE, 0x7F_FFFF];
    all.extend((0..23).map(|bit| 1 << bit));
    all
}

pub fn requests(random: &mut Random, line: &mut dyn FnMut(String)) {
    for byte in 0..=255 {
        line(format!("gain {byte}"));
    }
    for sign in [0, 0x8000_0000u32] {
        for exponent in 0..=255u32 {
            for mantissa in mantissas() {
                float(sign | exponent << 23 | mantissa, line);
            }
        }
    }
    for edge in [0u32, 1 << 23, 1 << 24, 1 << 27, 1 << 28, 15 << 28, 1 << 31] {
        for near in 0..40 {
            line(format!("to_f32 {:08X}", edge.wrapping_add(near)));
            line(format!("to_f32 {:08X}", edge.wrapping_sub(near)));
        }
    }
    for _ in 0..40_000 {
        float(random.next() as u32, line);
        // the exponents at which a float is near the 5.23 range
        float(random.next() as u32 & 0x87FF_FFFF | 0x3800_0000, line);
        line(format!("to_f32 {:08X}", random.next() as u32));
        line(format!("to_f32 {:08X}", random.next() as u32 & 0x0FFF_FFFF));
    }
}

fn float(bits: u32, line: &mut dyn FnMut(String)) {
    line(format!("from_f32 {bits:08X}"));
    line(format!("gain_byte {bits:08X}"));
    line(format!("float {bits:08X}"));
}
