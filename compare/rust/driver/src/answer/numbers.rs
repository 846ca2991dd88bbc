//! fixed_point.rs, and Gain of commands.rs
use minidsp_protocol::{commands::Gain, FixedPoint};

use super::words::{byte, float, hex32, word32};

pub fn answer(verb: &str, args: &[&str]) -> Option<String> {
    Some(match verb {
        "from_f32" => word32(FixedPoint::from_f32(f32::from_bits(hex32(args[0]))).to_u32()),
        "to_f32" => word32(FixedPoint::from_u32(hex32(args[0])).to_f32().to_bits()),
        "gain" => word32(Gain::from(byte(args[0])).0.to_bits()),
        "gain_byte" => u8::from(Gain(f32::from_bits(hex32(args[0])))).to_string(),
        "float" => word32(float(args[0]).to_bits()),
        _ => return None,
    })
}
