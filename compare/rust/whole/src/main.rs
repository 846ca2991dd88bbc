//! Compares the port's two 5.23 functions with the Rust's on all 2^32 inputs each.
use minidsp_protocol::FixedPoint;

extern "C" {
    fn wovenpike_from_f32(bits: u32) -> u32;
    fn wovenpike_to_f32(code: u32) -> u32;
}

fn main() {
    let from_f32 = compare("from_f32", |bits| {
        let rust = FixedPoint::from_f32(f32::from_bits(bits)).to_u32();
        (rust, unsafe { wovenpike_from_f32(bits) })
    });
    let to_f32 = compare("to_f32", |code| {
        let rust = FixedPoint::from_u32(code).to_f32().to_bits();
        (rust, unsafe { wovenpike_to_f32(code) })
    });
    if from_f32 + to_f32 > 0 {
        std::process::exit(1);
    }
}

/// Counts the inputs at which the two answers differ, and shows the first.
fn compare(name: &str, answers: impl Fn(u32) -> (u32, u32)) -> u64 {
    let mut differences = 0u64;
    for input in 0..=u32::MAX {
        let (rust, port) = answers(input);
        if rust != port {
            if differences == 0 {
                println!("{name} {input:08X}: Rust {rust:08X}, port {port:08X}");
            }
            differences += 1;
        }
    }
    println!("{name}: 4294967296 inputs, {differences} differences");
    differences
}
