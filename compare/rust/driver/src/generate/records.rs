//! Records of every kind, also those that reading never yields.
use super::Random;
use crate::answer::words::hex;

/// Lengths of payloads, around where a packet is full.
pub const PAYLOADS: &[usize] = &[
    0, 1, 2, 3, 4, 5, 8, 12, 20, 24, 30, 40, 60, 247, 248, 249, 250, 251, 252, 253, 254, 255, 256,
    300,
];

pub fn requests(random: &mut Random, line: &mut dyn FnMut(String)) {
    for &n in PAYLOADS {
        let payload = random.bytes(n);
        for kind in KINDS {
            for _ in 0..20 {
                let record = kind(random, n);
                encode("encode", &payload, &record, random, line);
            }
        }
        for _ in 0..60 {
            let value = value(random, n);
            let room = random.pick(&[0, 3, 4, 5, n, n + 1, 300]);
            line(format!("encode_value {} {room} {value}", hex(&payload)));
        }
    }
    places(random, line);
    for _ in 0..200 {
        let address = address(random);
        line(format!("mute {address} {}", random.below(2)));
    }
    for len in (0..=255).chain([2; 100]).chain([3; 100]) {
        for bit in [0, 1] {
            let value = word(random);
            for room in 0..5 {
                line(format!("encode_addr {room} {len} {bit} {value:08X}"));
            }
            line(format!("encode 00 9 Read {len} {bit} {value:08X} 4"));
        }
    }
}

/// Each room from none to enough, and more.
pub fn encode(
    verb: &str,
    payload: &[u8],
    record: &str,
    random: &mut Random,
    line: &mut dyn FnMut(String),
) {
    let payload = hex(payload);
    let room = random.pick(&[0, 1, 2, 3, 4, 5, 6, 7, 8, 24, 28, 60, 254, 255, 256, 257]);
    line(format!("{verb} {payload} {room} {record}"));
    line(format!("{verb}_frame {payload} {room} {record}"));
    line(format!("{verb} {payload} 310 {record}"));
    line(format!("{verb}_frame {payload} 310 {record}"));
}

/// Payloads and floats at every place in and around a few bytes, and lengths around a full packet.
fn places(random: &mut Random, line: &mut dyn FnMut(String)) {
    for n in 0..6 {
        let payload = hex(&random.bytes(n));
        for start in 0..n + 3 {
            for len in 0..n + 3 {
                line(format!("encode {payload} 20 WriteMemory 7 {start} {len}"));
                line(format!("encode {payload} 20 FirLoadData 7 {start} {len}"));
                line(format!("encode {payload} 20 BulkLoad {start} {len}"));
                line(format!("encode {payload} 20 BulkLoadFilterData {start} {len}"));
                line(format!("encode {payload} 20 Unknown 200 {start} {len}"));
                line(format!("encode {payload} 20 Write 3 1 00000010 Unknown {start} {len}"));
                line(format!("encode {payload} 20 Write 4 1 00000010 Unknown {start} {len}"));
                line(format!("encode_value {payload} 4 Unknown {start} {len}"));
            }
        }
    }
    let payload = hex(&random.bytes(300));
    for len in 246..=258 {
        for room in 250..=260 {
            for verb in ["encode", "encode_frame"] {
                line(format!("{verb} {payload} {room} WriteMemory 65535 0 {len}"));
                line(format!("{verb} {payload} {room} BulkLoad 3 {len}"));
                line(format!("{verb} {payload} {room} Write 2 0 00000010 Unknown 0 {len}"));
                line(format!("{verb} {payload} {room} Write 3 0 00000010 Unknown 0 {len}"));
                line(format!("{verb} {payload} {room} FirLoadData 0 0 {}", len / 4));
            }
        }
    }
}

pub const KINDS: &[fn(&mut Random, usize) -> String] = &[
    |_, _| "ReadHardwareId".to_string(),
    |_, _| "FirLoadEnd".to_string(),
    |r, _| format!("ReadFloats {} {}", half(r), byte(r)),
    |r, _| format!("ReadMemory {} {}", half(r), byte(r)),
    |r, n| format!("WriteMemory {} {}", half(r), place(r, n)),
    |r, n| format!("FirLoadData {} {}", byte(r), place(r, n / 4)),
    |r, n| format!("Unknown {} {}", byte(r), place(r, n)),
    |r, n| format!("BulkLoad {}", place(r, n)),
    |r, n| format!("BulkLoadFilterData {}", place(r, n)),
    |r, _| format!("SetConfig {} {}", byte(r), r.below(2)),
    |r, _| format!("SetSource {}", byte(r)),
    |r, _| format!("SetMute {}", r.below(2)),
    |r, _| format!("SetVolume {}", float(r)),
    |r, _| format!("FirLoadStart {}", byte(r)),
    |r, _| format!("DiracBypass {}", byte(r)),
    |r, _| format!("Unk07 {}", byte(r)),
    |r, _| format!("WriteBiquadBypass {} {}", address(r), r.below(2)),
    |r, _| format!("Read {} {}", address(r), byte(r)),
    |r, _| format!("SwitchMux {} {} {} {}", address(r), byte(r), r.below(2), byte(r)),
    |r, n| format!("Write {} {}", address(r), value(r, n)),
    |r, n| {
        let values: Vec<String> = (0..5).map(|_| value(r, n)).collect();
        format!("WriteBiquad {} {}", address(r), values.join(" "))
    },
];

pub fn byte(random: &mut Random) -> u8 {
    let any = random.next() as u8;
    random.pick(&[0, 1, 127, 128, 255, any, any])
}

pub fn half(random: &mut Random) -> u16 {
    let any = random.next() as u16;
    random.pick(&[0, 1, 255, 256, 65535, any, any])
}

fn word(random: &mut Random) -> u32 {
    let any = random.next() as u32;
    random.pick(&[0, 0x7FFF, 0x8000, 0x7F_FFFF, 0x80_0000, u32::MAX, any, any, any])
}

/// The pattern of a float: a volume, a NaN with a payload, an infinity, or any.
fn float(random: &mut Random) -> String {
    let volume = (-0.25 * random.below(600) as f32).to_bits();
    let any = random.next() as u32;
    let bits = random.pick(&[volume, volume, any, 0x7F80_0001, 0xFFC0_1234, 0x7F80_0000]);
    format!("{bits:08X}")
}

/// An address, most of two or three bytes.
pub fn address(random: &mut Random) -> String {
    let any = random.next() as u8;
    let len = random.pick(&[2, 2, 2, 3, 3, 3, 3, 0, 1, 4, 255, any]);
    format!("{len} {} {:08X}", random.below(2), word(random))
}

/// A place, most of them inside n.
pub fn place(random: &mut Random, n: usize) -> String {
    match random.below(8) {
        0 => format!("{} {}", random.below(n + 3), random.below(n + 3)),
        1 => format!("0 {}", n + 1),
        2 => format!("{} 0", n),
        3 => format!("{} {}", 999_999_999 - random.below(2), 999_999_999),
        4 => format!("0 {n}"),
        _ => {
            let start = random.below(n + 1);
            format!("{start} {}", random.below(n - start + 1))
        }
    }
}

pub fn value(random: &mut Random, n: usize) -> String {
    match random.below(6) {
        0 => format!("Float {}", float(random)),
        1 => format!("FixedPoint {:08X}", word(random)),
        2 => format!("Int {}", half(random)),
        3 => format!("Int32 {:08X}", word(random)),
        4 => format!("Unknown {}", place(random, n)),
        _ => format!("Unknown {} {}", random.below(n + 1).min(n.saturating_sub(4)), n.min(4)),
    }
}
