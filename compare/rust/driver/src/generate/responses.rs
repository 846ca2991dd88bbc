//! Packets and records of responses, what they hold, which answer a command, and the master status.
use super::{
    commands::{damaged, lengths},
    records::{self, address, byte, encode, half, place, value, PAYLOADS},
    Random,
};
use crate::answer::words::hex;

/// The first bytes that are read as a kind of their own.
const FIRST: &[u8] = &[0x02, 0x05, 0x14, 0x31, 0x39, 0xAB];

pub fn requests(random: &mut Random, line: &mut dyn FnMut(String)) {
    line("response -".to_string());
    for first in 0..=255u8 {
        for n in lengths() {
            response(first, random.bytes(n), line);
            response(first, random.sparse(n), line);
        }
    }
    for &first in FIRST {
        for n in lengths() {
            for _ in 0..12 {
                response(first, random.bytes(n), line);
                response(first, random.sparse(n), line);
            }
        }
    }
    for _ in 0..4_000 {
        damaged("response", FIRST, random, line);
    }
    written(random, line);
    places(random, line);
    held(random, line);
    matched(random, line);
    values(random, line);
    statuses(random, line);
}

fn response(first: u8, mut rest: Vec<u8>, line: &mut dyn FnMut(String)) {
    rest.insert(0, first);
    line(format!("response {}", hex(&rest)));
}

const KINDS: &[fn(&mut Random, usize) -> String] = &[
    |_, _| "Ack".to_string(),
    |_, _| "ConfigChanged".to_string(),
    |_, _| "Unk02".to_string(),
    |r, n| format!("MemoryData {} {}", half(r), place(r, n)),
    |r, n| format!("FloatData {} {}", half(r), place(r, n / 4)),
    |r, n| format!("Unknown {} {}", byte(r), place(r, n)),
    |r, _| format!("HardwareId {} {} {}", byte(r), byte(r), byte(r)),
    |r, _| format!("FirLoadSize {}", half(r)),
    |r, n| format!("Read {} Chunks {}", address(r), place(r, n)),
    |r, n| format!("Read {} {}", address(r), value(r, n)),
];

fn written(random: &mut Random, line: &mut dyn FnMut(String)) {
    for &n in PAYLOADS {
        let payload = random.bytes(n);
        for kind in KINDS {
            for _ in 0..24 {
                let record = kind(random, n);
                encode("encode_response", &payload, &record, random, line);
            }
        }
    }
    for len in 0..=255 {
        for bit in [0, 1] {
            let value = random.next() as u32;
            line(format!("encode_response 00 9 Read {len} {bit} {value:08X} Int 4"));
        }
    }
}

/// Every place in and around a few bytes, every room around each kind's size, and lengths around a
/// full packet.
fn places(random: &mut Random, line: &mut dyn FnMut(String)) {
    for n in 0..6 {
        let payload = hex(&random.bytes(n));
        for start in 0..n + 3 {
            for len in 0..n + 3 {
                line(format!("encode_response {payload} 20 MemoryData 7 {start} {len}"));
                line(format!("encode_response {payload} 20 FloatData 7 {start} {len}"));
                line(format!("encode_response {payload} 20 Unknown 200 {start} {len}"));
                line(format!("encode_response {payload} 20 Read 3 1 00000010 Chunks {start} {len}"));
                line(format!("encode_response {payload} 20 Read 4 1 00000010 Chunks {start} {len}"));
                line(format!("encode_response {payload} 20 Read 2 0 00000010 Unknown {start} {len}"));
            }
        }
    }
    let payload = random.bytes(8);
    for kind in KINDS {
        for room in 0..16 {
            for _ in 0..8 {
                let record = kind(random, 8);
                line(format!("encode_response {} {room} {record}", hex(&payload)));
                line(format!("encode_response_frame {} {room} {record}", hex(&payload)));
            }
        }
    }
    let payload = hex(&random.bytes(300));
    for len in 246..=258 {
        for room in 250..=260 {
            for verb in ["encode_response", "encode_response_frame"] {
                line(format!("{verb} {payload} {room} MemoryData 65535 0 {len}"));
                line(format!("{verb} {payload} {room} Unknown 3 3 {len}"));
                line(format!("{verb} {payload} {room} Read 2 0 00000010 Chunks 0 {len}"));
                line(format!("{verb} {payload} {room} Read 3 0 00000010 Unknown 0 {len}"));
                line(format!("{verb} {payload} {room} FloatData 0 0 {}", len / 4));
            }
        }
    }
}

/// A place that a record that is not written may have.
fn inside(random: &mut Random) -> String {
    let any = random.below(300);
    format!("{} {}", random.below(300), random.pick(&[0, 1, 4, 255, 256, any]))
}

/// A record of the kind number `kind`, all places inside.
fn record(kind: usize, random: &mut Random) -> String {
    match kind {
        3 => format!("MemoryData {} {}", half(random), inside(random)),
        4 => format!("FloatData {} {}", half(random), inside(random)),
        5 => format!("Unknown {} {}", byte(random), inside(random)),
        8 => format!("Read {} Chunks {}", address(random), inside(random)),
        9 => format!("Read {} Unknown {}", address(random), inside(random)),
        _ => KINDS[kind](random, 0),
    }
}

fn held(random: &mut Random, line: &mut dyn FnMut(String)) {
    let asked = ["memory_view", "float_view", "hardware_id", "ack", "config_changed", "fir_size"];
    for kind in 0..KINDS.len() {
        for _ in 0..30 {
            line(format!("is {}", record(kind, random)));
            for into in asked {
                line(format!("into {into} {}", record(kind, random)));
            }
        }
    }
}

/// All pairs of kinds; then reads of memory and floats with addresses and sizes that are the answer's,
/// are off by one, or are the answer's but for what a byte or a half holds.
fn matched(random: &mut Random, line: &mut dyn FnMut(String)) {
    for command in records::KINDS {
        for kind in 0..KINDS.len() {
            for _ in 0..20 {
                // places in nothing, so that all of them lie in what stands for a payload
                let command = command(random, 0);
                if !command.contains("999999") {
                    line(format!("matches {command} {}", record(kind, random)));
                }
            }
        }
    }
    for (command, kind) in [
        ("ReadMemory", "MemoryData"),
        ("ReadFloats", "FloatData"),
        ("ReadMemory", "FloatData"),
        ("ReadFloats", "MemoryData"),
    ] {
        for _ in 0..1_500 {
            let addr = half(random);
            let size = byte(random);
            let base = addr.wrapping_add(random.pick(&[0, 0, 0, 0, 1, 65535, 256]));
            let len = size as usize + random.pick(&[0, 0, 0, 0, 1, 256]);
            let start = random.below(3);
            line(format!("matches {command} {addr} {size} {kind} {base} {start} {len}"));
        }
    }
}

fn values(random: &mut Random, line: &mut dyn FnMut(String)) {
    for n in 0..14 {
        for start in 0..n + 2 {
            for len in 0..n + 3 {
                let bytes = hex(&random.sparse(n));
                line(format!("values {bytes} Chunks {start} {len}"));
                for i in 0..len / 4 + 2 {
                    line(format!("value_number {bytes} {i} Chunks {start} {len}"));
                }
            }
        }
    }
    for _ in 0..400 {
        let n = random.below(300);
        let bytes = hex(&random.sparse(n));
        let i = random.pick(&[0, 1, 63, 64, n / 4, 999_999_999]);
        let place = place(random, n);
        line(format!("values {bytes} Chunks {place}"));
        line(format!("value_number {bytes} {i} Chunks {place}"));
        let one = random.pick(&["Float 3F800000", "FixedPoint 00800000", "Int 5", "Int32 00000007"]);
        line(format!("values {bytes} {one}"));
        line(format!("value_number {bytes} {} {one}", random.below(3)));
        line(format!("values {bytes} Unknown 0 {n}"));
        line(format!("value_number {bytes} {} Unknown 0 {n}", random.below(3)));
    }
}

/// The addresses that the status is read from.
const ADDRESSES: &[usize] = &[65449, 65496, 65497, 65498, 65499, 65504];

/// The hardware ids that have sources, with one that has none; the dsp versions that have Dirac Live
/// or choose the sources, with one each beside them.
const HARDWARE: &[u8] = &[1, 2, 4, 5, 10, 11, 14, 17, 18, 27, 32, 3];
const VERSIONS: &[u8] = &[0, 60, 61, 62, 93, 94, 95, 96, 99, 100, 101, 102, 104, 105, 106, 255];

/// Bytes as they stand in an EEPROM here, so that the numbers of sources are met.
fn settings(random: &mut Random, n: usize) -> Vec<u8> {
    (0..n)
        .map(|_| match random.below(10) {
            0 => random.next() as u8,
            1 => 255,
            _ => random.below(8) as u8,
        })
        .collect()
}

fn statuses(random: &mut Random, line: &mut dyn FnMut(String)) {
    for &hw in HARDWARE {
        for &dsp in VERSIONS {
            for _ in 0..8 {
                let bytes = hex(&settings(random, 80));
                line(format!("status {hw} {dsp} {bytes} 65440 0 80"));
                let base = 65450 + random.below(50);
                line(format!("status {hw} {dsp} {bytes} {base} 0 80"));
            }
        }
    }
    for &address in ADDRESSES {
        for base in address - 3..=address + 2 {
            for len in 0..7usize {
                for start in 0..3 {
                    // one byte too few, just enough, and more
                    for slack in [0, 1, 3] {
                        let have = (start + len + slack).saturating_sub(1);
                        let bytes = hex(&settings(random, have));
                        let hw = random.pick(HARDWARE);
                        let dsp = random.pick(VERSIONS);
                        line(format!("status {hw} {dsp} {bytes} {base} {start} {len}"));
                    }
                }
            }
        }
    }
    for _ in 0..4_000 {
        let n = random.below(120);
        let bytes = hex(&settings(random, n));
        let base = 65535 - random.below(120);
        let (hw, dsp) = (random.next() as u8, random.next() as u8);
        line(format!("status {hw} {dsp} {bytes} {base} {}", place(random, n)));
    }
}
