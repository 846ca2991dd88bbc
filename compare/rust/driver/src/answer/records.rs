//! Commands in words: the kind's name and its fields in order.
use minidsp_protocol::commands::{Addr, BytesWrap, Commands, Gain, Value};

use super::{
    fields::{addr, addr_words, value, value_words, Lent, Words},
    words::{bit, byte, float, half, number, place, word32},
};

pub fn next<'a>(words: &mut Words<'a>) -> &'a str {
    words.next().unwrap()
}

pub fn payload(words: &mut Words, lent: &mut Lent) -> BytesWrap {
    let start = number(next(words));
    BytesWrap(lent.part(start, number(next(words))))
}

pub fn floats(words: &mut Words, lent: &mut Lent) -> Vec<f32> {
    let start = number(next(words));
    let part = lent.part(start, 4 * number(next(words)));
    part.chunks_exact(4)
        .map(|four| f32::from_le_bytes(four.try_into().unwrap()))
        .collect()
}

pub fn command(record: &[&str], lent: &mut Lent) -> Commands {
    read(&mut record.iter(), lent)
}

/// The command of the first words, which are taken.
pub fn read(w: &mut Words, lent: &mut Lent) -> Commands {
    match next(w) {
        "ReadHardwareId" => Commands::ReadHardwareId,
        "ReadFloats" => Commands::ReadFloats { addr: half(next(w)), len: byte(next(w)) },
        "WriteMemory" => Commands::WriteMemory { addr: half(next(w)), data: payload(w, lent) },
        "ReadMemory" => Commands::ReadMemory { addr: half(next(w)), size: byte(next(w)) },
        "SetConfig" => Commands::SetConfig { config: byte(next(w)), reset: bit(next(w)) },
        "SetSource" => Commands::SetSource { source: byte(next(w)) },
        "SetMute" => Commands::SetMute { value: bit(next(w)) },
        "SetVolume" => Commands::SetVolume { value: Gain(float(next(w))) },
        "WriteBiquad" => biquad(w, lent),
        "WriteBiquadBypass" => Commands::WriteBiquadBypass { addr: addr(w), value: bit(next(w)) },
        "Read" => Commands::Read { addr: addr(w), len: byte(next(w)) },
        "Write" => Commands::Write { addr: addr(w), value: value(w, lent) },
        "FirLoadStart" => Commands::FirLoadStart { index: byte(next(w)) },
        "FirLoadData" => Commands::FirLoadData { index: byte(next(w)), data: floats(w, lent) },
        "FirLoadEnd" => Commands::FirLoadEnd,
        "DiracBypass" => Commands::DiracBypass { value: byte(next(w)) },
        "BulkLoad" => Commands::BulkLoad { payload: payload(w, lent) },
        "BulkLoadFilterData" => Commands::BulkLoadFilterData { payload: payload(w, lent) },
        "Unk07" => Commands::Unk07 { payload: byte(next(w)) },
        "SwitchMux" => Commands::SwitchMux {
            addr: addr(w),
            max: byte(next(w)),
            arg: bit(next(w)),
            slot: byte(next(w)),
        },
        "Unknown" => Commands::Unknown { cmd_id: byte(next(w)), payload: payload(w, lent) },
        kind => panic!("no such kind of command: {kind}"),
    }
}

fn biquad(w: &mut Words, lent: &mut Lent) -> Commands {
    let addr = addr(w);
    let data = [(); 5].map(|()| value(w, lent));
    Commands::WriteBiquad { addr, data }
}

/// The record of a command that was read from a packet. A payload is the packet's rest.
pub fn words(command: &Commands, packet: &[u8]) -> String {
    let rest = |payload: &[u8]| place(packet, packet.len() - payload.len(), payload);
    match command {
        Commands::ReadHardwareId => "ReadHardwareId".to_string(),
        Commands::ReadFloats { addr, len } => format!("ReadFloats {addr} {len}"),
        Commands::WriteMemory { addr, data } => format!("WriteMemory {addr} {}", rest(data)),
        Commands::ReadMemory { addr, size } => format!("ReadMemory {addr} {size}"),
        Commands::SetConfig { config, reset } => format!("SetConfig {config} {}", *reset as u8),
        Commands::SetSource { source } => format!("SetSource {source}"),
        Commands::SetMute { value } => format!("SetMute {}", *value as u8),
        Commands::SetVolume { value } => format!("SetVolume {}", word32(value.0.to_bits())),
        Commands::WriteBiquad { addr, data } => biquad_words(*addr, data, packet),
        Commands::WriteBiquadBypass { addr, value } => {
            format!("WriteBiquadBypass {} {}", addr_words(*addr), *value as u8)
        }
        Commands::Read { addr, len } => format!("Read {} {len}", addr_words(*addr)),
        Commands::Write { addr, value } => {
            let value = value_words(value, packet, 1 + addr.len as usize);
            format!("Write {} {value}", addr_words(*addr))
        }
        Commands::FirLoadStart { index } => format!("FirLoadStart {index}"),
        Commands::FirLoadData { index, data } => format!("FirLoadData {index} {}", fir(data, packet)),
        Commands::FirLoadEnd => "FirLoadEnd".to_string(),
        Commands::DiracBypass { value } => format!("DiracBypass {value}"),
        Commands::BulkLoad { payload } => format!("BulkLoad {}", rest(payload)),
        Commands::BulkLoadFilterData { payload } => {
            format!("BulkLoadFilterData {}", rest(payload))
        }
        Commands::Unk07 { payload } => format!("Unk07 {payload}"),
        Commands::SwitchMux { addr, max, arg, slot } => {
            format!("SwitchMux {} {max} {} {slot}", addr_words(*addr), *arg as u8)
        }
        Commands::Unknown { cmd_id, payload } => format!("Unknown {cmd_id} {}", rest(payload)),
    }
}

/// The values stand behind the address and two bytes.
fn biquad_words(addr: Addr, data: &[Value; 5], packet: &[u8]) -> String {
    let mut text = format!("WriteBiquad {}", addr_words(addr));
    for (i, value) in data.iter().enumerate() {
        let start = 3 + addr.len as usize + 4 * i;
        text += &format!(" {}", value_words(value, packet, start));
    }
    text
}

/// The floats stand behind the index.
fn fir(data: &[f32], packet: &[u8]) -> String {
    let bytes: Vec<u8> = data.iter().flat_map(|x| x.to_le_bytes()).collect();
    if packet.get(2..2 + bytes.len()) != Some(&bytes) {
        return "elsewhere".to_string();
    }
    format!("2 {}", data.len())
}
