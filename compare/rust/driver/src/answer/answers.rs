//! Responses in words: the kind's name and its fields in order.
use bytes::Bytes;
use minidsp_protocol::{
    commands::{FloatView, MemoryView, Responses, Value},
    HardwareId,
};

use super::{
    fields::{addr, addr_words, value, value_words, Lent, Words},
    records::{floats, next, payload},
    words::{byte, half, place},
};

pub fn response(record: &[&str], lent: &mut Lent) -> Responses {
    let w = &mut record[1..].iter();
    match record[0] {
        "Ack" => Responses::Ack,
        "ConfigChanged" => Responses::ConfigChanged,
        "Unk02" => Responses::Unk02,
        "MemoryData" => Responses::MemoryData(MemoryView {
            base: half(next(w)),
            data: payload(w, lent).0,
        }),
        "FloatData" => Responses::FloatData(FloatView {
            base: half(next(w)),
            data: floats(w, lent),
        }),
        "Unknown" => Responses::Unknown { cmd_id: byte(next(w)), payload: payload(w, lent) },
        "HardwareId" => Responses::HardwareId(HardwareId {
            fw_major: byte(next(w)),
            fw_minor: byte(next(w)),
            hw_id: byte(next(w)),
        }),
        "FirLoadSize" => Responses::FirLoadSize { size: half(next(w)) },
        "Read" => Responses::Read { addr: addr(w), data: values(w, lent) },
        kind => panic!("no such kind of response: {kind}"),
    }
}

/// The values of a Read: chunks at a place, as the Rust reads them, or one value.
pub fn values(w: &mut Words, lent: &mut Lent) -> Vec<Value> {
    if w.as_slice()[0] != "Chunks" {
        return vec![value(w, lent)];
    }
    next(w);
    let part = payload(w, lent);
    let mut packet = vec![0x02, 0, 0];
    packet.extend_from_slice(&part);
    match Responses::from_bytes(Bytes::copy_from_slice(&packet)) {
        Ok(Responses::Read { data, .. }) => data,
        _ => panic!("a packet 02 is a Read"),
    }
}

/// The record of a response that was read from a packet. A payload is the packet's rest.
pub fn words(response: &Responses, packet: &[u8]) -> String {
    let rest = |payload: &[u8]| place(packet, packet.len() - payload.len(), payload);
    match response {
        Responses::Ack => "Ack".to_string(),
        Responses::ConfigChanged => "ConfigChanged".to_string(),
        Responses::Unk02 => "Unk02".to_string(),
        Responses::MemoryData(view) => format!("MemoryData {} {}", view.base, rest(&view.data)),
        Responses::FloatData(view) => format!("FloatData {}", floats_words(view, packet, 3)),
        Responses::Unknown { cmd_id, payload } => format!("Unknown {cmd_id} {}", rest(payload)),
        Responses::HardwareId(id) => format!("HardwareId {}", id_words(id)),
        Responses::FirLoadSize { size } => format!("FirLoadSize {size}"),
        Responses::Read { addr, data } => {
            let start = 1 + addr.len as usize;
            let len = packet.len() - start;
            let values = values_words(data, packet, start);
            format!("Read {} Chunks {start} {len}{values}", addr_words(*addr))
        }
    }
}

/// The record of a device's answer, whose payload begins its bytes.
pub fn executed(response: &Responses, payload: &[u8]) -> String {
    match response {
        Responses::FloatData(view) => format!("FloatData {}", floats_words(view, payload, 0)),
        Responses::Read { addr, data } => {
            format!("Read {}{}", addr_words(*addr), values_words(data, payload, 0))
        }
        other => words(other, payload),
    }
}

pub fn id_words(id: &HardwareId) -> String {
    format!("{} {} {}", id.fw_major, id.fw_minor, id.hw_id)
}

/// The floats of a view that stand at `start`.
pub fn floats_words(view: &FloatView, packet: &[u8], start: usize) -> String {
    let bytes: Vec<u8> = view.data.iter().flat_map(|x| x.to_le_bytes()).collect();
    if packet.get(start..start + bytes.len()) != Some(&bytes) {
        return "elsewhere".to_string();
    }
    format!("{} {start} {}", view.base, view.data.len())
}

/// Values that stand one behind the other from `start` on.
pub fn values_words(values: &[Value], packet: &[u8], start: usize) -> String {
    let mut text = String::new();
    let mut at = start;
    for value in values {
        text += &format!(" {}", value_words(value, packet, at));
        at += value.clone().into_bytes().len();
    }
    text
}
