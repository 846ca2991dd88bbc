//! Commands and responses to packets and frames
use bytes::Bytes;
use minidsp_protocol::packet;

use super::{
    answers,
    fields::Lent,
    outside, records,
    words::{bytes, number, unwritten, written, LONGEST},
};

pub fn answer(verb: &str, args: &[&str]) -> Option<String> {
    Some(match verb {
        "encode" => encode(args, command, whole),
        "encode_frame" => encode(args, command, framed),
        "encode_response" => encode(args, response, whole),
        "encode_response_frame" => encode(args, response, framed),
        _ => return None,
    })
}

fn command(record: &[&str], lent: &mut Lent) -> Bytes {
    records::command(record, lent).to_bytes()
}

fn response(record: &[&str], lent: &mut Lent) -> Bytes {
    answers::response(record, lent).to_bytes()
}

pub fn whole(packet: &[u8]) -> Bytes {
    Bytes::copy_from_slice(packet)
}

pub fn framed(packet: &[u8]) -> Bytes {
    packet::frame(packet)
}

/// Document 01's order is 8, where the Rust panics, then 7, 5, 6. A place outside is added.
fn encode(
    args: &[&str],
    packet: fn(&[&str], &mut Lent) -> Bytes,
    finish: fn(&[u8]) -> Bytes,
) -> String {
    let payload = bytes(args[0]);
    let room = number(args[1]);
    let mut lent = Lent { bytes: &payload, outside: false };
    let packet = packet(&args[2..], &mut lent);
    if lent.outside {
        return unwritten(7, room);
    }
    if packet.len() > LONGEST {
        return outside(5);
    }
    written(&finish(&packet), room)
}
