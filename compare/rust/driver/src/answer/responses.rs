//! Responses and MasterStatus of commands.rs
use bytes::Bytes;
use minidsp_protocol::{
    commands::{FromMemory, MemoryView, ProtocolError, Responses, Value},
    MasterStatus,
};

use super::{
    answers::{floats_words, id_words, response, values, values_words, words},
    facts::device,
    fields::{value_words, Lent},
    outside, records,
    views::memory,
    words::{bytes, half, number, place, refused, word32, LONGEST},
};

pub fn answer(verb: &str, args: &[&str]) -> Option<String> {
    Some(match verb {
        "response" => read(&bytes(args[0])),
        "is" => is(&of(args)),
        "into" => into(args[0], of(&args[1..]), &args[1..]),
        "matches" => matches(args),
        "values" => values_at(args),
        "value_number" => value_number(args, number(args[1])),
        "status" => status(args),
        _ => return None,
    })
}

fn read(packet: &[u8]) -> String {
    if packet.len() > LONGEST {
        return outside(5);
    }
    match Responses::from_bytes(Bytes::copy_from_slice(packet)) {
        Ok(response) => words(&response, packet),
        Err(ProtocolError::DecodeError(_)) => refused(3),
        Err(_) => "(another error)".to_string(),
    }
}

/// Bytes for the places of a record that is not written: more than any place of a request reaches.
const BLANK: &[u8] = &[0; 4096];

fn of(record: &[&str]) -> Responses {
    let mut lent = Lent { bytes: BLANK, outside: false };
    let response = response(record, &mut lent);
    assert!(!lent.outside, "a place outside the blank");
    response
}

fn is(response: &Responses) -> String {
    [
        ("memory_view", response.is_memory_view()),
        ("float_view", response.is_float_view()),
        ("hardware_id", response.is_hardware_id()),
        ("ack", response.is_ack()),
        ("config_changed", response.is_config_changed()),
        ("fir_size", response.is_fir_size()),
    ]
    .map(|(kind, yes)| format!("{kind} {}", yes as u8))
    .join(" ")
}

/// What a response holds. A view stands where its record says.
fn into(kind: &str, response: Responses, record: &[&str]) -> String {
    let start = || number(record[2]);
    let done = |()| "done".to_string();
    let held = match kind {
        "memory_view" => response
            .into_memory_view()
            .map(|view| format!("{} {}", view.base, place(BLANK, start(), &view.data))),
        "float_view" => response
            .into_float_view()
            .map(|view| floats_words(&view, BLANK, start())),
        "hardware_id" => response.into_hardware_id().map(|id| id_words(&id)),
        "ack" => response.into_ack().map(done),
        "config_changed" => response.into_config_changed().map(done),
        "fir_size" => response.into_fir_size().map(|size| size.to_string()),
        _ => panic!("no such kind: {kind}"),
    };
    match held {
        Ok(held) => held,
        Err(ProtocolError::UnexpectedResponseType) => refused(12),
        Err(_) => "(another error)".to_string(),
    }
}

fn matches(args: &[&str]) -> String {
    let mut lent = Lent { bytes: BLANK, outside: false };
    let mut words = args.iter();
    let command = records::read(&mut words, &mut lent);
    assert!(!lent.outside, "a place outside the blank");
    (command.matches_response(&of(words.as_slice())) as u8).to_string()
}

/// The first value at a place outside the bytes is refused with 7: added.
fn values_at(args: &[&str]) -> String {
    let bytes = bytes(args[0]);
    let mut lent = Lent { bytes: &bytes, outside: false };
    let all = values(&mut args[1..].iter(), &mut lent);
    if lent.outside && number(args[3]) > 0 {
        return format!("{} {}", (number(args[3]) + 3) / 4, refused(7));
    }
    format!("{}{}", all.len(), values_words(&all, &bytes, start_of(&args[1..])))
}

fn value_number(args: &[&str], i: usize) -> String {
    let bytes = bytes(args[0]);
    let mut lent = Lent { bytes: &bytes, outside: false };
    let all: Vec<Value> = values(&mut args[2..].iter(), &mut lent);
    if lent.outside {
        return refused(7);
    }
    match all.get(i) {
        Some(value) => value_words(value, &bytes, start_of(&args[2..]) + 4 * i),
        None => refused(7),
    }
}

/// Where the values begin: the start of their place, where they have one.
fn start_of(values: &[&str]) -> usize {
    match values[0] {
        "Chunks" | "Unknown" => number(values[1]),
        _ => 0,
    }
}

/// A view whose place is outside its bytes holds nothing: added.
fn status(args: &[&str]) -> String {
    let none = || "none".to_string();
    let view = memory(&args[2..]).unwrap_or(MemoryView { base: half(args[3]), ..Default::default() });
    let status = MasterStatus::from_memory(&device(args), &view).unwrap();
    format!(
        "preset {} source {} volume {} mute {} dirac {}",
        status.preset.map_or_else(none, |n| n.to_string()),
        status.source.map_or_else(none, |source| format!("{source:?}")),
        status.volume.map_or_else(none, |gain| word32(gain.0.to_bits())),
        status.mute.map_or_else(none, |yes| (yes as u8).to_string()),
        status.dirac.map_or_else(none, |yes| (yes as u8).to_string()),
    )
}
