//! MemoryView and FloatView of commands.rs
use minidsp_protocol::commands::{ExtendView, FloatView, MemoryView};

use super::{
    fields::Lent,
    words::{byte, bytes, half, hex, number, refused, unwritten, word32, written_as},
};

pub fn answer(verb: &str, args: &[&str]) -> Option<String> {
    Some(match verb {
        "read_at" => read(args, |view, start| {
            let addr = half(args[4]);
            let part = view.read_at(addr, byte(args[5]))?;
            let start = start + (addr - view.base) as usize;
            Some(format!("{start} {} {}", part.len(), hex(part)))
        }),
        "read_u8" => read(args, |view, _| Some(view.read_u8(half(args[4]))?.to_string())),
        "read_u16" => read(args, |view, _| Some(view.read_u16(half(args[4]))?.to_string())),
        "get" => match floats(args) {
            Some(view) => word32(view.get(half(args[4])).to_bits()),
            None => refused(7),
        },
        "join_memory" => join_memory(args, number(args[8])),
        "join_floats" => join_floats(args, number(args[8])),
        _ => return None,
    })
}

/// The view of the words BYTES BASE START LEN, none where its place is outside its bytes: added.
pub fn memory(args: &[&str]) -> Option<MemoryView> {
    let bytes = bytes(args[0]);
    let mut lent = Lent { bytes: &bytes, outside: false };
    let data = lent.part(number(args[2]), number(args[3]));
    (!lent.outside).then(|| MemoryView { base: half(args[1]), data })
}

/// The same of BYTES BASE START COUNT.
fn floats(args: &[&str]) -> Option<FloatView> {
    let bytes = bytes(args[0]);
    let mut lent = Lent { bytes: &bytes, outside: false };
    let part = lent.part(number(args[2]), 4 * number(args[3]));
    let data = part
        .chunks_exact(4)
        .map(|four| f32::from_le_bytes(four.try_into().unwrap()))
        .collect();
    (!lent.outside).then(|| FloatView { base: half(args[1]), data })
}

fn read(args: &[&str], part: impl Fn(&MemoryView, usize) -> Option<String>) -> String {
    memory(args)
        .and_then(|view| part(&view, number(args[2])))
        .unwrap_or_else(|| "none".to_string())
}

/// Document 01's order is 7, then 15, where the Rust overflows, then 11, 6.
fn join_memory(args: &[&str], room: usize) -> String {
    let (mut view, other) = match (memory(args), memory(&args[4..])) {
        (Some(view), Some(other)) => (view, other),
        _ => return unwritten(7, room),
    };
    if view.extend_with(other).is_err() {
        return unwritten(11, room);
    }
    let joined = format!("{} 0 {}", view.base, view.data.len());
    written_as(&joined, &view.data, room)
}

fn join_floats(args: &[&str], room: usize) -> String {
    let (mut view, other) = match (floats(args), floats(&args[4..])) {
        (Some(view), Some(other)) => (view, other),
        _ => return unwritten(7, room),
    };
    if view.extend_with(other).is_err() {
        return unwritten(11, room);
    }
    let joined = format!("{} 0 {}", view.base, view.data.len());
    let bytes: Vec<u8> = view.data.iter().flat_map(|x| x.to_le_bytes()).collect();
    written_as(&joined, &bytes, room)
}
