//! Answers requests of the program `bench` from the Rust. docs/BENCH.md describes the language.
mod answers;
mod commands;
mod device;
mod encoding;
mod facts;
mod fields;
mod numbers;
mod packet;
mod records;
mod responses;
mod saves;
mod views;
pub mod words;

use std::panic::{catch_unwind, AssertUnwindSafe};

/// What the Rust has no answer for: it panics or overflows, or document 01 leaves it out of the
/// domain of the comparison. The port refuses there, with document 01's number.
pub const OUTSIDE: &str = "outside";

fn outside(number: u8) -> String {
    format!("{OUTSIDE} {number}")
}

/// Document 01's number for the one panic of the Rust that a verb can meet, 0 where there is none.
fn at_panic(verb: &str) -> u8 {
    match verb {
        "addr" | "encode_addr" | "encode" | "encode_frame" | "encode_response"
        | "encode_response_frame" => 8,
        "command" => 4,
        "get" => 7,
        "join_memory" | "join_floats" => 15,
        _ => 0,
    }
}

#[derive(Default)]
pub struct Rust {
    device: device::Processor,
}

impl Rust {
    pub fn answer(&mut self, line: &str) -> String {
        if line.is_empty() || line.starts_with('#') {
            return line.to_string();
        }
        let words: Vec<&str> = line.split_whitespace().collect();
        catch_unwind(AssertUnwindSafe(|| self.by_verb(words[0], &words[1..])))
            .unwrap_or_else(|_| outside(at_panic(words[0])))
    }

    /// Each part is asked in turn whether the verb is its own.
    fn by_verb(&mut self, verb: &str, args: &[&str]) -> String {
        packet::answer(verb, args)
            .or_else(|| numbers::answer(verb, args))
            .or_else(|| fields::answer(verb, args))
            .or_else(|| commands::answer(verb, args))
            .or_else(|| encoding::answer(verb, args))
            .or_else(|| facts::answer(verb, args))
            .or_else(|| views::answer(verb, args))
            .or_else(|| responses::answer(verb, args))
            .or_else(|| self.device.answer(verb, args))
            .unwrap_or_else(|| "(no such request)".to_string())
    }
}
