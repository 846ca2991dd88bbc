//! The words of requests and answers.

/// What the bench fills an output with before it lends it.
const FILL: u8 = 0xEE;

/// The longest packet of document 01's domain.
pub const LONGEST: usize = 254;

/// The answer of a function that writes `result` to an output of `room` bytes. The refusal for want
/// of room is added: the Rust's outputs grow.
pub fn written(result: &[u8], room: usize) -> String {
    written_as(&result.len().to_string(), result, room)
}

/// The same, where `answer` stands for what was written.
pub fn written_as(answer: &str, result: &[u8], room: usize) -> String {
    let mut lent = vec![FILL; room];
    if room < result.len() {
        return unwritten(6, room);
    }
    lent[..result.len()].copy_from_slice(result);
    format!("{answer} {}", hex(&lent))
}

/// A refusal, and the output as it was lent.
pub fn unwritten(number: u8, room: usize) -> String {
    format!("{} {}", refused(number), untouched(room))
}

/// An output as it was lent.
pub fn untouched(room: usize) -> String {
    hex(&vec![FILL; room])
}

pub fn refused(number: u8) -> String {
    format!("refused {number}")
}

pub fn word32(word: u32) -> String {
    format!("{word:08X}")
}

pub fn hex32(word: &str) -> u32 {
    u32::from_str_radix(word, 16).unwrap()
}

pub fn number(word: &str) -> usize {
    word.parse().unwrap()
}

pub fn half(word: &str) -> u16 {
    word.parse().unwrap()
}

pub fn byte(word: &str) -> u8 {
    word.parse().unwrap()
}

pub fn bit(word: &str) -> bool {
    byte(word) == 1
}

pub fn float(word: &str) -> f32 {
    f32::from_bits(hex32(word))
}

pub fn hex(bytes: &[u8]) -> String {
    if bytes.is_empty() {
        return "-".to_string();
    }
    const DIGITS: &[u8; 16] = b"0123456789ABCDEF";
    let mut text = String::with_capacity(2 * bytes.len());
    for byte in bytes {
        text.push(DIGITS[(byte >> 4) as usize] as char);
        text.push(DIGITS[(byte & 15) as usize] as char);
    }
    text
}

pub fn bytes(word: &str) -> Vec<u8> {
    if word == "-" {
        return Vec::new();
    }
    (0..word.len() / 2)
        .map(|i| u8::from_str_radix(&word[2 * i..2 * i + 2], 16).unwrap())
        .collect()
}

/// The place where `part` stands in `whole`, which is to be at `start`.
pub fn place(whole: &[u8], start: usize, part: &[u8]) -> String {
    if whole.get(start..start + part.len()) != Some(part) {
        return "elsewhere".to_string();
    }
    format!("{start} {}", part.len())
}
