//! The one difference between answers that is intended (docs/DIFFERENCES.md): the port has one NaN in a
//! float that a caller holds, written 7FC00000, where the Rust keeps the NaN's payload.
use crate::answer::words::{bytes, hex, hex32, word32};

/// The port's one NaN.
pub const NAN: u32 = 0x7FC0_0000;

/// Before an answer of the Rust behind which a caller's NaN stands in the mock's settings.
pub const STORED: &str = "stored a NaN: ";

/// The NaNs that a request has for floats, but for the one: a float stands behind one of these words.
fn nans(request: &str) -> Vec<u32> {
    let words: Vec<&str> = request.split(' ').collect();
    words
        .windows(2)
        .filter(|pair| matches!(pair[0], "Float" | "float" | "SetVolume") && pair[1].len() == 8)
        .map(|pair| hex32(pair[1]))
        .filter(|&bits| f32::from_bits(bits).is_nan() && bits != NAN)
        .collect()
}

/// What the port is to answer where this is the Rust's answer.
pub fn expected(request: &str, rust: &str) -> String {
    let nans = nans(request);
    let verb = request.split(' ').next().unwrap();
    if nans.is_empty() {
        return rust.to_string();
    }
    if let Some(answer) = rust.strip_prefix(STORED) {
        return answer.to_string();
    }
    if verb.starts_with("encode") {
        return in_output(rust, &nans, verb.ends_with("_frame"));
    }
    let one = |word: &str| nans.iter().any(|&nan| word == word32(nan));
    rust.split(' ')
        .map(|word| if one(word) { word32(NAN) } else { word.to_string() })
        .collect::<Vec<_>>()
        .join(" ")
}

/// The same of an answer that shows what was written; a frame has another checksum then.
fn in_output(rust: &str, nans: &[u32], is_frame: bool) -> String {
    let (len, mut out) = match rust.split_once(' ').map(|(len, output)| (len.parse::<usize>(), output)) {
        Some((Ok(len), output)) => (len, bytes(output)),
        _ => return rust.to_string(),
    };
    for at in 3..len {
        let four = &mut out[at - 3..=at];
        if nans.iter().any(|nan| *four == nan.to_le_bytes()) {
            four.copy_from_slice(&NAN.to_le_bytes());
            if is_frame {
                out[len - 1] = out[..len - 1].iter().fold(0, |sum: u8, &b| sum.wrapping_add(b));
            }
        }
    }
    format!("{len} {}", hex(&out))
}
