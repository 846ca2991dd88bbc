//! Compares the port's answers with the Rust's, answer by answer.
use std::{
    collections::BTreeMap,
    fs::File,
    io::{BufRead, BufReader, Write},
};

use crate::{answer::OUTSIDE, intended};

/// How many differences are shown.
const SHOWN: usize = 20;

fn opened(path: &str) -> BufReader<File> {
    BufReader::new(File::open(path).unwrap_or_else(|e| panic!("{path}: {e}")))
}

/// The next line. One without its end is none: whoever wrote it was cut short.
fn next(file: &mut BufReader<File>) -> Option<String> {
    let mut line = String::new();
    file.read_line(&mut line).unwrap();
    line.strip_suffix('\n').map(str::to_string)
}

/// A refusal with this number, and an output that is as it was lent.
fn is_refusal(found: &str, number: &str) -> bool {
    let mut words = found.split(' ');
    words.next() == Some("refused")
        && words.next() == Some(number)
        && words.all(|output| output == "-" || output.bytes().all(|digit| digit == b'E'))
}

/// How often the port's answer is not the Rust's, by what it is then.
#[derive(Default)]
struct Met(BTreeMap<String, usize>);

impl Met {
    /// Where the Rust has an answer the port's is the same but for the intended difference; where it has
    /// none the port refuses.
    fn agree(&mut self, request: &str, rust: &str, found: &str) -> bool {
        let verb = request.split(' ').next().unwrap();
        if let Some(number) = rust.strip_prefix(OUTSIDE) {
            let number = number.trim();
            self.count(format!("outside the domain: {verb}: refused {number}"));
            return is_refusal(found, number);
        }
        let expected = intended::expected(request, rust);
        if expected != rust {
            self.count(format!("one NaN, as intended: {verb}"));
        }
        expected == found
    }

    fn count(&mut self, what: String) {
        *self.0.entry(what).or_default() += 1;
    }
}

/// The Rust's answers with the intended difference.
pub fn expect(requests: &str, rust: &str, out: &mut impl Write) {
    let [mut requests, mut rust] = [requests, rust].map(opened);
    while let (Some(request), Some(rust)) = (next(&mut requests), next(&mut rust)) {
        writeln!(out, "{}", intended::expected(&request, &rust)).unwrap();
    }
}

/// Every request has an answer of each side, the two agree, and there is nothing behind.
pub fn same(requests: &str, rust: &str, port: &str, out: &mut impl Write) -> bool {
    let [mut requests, mut rust, mut port] = [requests, rust, port].map(opened);
    let (mut compared, mut differences) = (0, 0);
    let mut met = Met::default();
    while let Some(request) = next(&mut requests) {
        compared += 1;
        let (expected, found) = (next(&mut rust), next(&mut port));
        let agree = match (&expected, &found) {
            (Some(expected), Some(found)) => met.agree(&request, expected, found),
            _ => false,
        };
        if !agree {
            differences += 1;
            if differences <= SHOWN {
                let [expected, found] =
                    [expected, found].map(|said| said.unwrap_or("(nothing)".to_string()));
                writeln!(out, "request {request}\n  Rust {expected}\n  port {found}").unwrap();
            }
        }
    }
    let more = [rust, port].iter_mut().any(|file| !file.fill_buf().unwrap().is_empty());
    if more {
        writeln!(out, "more answers than requests").unwrap();
    }
    for (what, count) in met.0 {
        writeln!(out, "{what}, {count} times").unwrap();
    }
    writeln!(out, "{compared} requests, {differences} differences").unwrap();
    differences == 0 && !more && compared > 0
}
