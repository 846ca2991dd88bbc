//! The Rust's side of the comparison.
//!
//! `driver parts` names the parts of the comparison; `driver generate PART SEED` writes a part's
//! requests; `driver answer` answers requests, a line each, as the port's program `bench` does;
//! `driver expect REQUESTS RUST` makes of the Rust's answers what the port is to answer, and `driver
//! check REQUESTS RUST PORT` compares that with the file of the port's.
mod answer;
mod check;
mod generate;
mod intended;

use std::io::{self, BufRead, BufWriter, Write};

fn main() {
    let args: Vec<String> = std::env::args().skip(1).collect();
    let words: Vec<&str> = args.iter().map(String::as_str).collect();
    let mut out = BufWriter::new(io::stdout().lock());
    match words.as_slice() {
        ["parts"] => generate::PARTS
            .iter()
            .for_each(|(name, _)| writeln!(out, "{name}").unwrap()),
        ["generate", part, seed] => {
            let seed = seed.parse().expect("a seed is a number");
            generate::part(part, seed, &mut out);
        }
        ["answer"] => {
            // A panic is an answer here, so nothing is said of it on standard error.
            std::panic::set_hook(Box::new(|_| {}));
            let mut rust = answer::Rust::default();
            for line in io::stdin().lock().lines() {
                writeln!(out, "{}", rust.answer(&line.unwrap())).unwrap();
            }
        }
        ["expect", requests, rust] => check::expect(requests, rust, &mut out),
        ["check", requests, rust, port] => {
            if !check::same(requests, rust, port, &mut out) {
                out.flush().unwrap();
                std::process::exit(1);
            }
        }
        _ => panic!("driver parts | generate PART SEED | answer | expect REQUESTS RUST | check REQUESTS RUST PORT"),
    }
    out.flush().unwrap();
}
