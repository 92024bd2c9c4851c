//! Prints what the real `serde_json` and `json`, and Rust's own reading of floats, make of each line of standard input, as
//! ports/ does. `-` stands for what they refuse, or in the place of a moment for what no crate of Debian reads.
use std::io::{BufRead, Write};

fn bytes(text: &str) -> Vec<u8> {
    let digits = |place| u8::from_str_radix(&text[place..place + 2], 16).unwrap();
    (0..text.len() / 2).map(|it| digits(2 * it)).collect()
}

fn value(bytes: &[u8]) -> String {
    let is_valid = std::str::from_utf8(bytes).map_or(false, |text| json::parse(text).is_ok());
    match serde_json::from_slice::<serde_json::Value>(bytes) {
        Ok(value) => format!("{is_valid} {value}"),
        Err(_) => format!("{is_valid} -"),
    }
}

fn number(bytes: &[u8]) -> String {
    match std::str::from_utf8(bytes).ok().and_then(|text| text.parse::<f64>().ok()) {
        Some(x) if x.is_nan() => "nan".to_string(),
        Some(x) => x.to_bits().to_string(),
        None => "-".to_string(),
    }
}

fn main() {
    let mut out = std::io::BufWriter::new(std::io::stdout().lock());
    for line in std::io::stdin().lock().lines() {
        let line = line.unwrap();
        let (kind, text) = line.split_once(' ').unwrap();
        let told = match kind {
            "J" => value(&bytes(text)),
            "F" => number(&bytes(text)),
            _ => "-".to_string(),
        };
        writeln!(out, "{told}").unwrap();
    }
}
