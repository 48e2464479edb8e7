//! The peer of the benchmark: drops the request line, reads the text with serde_json and writes it compactly.
use std::io::{Read, Write};

fn main() {
    let mut input = String::new();
    std::io::stdin().read_to_string(&mut input).expect("text on standard input");
    let (_, text) = input.split_once('\n').expect("a request line");
    let value: serde_json::Value = serde_json::from_str(text).expect("JSON");
    let mut out = serde_json::to_string(&value).expect("text");
    out.push('\n');
    std::io::stdout().write_all(out.as_bytes()).expect("standard output");
}
