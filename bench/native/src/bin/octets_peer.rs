//! The peer of octet strings: drops the request line, reads the text with serde_json, its digits with hex, and writes
//! both again.
use std::io::{Read, Write};

fn main() {
    let mut input = String::new();
    std::io::stdin().read_to_string(&mut input).expect("text on standard input");
    let (_, text) = input.split_once('\n').expect("a request line");
    let digits: String = serde_json::from_str(text).expect("a JSON string");
    let octets = hex::decode(digits).expect("pairs of digits");
    let mut out = serde_json::to_string(&hex::encode_upper(octets)).expect("text");
    out.push('\n');
    std::io::stdout().write_all(out.as_bytes()).expect("standard output");
}
