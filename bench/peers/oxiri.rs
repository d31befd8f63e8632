//! The job `read` by `oxiri`: it parses, and resolves with a test of the result. Its `==` compares characters, so the map has
//! keys by hand, which undo what other spellings of these inputs change: no dots.
#[path = "inputs.rs"]
mod inputs;

use inputs::{Digest, Hashes, Numbers, Text};
use oxiri::Iri;
use std::collections::HashMap;
use std::hash::Hasher;

fn digit(byte: u8) -> Option<u8> {
    (byte as char).to_digit(16).map(|it| it as u8)
}

/// The scheme in lower case, and escapes decoded.
fn key(text: String) -> String {
    let scheme = text.find(':').unwrap_or(0);
    if !text.contains('%') && !text[..scheme].contains(|it: char| it.is_ascii_uppercase()) {
        return text;
    }
    let mut bytes = Vec::with_capacity(text.len());
    let mut left = text.bytes().enumerate();
    while let Some((at, byte)) = left.next() {
        let escaped = text.as_bytes().get(at + 1..at + 3).and_then(|it| Some(digit(it[0])? << 4 | digit(it[1])?));
        bytes.push(match escaped {
            Some(decoded) if byte == b'%' => {
                left.nth(1);
                decoded
            }
            _ if at < scheme => byte.to_ascii_lowercase(),
            _ => byte,
        });
    }
    String::from_utf8(bytes).expect("UTF-8")
}

fn read(count: u64, seed: u64, digest: &mut Digest) {
    let prefixes: HashMap<&str, &str, Hashes> = inputs::namespaces().collect();
    let base = Iri::parse(inputs::base()).expect("no base");
    let offset = Numbers(seed).next() % 65_536;
    let mut seen: HashMap<String, u64, Hashes> = HashMap::default();
    let mut text = Text::new();
    for way in 0..3 {
        for item in 0..count {
            let text = text.item(way, item, offset);
            let iri = match way {
                0 => Iri::parse(text.to_owned()),
                1 => {
                    let (label, rest) = text.split_once(':').expect("no colon");
                    Iri::parse([prefixes[label], rest].concat())
                }
                _ => base.resolve(text),
            };
            let iri = iri.expect("no IRI").into_inner();
            digest.write(iri.as_bytes());
            digest.write_u64(*seen.entry(key(iri)).or_insert(item));
        }
    }
}

fn main() {
    inputs::run(&[("read", read)]);
}
