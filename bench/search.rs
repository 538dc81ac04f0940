//! The searches of `tree_bench search` over one contiguous text, twice: by the standard library's `str::find`, begun again
//! one character past each match, and by a linear matcher with a failure table. `search flat|linear BYTES`.
use std::time::Instant;

fn long(bytes: usize) -> String {
    let mut text = String::new();
    let mut x = 1u64;
    while text.len() < bytes {
        x = x.wrapping_mul(6364136223846793005).wrapping_add(1442695040888963407);
        match (x >> 40) % 128 {
            0 => text.push_str("summary"),
            1..=7 => text.push_str("th"),
            8..=27 => text.push(' '),
            n => text.push((b'a' + (n % 26) as u8) as char),
        }
    }
    text
}

fn flat(text: &str, needle: &str) -> Vec<u64> {
    let mut found = Vec::new();
    let mut at = 0;
    while let Some(place) = text[at..].find(needle) {
        found.push((at + place) as u64);
        at += place + 1;
    }
    found
}

fn linear(text: &str, needle: &str) -> Vec<u64> {
    let (text, needle) = (text.as_bytes(), needle.as_bytes());
    let mut table = vec![0];
    let mut matched = 0;
    for &byte in &needle[1..] {
        while matched > 0 && needle[matched] != byte {
            matched = table[matched - 1];
        }
        matched += (needle[matched] == byte) as usize;
        table.push(matched);
    }
    let mut found = Vec::new();
    matched = 0;
    for (i, &byte) in text.iter().enumerate() {
        while matched > 0 && needle[matched] != byte {
            matched = table[matched - 1];
        }
        matched += (needle[matched] == byte) as usize;
        if matched == needle.len() {
            found.push((i + 1 - matched) as u64);
            matched = table[matched - 1];
        }
    }
    found
}

fn main() {
    let words: Vec<String> = std::env::args().collect();
    let bytes: usize = words[2].parse().unwrap();
    let search = |name: &str, text: &str, needle: &str| {
        let start = Instant::now();
        let found = if words[1] == "flat" { flat(text, needle) } else { linear(text, needle) };
        println!("{name} {} {}", found.len(), start.elapsed().as_micros());
    };
    let text = long(bytes);
    search("Absent", &text, "hapaxlegomenon");
    search("Rare", &text, "summary");
    search("Frequent", &text, "th");
    search("OneByte", &text, "q");
    let same = "a".repeat(bytes);
    search("Near", &same, "aaaaaaaaaaaaaaab");
    search("Each", &same, "aaaa");
    if words[1] == "linear" {
        search("Periodic", &same, &"a".repeat(4096));
    }
}
