//! What the numbers mean, from the header.

use std::collections::HashMap;
use std::sync::OnceLock;

const HEADER: &str = include_str!("../../../include/spargolutta.h");

/// The header's texts, by its own table of names.
fn texts() -> HashMap<u32, &'static str> {
    let mut numbers = HashMap::new();
    for line in HEADER.lines().filter_map(|line| line.trim().strip_prefix("SPG_")) {
        if let Some((name, rest)) = line.split_once(" = ") {
            let digits: String = rest.chars().take_while(char::is_ascii_digit).collect();
            if let Ok(number) = digits.parse::<u32>() {
                numbers.insert(name, number);
            }
        }
    }
    let texts = HEADER.lines().filter_map(|line| line.trim().strip_prefix("case SPG_"));
    let texts = texts.filter_map(|line| line.split_once(": return \""));
    texts.map(|(name, rest)| (numbers[name], rest.trim_end_matches("\";"))).collect()
}

/// What a place is (0 none, 1 side, 2 vertex, 3 byte, 4 bytes needed, 5 position, 6 as the call says), and the text.
pub fn meaning(number: u32) -> (u32, &'static str) {
    static TEXTS: OnceLock<HashMap<u32, &'static str>> = OnceLock::new();
    let texts = TEXTS.get_or_init(texts);
    assert_eq!(texts.len(), 30);
    let kind = match number {
        3 | 13 | 14 | 16 | 35 => 1,
        11 | 12 => 2,
        20..=24 | 30 | 36 => 3,
        25 | 27 => 4,
        31 | 33 => 5,
        0 => 6,
        _ => 0,
    };
    (kind, texts.get(&number).copied().unwrap_or("unknown number"))
}
