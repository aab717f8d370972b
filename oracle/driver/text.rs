// What an input and an answer look like in words, for the calls on a window.

use crate::window::Window;

pub fn hex(bytes: &[u8]) -> String {
    if bytes.is_empty() {
        return "-".into();
    }
    let digits: String = bytes.iter().take(80).map(|byte| format!("{byte:02x}")).collect();
    if bytes.len() > 80 { format!("{digits}... ({} bytes)", bytes.len()) } else { digits }
}

/// An answer's first seven words.
pub fn words(words: [u64; 7]) -> String {
    let [number, a, b, c, start, position, length] = words;
    let answer = match number {
        0 => format!("value words {a}, {b}, {c}"),
        1 => format!("refusal 1, too few bits: position {a}, length {b}, requested {c}"),
        2 => format!("refusal 2, fifth packed byte continues: start {a}, rest {b}, {c}"),
        3 => format!("refusal 3, fifth chunk above 15: start {a}, rest {b}, {c}"),
        4 => format!("refusal 4, serialized maximum 0: maximum {a}, rest {b}, {c}"),
        5 => format!("refusal 5, window longer than its data or target short: requested {a}, available {b}, rest {c}"),
        6 => format!("refusal 6, width above 64: width {a}, rest {b}, {c}"),
        7 => format!("refusal 7, data too long: length {a}, rest {b}, {c}"),
        14 => format!("refusal 14, record list full: position {a}, rest {b}, {c}"),
        15 => format!("refusal 15, function count 0: rest {a}, {b}, {c}"),
        _ => format!("word 0 is {number}; then {a}, {b}, {c}"),
    };
    format!("{answer}; window then start {start}, position {position}, length {length}")
}

pub fn data(bytes: &[u8]) -> String {
    format!("  data      {} ({} bytes)\n", hex(bytes), bytes.len())
}

pub fn window([start, position, length]: Window) -> String {
    format!("  window    start {start}, position {position}, length {length}\n")
}

pub fn damage(what: Option<&str>) -> String {
    what.map_or(String::new(), |what| format!("; DAMAGED: {what}"))
}

/// How often each named thing was met.
pub fn met(what: &str, names: &[&str], counts: &[u64]) {
    let list: Vec<_> = names.iter().zip(counts).map(|(name, count)| format!("{name} {count}")).collect();
    println!("{what} with: {}", list.join(", "));
}

/// That none was missed.
pub fn assert_met(what: &str, names: &[&str], counts: &[u64]) {
    for (name, count) in names.iter().zip(counts) {
        assert!(*count > 0, "{what} with {name}: none was met");
    }
}
