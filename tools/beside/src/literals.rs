//! Random literals: good ones, damaged copies of them, and mere mixtures.

use crate::reference::Scan;
use crate::seeded::Seeded;
use crate::texts::{ALPHABET, ESCAPES};

const PLAIN: [&str; 10] = ["a", "b", " ", "0", "F", "é", "€", "😀", "\u{2028}", "{"];
const EITHER: [&str; 18] = [
    "\\n",
    "\\t",
    "\\\\",
    "\\'",
    "\\\"",
    "\\`",
    "\\$",
    "\\é",
    "\\\n",
    "\\\r\n",
    "\\\u{2029}",
    "\\x41",
    "\\xe9",
    "\\u0041",
    "\\u{1F600}",
    "\\u{00000a}",
    "\\uD83D\\uDE00",
    "\\uD83D",
];
const STRINGS: [&str; 8] = ["\\0", "\\07", "\\377", "\\477", "\\8", "`", "${", "}"];
const TEMPLATES: [&str; 12] = [
    "\\0",
    "\r",
    "\n",
    "\r\n",
    "$",
    "\"",
    "'",
    "\\u{110000}",
    "\\07",
    "\\9",
    "\\x4",
    "\\u{",
];

/// A literal with nothing wrong in it; a template may have escapes that leave it without a value.
pub fn good(seeded: &mut Seeded, scan: Scan, opening: &str) -> String {
    let mut text = String::from(opening);
    let own: &[&str] = if scan == Scan::Str {
        &STRINGS
    } else {
        &TEMPLATES
    };
    let (size, rare) = (seeded.below(70), 1 + seeded.below(12));
    while text.len() < size {
        let piece = match seeded.below(rare) {
            0 if seeded.below(3) == 0 => seeded.of(own),
            0 => seeded.of(&EITHER),
            _ => seeded.of(&PLAIN),
        };
        // no `${` by chance in a template
        if !(scan != Scan::Str && text.ends_with('$') && piece == "{") {
            text.push_str(piece);
        }
    }
    text.push_str(match scan {
        Scan::Str => opening,
        _ if seeded.below(2) == 0 => "`",
        _ => "${",
    });
    text
}

/// A boundary between characters, behind the opening.
fn boundary(seeded: &mut Seeded, text: &str) -> usize {
    text.ceil_char_boundary(1 + seeded.below(text.len()))
}

/// A copy with one damage behind the opening: something taken away, put in, exchanged, doubled or
/// cut off.
pub fn damaged(seeded: &mut Seeded, text: &str) -> String {
    let (one, other) = (boundary(seeded, text), boundary(seeded, text));
    let (from, to) = (one.min(other), one.max(other));
    let next = text.ceil_char_boundary((from + 1).min(text.len()));
    let letter = seeded.of(&ALPHABET);
    match seeded.below(7) {
        0 => format!("{}{}", &text[..from], &text[next..]),
        1 => format!("{}{letter}{}", &text[..from], &text[next..]),
        2 => format!("{}{letter}{}", &text[..from], &text[from..]),
        3 => format!("{}\\{}", &text[..from], &text[from..]),
        4 if text.len() < 200 => format!("{}{}", &text[..to], &text[from..]),
        5 => format!("{}{}", &text[..from], &text[to..]),
        _ => format!("{}{letter}", &text[..to]),
    }
}

/// Letters and escapes in a row.
pub fn mixed(seeded: &mut Seeded, most: usize) -> String {
    let mut text = String::new();
    for _ in 0..seeded.below(most + 1) {
        if seeded.below(3) == 0 {
            text.push('\\');
            text.push_str(seeded.of(&ESCAPES));
        } else {
            text.push_str(seeded.of(&ALPHABET));
        }
    }
    text
}
