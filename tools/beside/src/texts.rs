//! The texts on which the readers are held against each other, in parts.

use crate::literals::{damaged, good, mixed};
use crate::reference::Scan;
use crate::seeded::Seeded;

pub type Visit<'a> = dyn FnMut(&str, Scan, usize) + 'a;

/// How many letters the words of an alphabet have, and how many random texts there are.
#[derive(Clone, Copy)]
pub struct Limits {
    pub depth: u64,
    pub rounds: u64,
    pub seed: u64,
}

pub type Part = (&'static str, fn(Limits, &mut Visit));

pub const PARTS: [Part; 9] = [
    ("listed", listed),
    ("short", short),
    ("behind a backslash", behind_a_backslash),
    ("braces", braces),
    ("pairs", pairs),
    ("batches", batches),
    ("lengths", lengths),
    ("random", random),
    ("damaged", damages),
];

/// A scan, its opening and its closing.
pub const OPENINGS: [(Scan, &str, &str); 4] = [
    (Scan::Str, "\"", "\""),
    (Scan::Str, "'", "'"),
    (Scan::Template, "`", "`"),
    (Scan::Resumption, "}", "`"),
];

pub const ALPHABET: [&str; 28] = [
    "\"", "'", "`", "\\", "$", "{", "}", "u", "x", "0", "1", "3", "4", "7", "8", "9", "D", "C",
    "a", "f", "n", "\n", "\r", " ", "é", "€", "\u{2028}", "😀",
];

/// Escapes, good and bad, without their backslash.
#[rustfmt::skip]
pub const ESCAPES: [&str; 62] = [
    "0", "1", "7", "8", "9", "07", "08", "37", "377", "378", "400", "47", "477",
    "x", "x4", "x41", "x4g", "u", "u1", "u12", "u123", "u0041", "ug",
    "u{", "u{}", "u{41", "u{41}", "u{D83D}", "u{10FFFF}", "u{110000}", "u{1100000}", "u{110000",
    "uD83D", "uDE00", "uD83D\\uDE00", "uD83D\\u0041", "uD83D\\uD83D\\uDE00", "uD83D\\u",
    "uD83D\\uDE0", "uD83D\\u{DE00}", "b", "f", "n", "r", "t", "v", "'", "\"", "\\", "`", "$", "{",
    "${", "a", "é", "€", "😀", "\n", "\r", "\r\n", "\u{2028}", "\u{2029}",
];

/// Every word of at most `depth` letters behind what `text` holds.
fn words(text: &mut String, letters: &[&str], depth: u64, visit: &mut dyn FnMut(&str)) {
    visit(text);
    if depth == 0 {
        return;
    }
    let size = text.len();
    for letter in letters {
        text.push_str(letter);
        words(text, letters, depth - 1, visit);
        text.truncate(size);
    }
}

/// What docs/LITERALS.md and docs/DIFFERENCES.md name, and runs of `$`.
fn listed(_: Limits, visit: &mut Visit) {
    let dollars = "$".repeat(1000);
    for (scan, opening, closing) in OPENINGS {
        for inside in [
            "",
            "\\u{1100000}",
            "\\uD83D\\uDE00",
            "a\\x41",
            "\\08",
            "\\477",
            "ab\n",
            "ab\r",
            "a\r\nb",
            "\\",
            &dollars,
        ] {
            visit(&format!("{opening}{inside}{closing}"), scan, 0);
            visit(&format!("{opening}{inside}${{"), scan, 0);
            visit(&format!("{opening}{inside}"), scan, 0);
        }
    }
}

fn short(limits: Limits, visit: &mut Visit) {
    for (scan, opening, _) in OPENINGS {
        words(&mut opening.into(), &ALPHABET, limits.depth, &mut |text| {
            visit(text, scan, 0)
        });
    }
}

fn behind_a_backslash(limits: Limits, visit: &mut Visit) {
    for (scan, opening, _) in OPENINGS {
        words(
            &mut format!("{opening}\\"),
            &ALPHABET,
            limits.depth,
            &mut |text| visit(text, scan, 0),
        );
    }
}

/// Digits in braces, around the greatest code point and the surrogates.
fn braces(limits: Limits, visit: &mut Visit) {
    for (scan, opening, closing) in OPENINGS {
        let letters = ["0", "1", "8", "D", "f", "}", closing, "\\", "g"];
        for begun in ["", "1", "10", "10FFF", "000010FF", "11000", "D7FF", "DFF"] {
            let mut text = format!("{opening}\\u{{{begun}");
            words(&mut text, &letters, limits.depth + 1, &mut |text| {
                visit(text, scan, 0)
            });
        }
    }
}

/// What stands behind a half of a surrogate pair, or beside one.
fn pairs(limits: Limits, visit: &mut Visit) {
    for (scan, opening, closing) in OPENINGS {
        let letters = [
            "\\u", "\\", "u", "{", "}", "D", "8", "c", "0", "DC00", "dfff", "D83D", "DE0", closing,
        ];
        for half in [
            "D83D", "D800", "dbff", "DC00", "DFFF", "D7FF", "E000", "0041", "{D83D}",
        ] {
            let mut text = format!("{opening}\\u{half}");
            words(&mut text, &letters, limits.depth, &mut |text| {
                visit(text, scan, 0)
            });
        }
    }
}

/// So many bytes of a character, filled up with `a`.
fn plain(size: usize, filler: &str) -> String {
    let mut text = filler.repeat(size / filler.len());
    text.extend(std::iter::repeat_n('a', size - text.len()));
    text
}

/// Plain beginnings of every length to 70 bytes, with what may stop a search behind them, and texts
/// of several lengths behind the literal, so that batches of 32 bytes begin and end everywhere.
fn batches(_: Limits, visit: &mut Visit) {
    let before = ["", "x", "é", "\"`", "}\\"];
    for (scan, opening, closing) in OPENINGS {
        for size in 0..=70 {
            for filler in ["a", "é", "€", "😀"] {
                let head = format!("{}{opening}{}", before[size % 5], plain(size, filler));
                for escape in ESCAPES.iter().flat_map(|&e| [(e, "\\"), (e, "")]) {
                    for behind in [0, 1, 31, 32, 33, 64] {
                        let text = format!(
                            "{head}{}{}{closing}{}",
                            escape.1,
                            escape.0,
                            "b".repeat(behind)
                        );
                        visit(&text, scan, before[size % 5].len());
                    }
                }
            }
        }
    }
}

/// Random texts whose length is at or around a multiple of 32 bytes: plain for the most part, with
/// letters and escapes.
fn lengths(limits: Limits, visit: &mut Visit) {
    let mut seeded = Seeded(limits.seed);
    for _ in 0..limits.rounds {
        let (scan, opening, closing) = seeded.of(&OPENINGS);
        let size = seeded.of(&[30, 62, 94, 126]) + seeded.below(5);
        let mut text = String::from(opening);
        let rare = 2 + seeded.below(60);
        while text.len() < size - 1 {
            let piece = match seeded.below(rare) {
                0 => mixed(&mut seeded, 1),
                _ => seeded.of(&["a", "b", " ", "é", "€", "😀"]).into(),
            };
            text.push_str(if text.len() + piece.len() < size {
                &piece
            } else {
                "a"
            });
        }
        text.push_str(if seeded.below(3) == 0 { "a" } else { closing });
        visit(&text, scan, 0);
    }
}

/// Random texts of escapes and letters, at random starts.
fn random(limits: Limits, visit: &mut Visit) {
    let mut seeded = Seeded(limits.seed ^ 1);
    for _ in 0..limits.rounds {
        let (scan, opening, closing) = seeded.of(&OPENINGS);
        let mut text = mixed(&mut seeded, 4);
        let start = text.len();
        text.push_str(opening);
        text.push_str(&mixed(&mut seeded, 24));
        text.push_str(if seeded.below(2) == 0 { closing } else { "" });
        visit(&text, scan, start);
    }
}

/// Good literals, and copies of each with one damage after the other.
fn damages(limits: Limits, visit: &mut Visit) {
    let mut seeded = Seeded(limits.seed ^ 2);
    for _ in 0..limits.rounds / 8 {
        let (scan, opening, _) = seeded.of(&OPENINGS);
        let mut text = good(&mut seeded, scan, opening);
        visit(&text, scan, 0);
        for _ in 0..7 {
            text = damaged(&mut seeded, &text);
            visit(&text, scan, 0);
        }
    }
}
