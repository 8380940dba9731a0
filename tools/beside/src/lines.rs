//! Cases and answers as lines. A case is `SCAN START HEX`: the scan (`string`, `template` or
//! `resume`), the byte where its opening stands, and the text's bytes in hex (`-` for none). Its
//! answer stands behind it, as in crates/look_cases/data/cases.txt:
//!
//!     SCAN START HEX KIND END MARK UNITS FAULTS
//!     SCAN START HEX refused NUMBER
//!
//! - KIND is the kind's name, END the place behind the literal, MARK `escaped` or `plain`.
//! - UNITS are hex, joined by commas, `-` for an empty value. Of an escaped literal they are its
//!   entry's, or `none` where no value is cooked. A plain literal has no entry; they are those of
//!   the text between its delimiters. An unterminated one has no value at all: `absent`.
//! - FAULTS are `KIND:FROM:TO` joined by commas, KIND 1 unterminated or 2 invalid escape, or `-`.
//! - The Rust's scanners are never asked where it says refused: 2 not UTF-8, 3 a start at or past
//!   the end, 4 no such opening.

use crate::Allocator;
use crate::lexer::Kind;
use crate::reference::{Fault, Reading, Scan, closing, reference};
use std::io::{BufRead, Write};

fn hex(bytes: &[u8]) -> String {
    if bytes.is_empty() {
        "-".into()
    } else {
        bytes.iter().map(|b| format!("{b:02X}")).collect()
    }
}

fn unhex(word: &str) -> Vec<u8> {
    let digits: Vec<u8> = word
        .chars()
        .filter_map(|c| c.to_digit(16))
        .map(|d| d as u8)
        .collect();
    digits
        .chunks_exact(2)
        .map(|pair| pair[0] << 4 | pair[1])
        .collect()
}

fn joined(words: Vec<String>) -> String {
    if words.is_empty() {
        "-".into()
    } else {
        words.join(",")
    }
}

fn units_word(units: impl Iterator<Item = u16>) -> String {
    joined(units.map(|unit| format!("{unit:04X}")).collect())
}

fn faults_word(faults: &[Fault]) -> String {
    joined(
        faults
            .iter()
            .map(|f| format!("{}:{}:{}", f.kind, f.from, f.to))
            .collect(),
    )
}

fn value_word(text: &str, start: usize, reading: &Reading) -> String {
    match &reading.value {
        Some(Some(units)) => units_word(units.iter().copied()),
        Some(None) => "none".into(),
        None if reading.kind == Kind::Undetermined => "absent".into(),
        None => {
            let end = reading.end as usize - closing(reading.kind);
            units_word(text[start + 1..end].encode_utf16())
        }
    }
}

/// The words behind a case.
pub fn answer(text: &str, start: usize, reading: &Reading) -> String {
    assert_eq!(reading.escaped, reading.value.is_some());
    let mark = if reading.escaped { "escaped" } else { "plain" };
    let value = value_word(text, start, reading);
    let faults = faults_word(&reading.faults);
    format!("{:?} {} {mark} {value} {faults}", reading.kind, reading.end)
}

/// A case as a line's first three words.
pub fn case(text: &str, scan: Scan, start: usize) -> String {
    format!("{} {start} {}", scan.word(), hex(text.as_bytes()))
}

/// The Rust's answer to a case.
fn answered(memory: &mut Allocator, bytes: &[u8], scan: Scan, start: usize) -> String {
    let Ok(text) = str::from_utf8(bytes) else {
        return "refused 2".into();
    };
    match bytes.get(start) {
        None => "refused 3".into(),
        Some(&byte) if !scan.opens(byte) => "refused 4".into(),
        Some(_) => answer(text, start, &reference(memory, text, scan, start)),
    }
}

fn answered_line(memory: &mut Allocator, line: &str) -> String {
    let words: Vec<&str> = line.split(' ').collect();
    let [scan, start, text, ..] = words[..] else {
        panic!("a line is too short: {line}")
    };
    let scan = [Scan::Str, Scan::Template, Scan::Resumption]
        .into_iter()
        .find(|s| s.word() == scan)
        .expect("a scan");
    let told = answered(memory, &unhex(text), scan, start.parse().expect("a start"));
    format!("{} {} {} {told}", words[0], words[1], words[2])
}

/// Answers the cases on the standard input; words behind a case are passed over.
pub fn answer_all() -> bool {
    let mut memory = Allocator::new();
    let mut out = std::io::BufWriter::new(std::io::stdout().lock());
    for line in std::io::stdin().lock().lines() {
        let line = line.expect("a line");
        writeln!(out, "{}", answered_line(&mut memory, line.trim_end())).expect("written");
    }
    true
}

/// Holds the Rust against a file of answered cases. An unterminated literal has no value.
pub fn replay(path: &str) -> bool {
    let mut memory = Allocator::new();
    let cases = std::fs::read_to_string(path).expect("a file of cases");
    let (mut same, mut other, mut without) = (0u64, 0u64, 0u64);
    for line in cases.lines() {
        let told = answered_line(&mut memory, line);
        without += u64::from(told.contains(" absent "));
        if agree(line, &told) {
            same += 1;
        } else {
            other += 1;
            println!("expected {line}\n    told {told}");
        }
    }
    println!("{same} agree, {other} differ; {without} without a value to compare");
    other == 0
}

fn agree(expected: &str, told: &str) -> bool {
    let expected: Vec<&str> = expected.split(' ').collect();
    let told: Vec<&str> = told.split(' ').collect();
    let same = |i: usize| expected[i] == told[i] || told[i] == "absent";
    expected.len() == told.len() && (0..told.len()).all(same)
}
