//! Times the Rust's scanners and this repository's on the same inputs, in one process and in turns;
//! the best of several runs counts. The Rust takes a text that is UTF-8 already and the library
//! checks it, so the Rust is timed twice: alone, and with the check of its standard library.

use crate::Allocator;
use crate::ours::{self, Ours, Plan};
use crate::reference::{Scan, lexer};
use std::hint::black_box;
use std::time::Instant;

const WHOLE: usize = 16_777_216;
const MANY: usize = 100_000;
const ENTRIES: usize = 4_096;
const ROUNDS: usize = 15;
/// The inside of an escaped string of 20 bytes.
const SHORT: &str = "abcdefgh\\nabcdefgh";
const ROUND_SECONDS: f64 = 0.01;

struct Input {
    name: &'static str,
    text: String,
    starts: Vec<(Scan, usize)>,
}

/// So many copies of a literal of that inside, a space behind each.
fn copies(name: &'static str, scan: Scan, inside: &str, many: usize) -> Input {
    let delimiter = if scan == Scan::Str { '"' } else { '`' };
    let text = format!("{delimiter}{inside}{delimiter} ").repeat(many);
    let starts = (0..many).map(|i| (scan, i * (inside.len() + 3)));
    Input {
        name,
        starts: starts.collect(),
        text,
    }
}

/// So many bytes out of copies of a piece.
fn bytes(piece: &str, many: usize) -> String {
    let text = piece.repeat(many / piece.len());
    let rest = "a".repeat(many - text.len());
    text + &rest
}

/// Lengths in the names are those of whole literals.
fn plain_inputs() -> Vec<Input> {
    let multi = "é€😀";
    vec![
        copies("plain string, 16 MB", Scan::Str, &bytes("a", WHOLE - 3), 1),
        copies("plain strings, 14 bytes", Scan::Str, &bytes("a", 12), MANY),
        copies("plain strings, 43 bytes", Scan::Str, &bytes("a", 41), MANY),
        copies(
            "multi-byte strings, 43 bytes",
            Scan::Str,
            &bytes(multi, 41),
            MANY,
        ),
        copies(
            "multi-byte string, 16 MB",
            Scan::Str,
            &bytes(multi, WHOLE - 3),
            1,
        ),
        copies(
            "plain templates, 43 bytes",
            Scan::Template,
            &bytes("a", 41),
            MANY,
        ),
    ]
}

fn escaped_inputs() -> Vec<Input> {
    let dense = "\\n\\x41\\u0042\\t\\u{43}".repeat(5);
    let sparse = (bytes("a", 62) + "\\n").repeat(3);
    let lines = (bytes("a", 30) + "\r\n").repeat(6);
    let pairs = "\\uD83D\\uDE00".repeat(8);
    vec![
        copies("escaped strings, 20 bytes", Scan::Str, SHORT, ENTRIES),
        copies("escaped strings, sparse", Scan::Str, &sparse, ENTRIES),
        copies("escaped strings, dense", Scan::Str, &dense, ENTRIES),
        copies("surrogate pairs", Scan::Str, &pairs, ENTRIES),
        copies("templates, CR LF", Scan::Template, &lines, ENTRIES),
        copies("templates, dense escapes", Scan::Template, &dense, ENTRIES),
        copies("session of 16", Scan::Str, SHORT, 16),
        copies("session of 256", Scan::Str, SHORT, 256),
        copies("session of 4,096", Scan::Str, SHORT, 4_096),
    ]
}

/// The Rust's scans of a text; the sum of the ends.
fn scanned(memory: &mut Allocator, text: &str, starts: &[(Scan, usize)]) -> u64 {
    memory.reset();
    let mut lexer = lexer(memory, text);
    let sum = starts
        .iter()
        .map(|&(scan, start)| u64::from(lexer.scan(scan, start).end()))
        .sum();
    black_box(&lexer.escaped_strings);
    sum
}

fn seconds(times: usize, run: &mut dyn FnMut() -> u64) -> f64 {
    let begun = Instant::now();
    for _ in 0..times {
        black_box(run());
    }
    begun.elapsed().as_secs_f64() / times as f64
}

/// The best time of each run, in seconds; all must answer the same.
fn best<const N: usize>(mut runs: [&mut dyn FnMut() -> u64; N]) -> [f64; N] {
    let answers: Vec<u64> = runs.iter_mut().map(|run| run()).collect();
    assert!(
        answers.iter().all(|&answer| answer == answers[0]),
        "different answers: {answers:?}"
    );
    let times: Vec<usize> = runs
        .iter_mut()
        .map(|run| (ROUND_SECONDS / seconds(1, run)).ceil() as usize)
        .collect();
    let mut best = [f64::MAX; N];
    for _ in 0..ROUNDS {
        for i in 0..N {
            best[i] = best[i].min(seconds(times[i], runs[i]));
        }
    }
    best
}

fn time_scans(input: &Input) {
    let (mut memory, mut checked) = (Allocator::new(), Allocator::new());
    let mut plan = Plan::new(input.text.as_bytes(), &input.starts);
    let [rust, whole, ours] = best([
        &mut || scanned(&mut memory, black_box(&input.text), &input.starts),
        &mut || {
            let text = str::from_utf8(black_box(input.text.as_bytes())).expect("a text");
            scanned(&mut checked, text, &input.starts)
        },
        &mut || plan.run(),
    ]);
    let each = 1e9 / input.starts.len() as f64;
    println!(
        "{:<38} {:>14.1} {:>14.1} {:>14.1} {:>8.2} {:>8.2}",
        input.name,
        rust * each,
        whole * each,
        ours * each,
        ours / rust,
        ours / whole
    );
}

fn time_checks(name: &str, piece: &str) {
    let text = piece.repeat(WHOLE / piece.len());
    let mut ours = Ours::new();
    let [rust, other] = best([
        &mut || u64::from(str::from_utf8(black_box(text.as_bytes())).is_ok()),
        &mut || u64::from(ours.check(black_box(text.as_bytes()))),
    ]);
    let rate = text.len() as f64 / 1e9;
    println!(
        "{name:<38} {:>14.2} {:>14} {:>14.2} {:>8.2}",
        rate / rust,
        "",
        rate / other,
        other / rust
    );
}

pub fn bench() -> bool {
    println!("the Rust against {}", ours::NAME);
    println!(
        "{:<38} {:>14} {:>14} {:>14} {:>8} {:>8}",
        "ns a literal", "Rust", "Rust and check", "ours", "ratio", "checked"
    );
    plain_inputs().iter().for_each(time_scans);
    escaped_inputs().iter().for_each(time_scans);
    println!(
        "{:<38} {:>14} {:>14} {:>14} {:>8}",
        "GB a second", "Rust", "", "ours", "ratio"
    );
    time_checks("UTF-8 check, ASCII", "abcdefghijklmno ");
    time_checks("UTF-8 check, two bytes", "é");
    time_checks("UTF-8 check, three bytes", "€");
    time_checks("UTF-8 check, four bytes", "😀");
    time_checks("UTF-8 check, mixed", "abc é def € ghi 😀");
    true
}
