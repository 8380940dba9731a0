//! The string and template scanners of oxc_parser 0.156.0, built from that crate's own files, and
//! what is held against them. The files come in at build time (build.sh); none is kept here.
//!
//!     beside answers < CASES           answers cases as the Rust does (the lines: lines.rs)
//!     beside replay FILE               holds the Rust against a file of cases with answers
//!     beside compare [DEPTH] [ROUNDS]  holds this repository's reader against the Rust
//!     beside sample [MANY] [SEED]      writes cases with the Rust's answers
//!     beside bench                     times both

// This crate stands in for every crate that the lexer's files name.
extern crate self as memchr;
extern crate self as oxc_allocator;
extern crate self as oxc_ast;
extern crate self as oxc_data_structures;
extern crate self as oxc_span;
extern crate self as oxc_str;
extern crate self as oxc_syntax;
extern crate self as rustc_hash;
extern crate self as seq_macro;

mod bench;
mod compare;
#[allow(unused, unfulfilled_lint_expectations, clippy::all)]
mod lexer;
mod lines;
mod literals;
mod ours;
mod reference;
mod second;
mod seeded;
mod stand_in;
mod texts;

use std::process::ExitCode;

pub(crate) use stand_in::*;

fn number(word: Option<String>, otherwise: u64) -> u64 {
    word.map_or(otherwise, |w| w.parse().expect("a number"))
}

fn main() -> ExitCode {
    let mut words = std::env::args().skip(1);
    let mode = words.next().unwrap_or_default();
    let well = match mode.as_str() {
        "answers" => lines::answer_all(),
        "replay" => lines::replay(&words.next().expect("a file of cases")),
        "compare" => compare::compare(number(words.next(), 4), number(words.next(), 1_000_000)),
        "sample" => compare::sample(number(words.next(), 24), number(words.next(), 1)),
        "bench" => bench::bench(),
        _ => {
            eprintln!("beside answers|replay|compare|sample|bench, see src/main.rs");
            false
        }
    };
    if well {
        ExitCode::SUCCESS
    } else {
        ExitCode::FAILURE
    }
}
