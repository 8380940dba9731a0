//! Holds this repository's reader against the Rust, text by text, and draws samples.

use crate::Allocator;
use crate::lexer::Kind;
use crate::lines::{answer, case};
use crate::ours::{self, Ours};
use crate::reference::{Reading, Scan, reference};
use crate::seeded::Seeded;
use crate::texts::{Limits, PARTS, Part};
use std::collections::{BTreeMap, HashSet};
use std::time::Instant;

const SHOWN: u64 = 20;

/// What was compared, and what the Rust made of it.
#[derive(Default)]
struct Tally {
    compared: u64,
    differ: u64,
    terminated: u64,
    escaped: u64,
    uncooked: u64,
    faulty: u64,
}

impl Tally {
    fn add(&mut self, reading: &Reading, same: bool) {
        self.compared += 1;
        self.differ += u64::from(!same);
        self.terminated += u64::from(reading.kind != Kind::Undetermined);
        self.escaped += u64::from(reading.escaped);
        self.uncooked += u64::from(reading.value == Some(None));
        self.faulty += u64::from(!reading.faults.is_empty());
    }

    fn say(&self, name: &str) {
        println!(
            "{name}: {} compared, {} differ ({} terminated, {} escaped, {} uncooked, {} faulty)",
            self.compared, self.differ, self.terminated, self.escaped, self.uncooked, self.faulty
        );
    }
}

fn show(text: &str, scan: Scan, start: usize, rust: &Reading, ours: &Reading) {
    println!("{}", case(text, scan, start));
    println!("    Rust {rust:?}\n    ours {ours:?}");
}

/// Compares every part; whether nothing differed.
pub fn compare(depth: u64, rounds: u64) -> bool {
    let (mut memory, mut ours, begun) = (Allocator::new(), Ours::new(), Instant::now());
    let (mut compared, mut differ) = (0, 0);
    println!("the Rust against {}", ours::NAME);
    for (name, part) in PARTS {
        let mut tally = Tally::default();
        part(
            Limits {
                depth,
                rounds,
                seed: 2026,
            },
            &mut |text, scan, start| {
                let theirs = reference(&mut memory, text, scan, start);
                let told = ours.read(text, scan, start);
                tally.add(&theirs, theirs == told);
                if theirs != told && differ + tally.differ <= SHOWN {
                    show(text, scan, start, &theirs, &told);
                }
            },
        );
        tally.say(name);
        compared += tally.compared;
        differ += tally.differ;
    }
    let seconds = begun.elapsed().as_secs_f64();
    println!(
        "{compared} compared, {differ} differ, {:.0} a second",
        compared as f64 / seconds
    );
    differ == 0
}

/// What sort of answer a reading is, by its opening too; a sample has as many of each.
fn sort(opening: u8, reading: &Reading) -> (u8, u8, bool, bool, usize) {
    let uncooked = reading.value == Some(None);
    (
        opening,
        reading.kind as u8,
        reading.escaped,
        uncooked,
        reading.faults.len().min(2),
    )
}

/// Of a part's texts, `many` of each sort of answer, or all; as lines.
fn drawn(part: Part, many: u64, seed: u64) -> Vec<String> {
    let (mut memory, mut seeded) = (Allocator::new(), Seeded(seed));
    let mut sorts: BTreeMap<_, (u64, Vec<String>)> = BTreeMap::new();
    let limits = Limits {
        depth: 3,
        rounds: 40_000,
        seed,
    };
    part.1(limits, &mut |text, scan, start| {
        let reading = reference(&mut memory, text, scan, start);
        let opening = text.as_bytes()[start];
        let (met, kept) = sorts.entry(sort(opening, &reading)).or_default();
        *met += 1;
        let place = seeded.next() % *met;
        let full = kept.len() as u64 == many;
        if full && place >= many {
            return;
        }
        let told = answer(text, start, &reading);
        let line = format!("{} {told}", case(text, scan, start));
        if full {
            kept[place as usize] = line;
        } else {
            kept.push(line);
        }
    });
    sorts.into_values().flat_map(|(_, kept)| kept).collect()
}

/// Writes cases with the Rust's answers, and how many of each part.
pub fn sample(many: u64, seed: u64) -> bool {
    let mut seen = HashSet::new();
    for part in PARTS {
        let before = seen.len();
        for line in drawn(part, many, seed) {
            if !seen.contains(&line) {
                println!("{line}");
                seen.insert(line);
            }
        }
        eprintln!("{}: {}", part.0, seen.len() - before);
    }
    eprintln!("{} cases", seen.len());
    true
}
