//! This repository's reader.

#[cfg(library)]
compile_error!("no library can be linked yet");

use crate::reference::{Reading, Scan};
use crate::second;

pub const NAME: &str = "the second reader (no library is linked)";

pub struct Ours;

impl Ours {
    pub fn new() -> Ours {
        Ours
    }

    /// The reading of the literal that opens at `start`.
    pub fn read(&mut self, text: &str, scan: Scan, start: usize) -> Reading {
        second::read(text, scan, start)
    }

    /// Whether bytes are UTF-8.
    pub fn check(&mut self, bytes: &[u8]) -> bool {
        str::from_utf8(bytes).is_ok()
    }
}

/// A session that scans a text from a list of starts, with all that it needs laid out beforehand.
pub struct Plan<'a> {
    text: &'a [u8],
    starts: &'a [(Scan, usize)],
}

impl<'a> Plan<'a> {
    pub fn new(text: &'a [u8], starts: &'a [(Scan, usize)]) -> Plan<'a> {
        Plan { text, starts }
    }

    /// Makes the session, scans, and answers the sum of the ends.
    pub fn run(&mut self) -> u64 {
        let text = str::from_utf8(self.text).expect("a text");
        self.starts
            .iter()
            .map(|&(scan, start)| u64::from(second::read(text, scan, start).end))
            .sum()
    }
}
