//! What the Rust reads.

use crate::config::NoTokens;
use crate::lexer::{Kind, Lexer, Token};
use crate::{Allocator, SourceType, UniquePromise};

/// Which scan: a string at either quote, a template at `` ` ``, a template resumed at `}`.
#[derive(Clone, Copy, Debug, PartialEq, Eq)]
pub enum Scan {
    Str,
    Template,
    Resumption,
}

impl Scan {
    pub fn opens(self, byte: u8) -> bool {
        match self {
            Scan::Str => matches!(byte, b'"' | b'\''),
            Scan::Template => byte == b'`',
            Scan::Resumption => byte == b'}',
        }
    }

    pub fn word(self) -> &'static str {
        match self {
            Scan::Str => "string",
            Scan::Template => "template",
            Scan::Resumption => "resume",
        }
    }
}

/// 1 an unterminated literal, 2 an invalid escape.
#[derive(Clone, Copy, Debug, PartialEq, Eq)]
pub struct Fault {
    pub kind: u8,
    pub from: u32,
    pub to: u32,
}

/// What a scan leaves: the token, the entry at its start (none, one without a value, or one with
/// units) and the faults.
#[derive(Clone, Debug, PartialEq, Eq)]
pub struct Reading {
    pub kind: Kind,
    pub end: u32,
    pub escaped: bool,
    pub value: Option<Option<Vec<u16>>>,
    pub faults: Vec<Fault>,
}

pub fn lexer<'a>(memory: &'a Allocator, text: &'a str) -> Lexer<'a, NoTokens> {
    Lexer::new(memory, text, SourceType, NoTokens, UniquePromise)
}

/// The Rust's reading of the literal that opens at `start`.
pub fn reference(memory: &mut Allocator, text: &str, scan: Scan, start: usize) -> Reading {
    memory.reset();
    let mut lexer = lexer(memory, text);
    let token = lexer.scan(scan, start);
    assert_eq!(token.start() as usize, start);
    let faults = lexer.faults().iter().map(|f| Fault {
        kind: f.kind,
        from: f.span.start,
        to: f.span.end,
    });
    Reading {
        kind: token.kind(),
        end: token.end(),
        escaped: token.escaped(),
        value: entry(&lexer, scan, token),
        faults: faults.collect(),
    }
}

/// The entry at a token's start.
fn entry(lexer: &Lexer<'_, NoTokens>, scan: Scan, token: Token) -> Option<Option<Vec<u16>>> {
    let start = token.start();
    if scan == Scan::Str {
        assert!(lexer.escaped_templates.is_empty());
        lexer
            .escaped_strings
            .get(&start)
            .map(|value| Some(value.units()))
    } else {
        assert!(lexer.escaped_strings.is_empty());
        lexer
            .escaped_templates
            .get(&start)
            .map(|value| value.map(|v| v.units()))
    }
}

/// The length of what closes a literal of a kind.
pub fn closing(kind: Kind) -> usize {
    match kind {
        Kind::Undetermined => 0,
        Kind::TemplateHead | Kind::TemplateMiddle => 2,
        _ => 1,
    }
}
