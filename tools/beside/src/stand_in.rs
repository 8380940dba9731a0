//! Stand-ins for what the lexer's files take from other crates and from the rest of oxc_parser: as
//! little as they need to build, with the same meaning wherever a scan of a literal goes through.
#![allow(dead_code, unused_imports)]

mod arena;
mod text;

pub use arena::{Allocator, ArenaStringBuilder, ArenaVec};
pub use text::{JSChar, JSStr, JSStrBuilder};

use std::collections::HashMap;
use std::hash::{BuildHasherDefault, Hasher};

pub const MAX_LEN: usize = u32::MAX as usize - 256;

pub struct UniquePromise;

#[derive(Clone, Copy, Default)]
pub struct SourceType;

#[derive(Clone, Copy, Debug, PartialEq, Eq)]
pub struct Span {
    pub start: u32,
    pub end: u32,
}

impl Span {
    pub fn new(start: u32, end: u32) -> Span {
        Span { start, end }
    }

    pub fn empty(at: u32) -> Span {
        Span { start: at, end: at }
    }
}

/// The multiplicative hash that the crate rustc-hash uses.
#[derive(Clone, Copy, Default)]
pub struct FxHasher(u64);

impl Hasher for FxHasher {
    fn write(&mut self, bytes: &[u8]) {
        for &byte in bytes {
            self.write_u32(u32::from(byte));
        }
    }

    fn write_u32(&mut self, word: u32) {
        self.0 = self
            .0
            .wrapping_add(u64::from(word))
            .wrapping_mul(0xF135_7AEA_2E62_A9C5);
    }

    fn finish(&self) -> u64 {
        self.0.rotate_left(26)
    }
}

pub type FxHashMap<K, V> = HashMap<K, V, BuildHasherDefault<FxHasher>>;

pub mod config {
    pub trait LexerConfig {
        const TOKENS_METHOD_IS_STATIC: bool;
        fn tokens(&self) -> bool;
    }

    /// Collects no tokens.
    pub struct NoTokens;

    impl LexerConfig for NoTokens {
        const TOKENS_METHOD_IS_STATIC: bool = true;

        fn tokens(&self) -> bool {
            false
        }
    }
}

/// A diagnostic keeps its kind and its span.
pub mod diagnostics {
    use super::Span;
    use std::marker::PhantomData;

    #[derive(Clone, Debug)]
    pub struct ParserDiagnostic<'a> {
        /// 1 an unterminated literal, 2 an invalid escape, 0 anything else
        pub kind: u8,
        pub span: Span,
        text: PhantomData<&'a str>,
    }

    fn of(kind: u8, span: Span) -> ParserDiagnostic<'static> {
        ParserDiagnostic {
            kind,
            span,
            text: PhantomData,
        }
    }

    #[cold]
    pub fn unterminated_string(span: Span) -> ParserDiagnostic<'static> {
        of(1, span)
    }

    #[cold]
    pub fn invalid_escape_sequence(span: Span) -> ParserDiagnostic<'static> {
        of(2, span)
    }

    pub fn unicode_escape_sequence(span: Span) -> ParserDiagnostic<'static> {
        of(0, span)
    }

    pub fn unexpected_end(span: Span) -> ParserDiagnostic<'static> {
        of(0, span)
    }

    pub fn invalid_character(_: char, span: Span) -> ParserDiagnostic<'static> {
        of(0, span)
    }

    pub fn file_appears_to_be_binary() -> ParserDiagnostic<'static> {
        of(0, Span::empty(0))
    }
}

pub mod ast {
    pub struct RegExpFlags;
}

pub mod memmem {
    pub struct Finder<'a>(std::marker::PhantomData<&'a [u8]>);
}

pub mod branch_hints {
    #[cold]
    pub fn cold_path() {}
}

/// Identifiers: no scan of a literal asks any of this but the named characters.
pub mod identifier {
    pub const FF: char = '\u{C}';
    pub const TAB: char = '\u{9}';
    pub const VT: char = '\u{B}';

    pub fn is_identifier_start(c: char) -> bool {
        c.is_alphabetic() || c == '_' || c == '$'
    }

    pub fn is_identifier_part(c: char) -> bool {
        c.is_alphanumeric() || c == '_' || c == '$'
    }

    pub fn is_identifier_start_unicode(c: char) -> bool {
        c.is_alphabetic()
    }

    pub fn is_identifier_part_unicode(c: char) -> bool {
        c.is_alphanumeric()
    }

    pub fn is_irregular_whitespace(c: char) -> bool {
        c.is_whitespace()
    }
}

pub mod line_terminator {
    pub const LF: char = '\n';
    pub const CR: char = '\r';
    pub const LS: char = '\u{2028}';
    pub const PS: char = '\u{2029}';

    pub fn is_irregular_line_terminator(c: char) -> bool {
        matches!(c, LS | PS)
    }
}

/// Tells the compiler that a condition holds.
macro_rules! assert_unchecked {
    ($holds:expr) => {
        std::hint::assert_unchecked($holds)
    };
}
pub(crate) use assert_unchecked;

/// An enum without fields.
macro_rules! fieldless_enum {
    ($item:item) => {
        $item
    };
}
pub(crate) use fieldless_enum;

/// A table with an expression for each byte.
macro_rules! seq {
    ($byte:ident in 0u8..=255 { $table:ident::new([#($matches:expr,)*]) }) => {{
        let mut bytes = [false; 256];
        let mut i = 0;
        while i < 256 {
            let $byte = i as u8;
            bytes[i] = $matches;
            i += 1;
        }
        $table::new(bytes)
    }};
}
pub(crate) use seq;
