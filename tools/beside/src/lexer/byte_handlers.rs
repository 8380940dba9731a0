//! Stands in for the dispatch on a token's first byte, and lets the driver in: a scan of a literal
//! from a given start, entered as the crate's own handlers of `"`, `'` and `` ` `` enter it, and as
//! its parser does at a `}`.

use super::{Kind, Lexer, Token};
use crate::config::LexerConfig as Config;
use crate::diagnostics::ParserDiagnostic;
use crate::reference::Scan;

pub type ByteHandler<C> = fn(&mut Lexer<'_, C>) -> Kind;
pub type ByteHandlers<C> = [ByteHandler<C>; 256];
pub mod byte_handler_tables {}

impl<'a, C: Config> Lexer<'a, C> {
    /// The token of the literal that a scan reads from `start`, where its opening byte must stand.
    pub(crate) fn scan(&mut self, scan: Scan, start: usize) -> Token {
        let opening = self.source.whole().as_bytes()[start];
        assert!(scan.opens(opening));
        self.token.set_start(start as u32);
        let kind = match scan {
            Scan::Str => {
                self.stand_at(start);
                // SAFETY: the quote in question stands at the place.
                unsafe {
                    match opening {
                        b'"' => self.read_string_literal_double_quote(),
                        _ => self.read_string_literal_single_quote(),
                    }
                }
            }
            Scan::Template => {
                self.stand_at(start + 1);
                self.read_template_literal(Kind::TemplateHead, Kind::NoSubstitutionTemplate)
            }
            Scan::Resumption => {
                self.stand_at(start + 1);
                return self.next_template_substitution_tail();
            }
        };
        self.finish_next(kind)
    }

    /// The faults recorded so far.
    pub(crate) fn faults(&self) -> &[ParserDiagnostic<'a>] {
        &self.errors
    }

    /// Moves to a boundary between characters.
    fn stand_at(&mut self, place: usize) {
        let here = self.source.offset() as usize;
        let position = self.source.position();
        // SAFETY: `place` is behind an ASCII byte of the text or at one.
        let moved = unsafe {
            match place < here {
                true => position.sub(here - place),
                false => position.add(place - here),
            }
        };
        self.source.set_position(moved);
    }

    pub(super) unsafe fn handle_byte(&mut self, _: u8) -> Kind {
        unreachable!()
    }
}
