//! Stands in for JSX, which no scan of a literal reads.

use super::{Kind, Lexer};
use crate::config::LexerConfig as Config;

impl<C: Config> Lexer<'_, C> {
    pub(super) unsafe fn read_jsx_string_literal(&mut self, _: u8) -> Kind {
        unreachable!()
    }
}
