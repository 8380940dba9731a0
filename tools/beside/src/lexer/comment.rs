//! Stands in for comments, which no scan of a literal reads.

use super::{Kind, Lexer};
use crate::config::LexerConfig as Config;

impl<C: Config> Lexer<'_, C> {
    pub(super) unsafe fn read_hashbang_comment(&mut self) -> Kind {
        unreachable!()
    }
}
