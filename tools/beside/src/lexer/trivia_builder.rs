//! Stands in for the keeper of what stands between tokens, which no scan of a literal asks.

use super::Token;
use crate::Allocator;
use std::marker::PhantomData;
use std::num::NonZeroU32;

pub struct TriviaBuilder<'a>(PhantomData<&'a Allocator>);

impl<'a> TriviaBuilder<'a> {
    pub fn new_in(_: &'a Allocator) -> Self {
        TriviaBuilder(PhantomData)
    }

    pub fn previous_token_pure_comments(&self) -> Option<(u32, NonZeroU32)> {
        None
    }

    pub fn previous_token_no_side_effects_comments(&self) -> Option<(u32, NonZeroU32)> {
        None
    }

    pub fn set_pure_comments(&mut self, _: Option<(u32, NonZeroU32)>) {}
    pub fn set_no_side_effects_comments(&mut self, _: Option<(u32, NonZeroU32)>) {}
    pub fn clear_pure_comments(&mut self) {}
    pub fn clear_no_side_effects_comments(&mut self) {}
    pub fn handle_token(&mut self, _: Token) {}
    pub fn handle_newline(&mut self) {}
    pub fn add_irregular_whitespace(&mut self, _: u32, _: u32) {}
}
