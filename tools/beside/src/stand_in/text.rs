//! Values as oxc_str has them: what was pushed, one after the other, in an arena. A piece is a
//! 16-bit unit, or with `--cfg bytes` a byte of UTF-8, where a lone surrogate takes three bytes.
//! The units told are the same.

use super::arena::{Allocator, Piece};
use std::{ptr, slice};

/// A code point, a surrogate too.
#[derive(Clone, Copy)]
pub struct JSChar(u32);

impl JSChar {
    pub fn from_u32(number: u32) -> Option<JSChar> {
        (number <= 0x10_FFFF).then_some(JSChar(number))
    }
}

/// A finished value.
#[derive(Clone, Copy)]
pub enum JSStr<'a> {
    Pushed(&'a [Piece]),
    Text(&'a str),
}

impl<'a> From<&'a str> for JSStr<'a> {
    fn from(text: &'a str) -> JSStr<'a> {
        JSStr::Text(text)
    }
}

impl<'a> JSStr<'a> {
    pub fn as_str(&self) -> Option<&'a str> {
        match *self {
            JSStr::Text(text) => Some(text),
            JSStr::Pushed(_) => None,
        }
    }

    /// Its 16-bit units.
    pub fn units(&self) -> Vec<u16> {
        match *self {
            JSStr::Text(text) => text.encode_utf16().collect(),
            JSStr::Pushed(pieces) => units_of(pieces),
        }
    }
}

#[cfg(not(bytes))]
fn units_of(pieces: &[u16]) -> Vec<u16> {
    pieces.to_vec()
}

#[cfg(bytes)]
fn units_of(pieces: &[u8]) -> Vec<u16> {
    let mut units = Vec::with_capacity(pieces.len());
    let mut rest = pieces;
    while let Some((&lead, behind)) = rest.split_first() {
        let more =
            usize::from(lead >= 0xC0) + usize::from(lead >= 0xE0) + usize::from(lead >= 0xF0);
        let first = if more == 0 {
            lead
        } else {
            lead & (0x3F >> more)
        };
        let (tail, after) = behind.split_at(more);
        let number = tail
            .iter()
            .fold(u32::from(first), |n, &b| n << 6 | u32::from(b & 0x3F));
        match char::from_u32(number) {
            Some(c) => units.extend_from_slice(c.encode_utf16(&mut [0; 2])),
            None => units.push(number as u16),
        }
        rest = after;
    }
    units
}

/// A value that is being made.
pub struct JSStrBuilder<'a> {
    at: *mut Piece,
    len: usize,
    capacity: usize,
    allocator: &'a Allocator,
}

impl<'a> JSStrBuilder<'a> {
    pub fn with_capacity_in(capacity: usize, allocator: &&'a Allocator) -> JSStrBuilder<'a> {
        JSStrBuilder {
            at: allocator.take(capacity),
            len: 0,
            capacity,
            allocator,
        }
    }

    pub fn into_js_str(self) -> JSStr<'a> {
        // SAFETY: `len` pieces were written at `at`, and the arena lives as long as `'a`.
        JSStr::Pushed(unsafe { slice::from_raw_parts(self.at, self.len) })
    }

    #[inline]
    fn push_pieces(&mut self, pieces: &[Piece]) {
        self.reserve(pieces.len());
        // SAFETY: there is room for them behind `len`.
        unsafe { ptr::copy_nonoverlapping(pieces.as_ptr(), self.at.add(self.len), pieces.len()) };
        self.len += pieces.len();
    }

    #[inline]
    fn reserve(&mut self, more: usize) {
        if self.capacity - self.len < more {
            self.grow(more);
        }
    }

    #[cold]
    fn grow(&mut self, more: usize) {
        let capacity = (self.len + more).max(self.capacity * 2);
        self.at = self.allocator.grow(self.at, self.capacity, capacity);
        self.capacity = capacity;
    }
}

#[cfg(not(bytes))]
impl JSStrBuilder<'_> {
    #[inline]
    pub fn push(&mut self, c: char) {
        self.push_pieces(c.encode_utf16(&mut [0; 2]));
    }

    pub fn push_str(&mut self, text: &str) {
        self.reserve(text.len());
        for unit in text.encode_utf16() {
            // SAFETY: a text has at most as many units as bytes.
            unsafe { self.at.add(self.len).write(unit) };
            self.len += 1;
        }
    }

    pub fn push_js_char(&mut self, c: JSChar) {
        match char::from_u32(c.0) {
            Some(c) => self.push(c),
            None => self.push_pieces(&[c.0 as u16]),
        }
    }
}

#[cfg(bytes)]
impl JSStrBuilder<'_> {
    #[inline]
    pub fn push(&mut self, c: char) {
        self.push_pieces(c.encode_utf8(&mut [0; 4]).as_bytes());
    }

    pub fn push_str(&mut self, text: &str) {
        self.push_pieces(text.as_bytes());
    }

    pub fn push_js_char(&mut self, c: JSChar) {
        match char::from_u32(c.0) {
            Some(c) => self.push(c),
            None => {
                let last = |shift: u32| 0x80 | (c.0 >> shift & 0x3F) as u8;
                self.push_pieces(&[0xE0 | (c.0 >> 12) as u8, last(6), last(0)]);
            }
        }
    }
}
