//! Memory that is filled from the front and freed as a whole, as oxc_allocator's is.

use std::cell::{Cell, RefCell};
use std::marker::PhantomData;
use std::ops::{Deref, DerefMut};
use std::ptr;

/// What a value is made of: 16-bit units, or bytes with `--cfg bytes`.
#[cfg(not(bytes))]
pub type Piece = u16;
#[cfg(bytes)]
pub type Piece = u8;

const FIRST_CHUNK: usize = 16 * 1024;

pub struct Allocator {
    next: Cell<*mut Piece>,
    end: Cell<*mut Piece>,
    chunks: RefCell<Vec<Box<[Piece]>>>,
}

impl Allocator {
    pub fn new() -> Allocator {
        Allocator {
            next: Cell::new(ptr::null_mut()),
            end: Cell::new(ptr::null_mut()),
            chunks: RefCell::new(Vec::new()),
        }
    }

    /// Frees all, and keeps the largest chunk.
    pub fn reset(&mut self) {
        let chunks = self.chunks.get_mut();
        if let Some(last) = chunks.pop() {
            chunks.clear();
            self.enter(last);
        }
    }

    /// Room for so many pieces.
    pub(super) fn take(&self, pieces: usize) -> *mut Piece {
        let free = (self.end.get() as usize - self.next.get() as usize) / size_of::<Piece>();
        if free < pieces {
            self.open_chunk(pieces);
        }
        let at = self.next.get();
        self.next.set(at.wrapping_add(pieces));
        at
    }

    /// More room for pieces that begin at `at`: on the spot if nothing was taken since.
    pub(super) fn grow(&self, at: *mut Piece, old: usize, new: usize) -> *mut Piece {
        let free = (self.end.get() as usize - self.next.get() as usize) / size_of::<Piece>();
        if at.wrapping_add(old) == self.next.get() && free >= new - old {
            self.next.set(at.wrapping_add(new));
            return at;
        }
        let moved = self.take(new);
        // SAFETY: both ranges were taken from this arena, the second one after the first.
        unsafe { ptr::copy_nonoverlapping(at, moved, old) };
        moved
    }

    #[cold]
    fn open_chunk(&self, pieces: usize) {
        let last = self
            .chunks
            .borrow()
            .last()
            .map_or(FIRST_CHUNK, |chunk| chunk.len() * 2);
        self.enter(vec![0; last.max(pieces)].into_boxed_slice());
    }

    fn enter(&self, mut chunk: Box<[Piece]>) {
        let range = chunk.as_mut_ptr_range();
        self.next.set(range.start);
        self.end.set(range.end);
        self.chunks.borrow_mut().push(chunk);
    }
}

/// The lexer's list of tokens; it stays empty here.
#[derive(Debug)]
pub struct ArenaVec<'a, T>(Vec<T>, PhantomData<&'a Allocator>);

impl<'a, T> ArenaVec<'a, T> {
    pub fn new_in(_: &&'a Allocator) -> Self {
        ArenaVec(Vec::new(), PhantomData)
    }

    pub fn with_capacity_in(capacity: usize, _: &&'a Allocator) -> Self {
        ArenaVec(Vec::with_capacity(capacity), PhantomData)
    }

    pub fn push_fast(&mut self, value: T) {
        self.0.push(value);
    }
}

impl<T> Deref for ArenaVec<'_, T> {
    type Target = Vec<T>;

    fn deref(&self) -> &Vec<T> {
        &self.0
    }
}

impl<T> DerefMut for ArenaVec<'_, T> {
    fn deref_mut(&mut self) -> &mut Vec<T> {
        &mut self.0
    }
}

/// Identifiers with escapes; no scan of a literal makes one.
pub struct ArenaStringBuilder<'a>(String, PhantomData<&'a Allocator>);

impl<'a> ArenaStringBuilder<'a> {
    pub fn with_capacity_in(capacity: usize, _: &'a Allocator) -> Self {
        ArenaStringBuilder(String::with_capacity(capacity), PhantomData)
    }

    pub fn push(&mut self, c: char) {
        self.0.push(c);
    }

    pub fn push_str(&mut self, text: &str) {
        self.0.push_str(text);
    }

    pub fn into_str(self) -> &'a str {
        self.0.leak()
    }
}
