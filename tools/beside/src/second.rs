//! A second reader, written from docs/LITERALS.md alone, that goes character by character. It
//! stands in the library's place while none is linked.

use crate::lexer::Kind;
use crate::reference::{Fault, Reading, Scan};

struct Place<'a> {
    text: &'a str,
    at: usize,
}

impl Place<'_> {
    fn peek(&self) -> Option<char> {
        self.text[self.at..].chars().next()
    }

    fn next(&mut self) -> Option<char> {
        let c = self.peek()?;
        self.at += c.len_utf8();
        Some(c)
    }

    fn take(&mut self, c: char) -> bool {
        let stands = self.peek() == Some(c);
        self.at += if stands { c.len_utf8() } else { 0 };
        stands
    }

    fn digit(&mut self, radix: u32) -> Option<u32> {
        let digit = self.peek()?.to_digit(radix)?;
        self.at += 1;
        Some(digit)
    }

    /// A number of exactly so many hex digits.
    fn hex(&mut self, digits: u32) -> Option<u32> {
        let mut number = 0;
        for _ in 0..digits {
            number = number * 16 + self.digit(16)?;
        }
        Some(number)
    }

    /// The number in braces, behind the opening brace.
    fn braced(&mut self, template: bool) -> Option<u32> {
        let mut number = self.digit(16)?;
        while let Some(digit) = self.digit(16) {
            number = number * 16 + digit;
            if number > 0x10_FFFF {
                while template && self.digit(16).is_some() {}
                return None;
            }
        }
        self.take('}').then_some(number)
    }

    fn octal(&mut self, first: u32) -> u32 {
        let Some(second) = self.digit(8) else {
            return first;
        };
        let two = first * 8 + second;
        let third = if first < 4 { self.digit(8) } else { None };
        third.map_or(two, |digit| two * 8 + digit)
    }

    /// The code point of an escape, behind its backslash: `Some(None)` where it gives nothing,
    /// `None` where it is invalid.
    fn escape(&mut self, template: bool) -> Option<Option<u32>> {
        let c = self.next()?;
        let decimal = self.peek().is_some_and(|d| d.is_ascii_digit());
        Some(Some(match c {
            '\n' | '\u{2028}' | '\u{2029}' => return Some(None),
            '\r' => {
                self.take('\n');
                return Some(None);
            }
            'b' => 8,
            'f' => 12,
            'n' => 10,
            'r' => 13,
            't' => 9,
            'v' => 11,
            'x' => self.hex(2)?,
            'u' if self.take('{') => self.braced(template)?,
            'u' => self.hex(4)?,
            '0' if !decimal => 0,
            '0' if template => {
                self.at += 1;
                return None;
            }
            '1'..='9' if template => return None,
            '0'..='7' => self.octal(c as u32 - '0' as u32),
            other => other as u32,
        }))
    }
}

/// A reading that is under way.
struct Course<'a> {
    place: Place<'a>,
    start: usize,
    marked: bool,
    units: Option<Vec<u16>>,
    faults: Vec<Fault>,
}

impl<'a> Course<'a> {
    fn at(text: &'a str, start: usize) -> Course<'a> {
        let place = Place {
            text,
            at: start + 1,
        };
        Course {
            place,
            start,
            marked: false,
            units: Some(Vec::new()),
            faults: Vec::new(),
        }
    }

    fn put(&mut self, number: u32) {
        let Some(units) = &mut self.units else { return };
        match char::from_u32(number) {
            Some(c) => units.extend_from_slice(c.encode_utf16(&mut [0; 2])),
            None => units.push(number as u16),
        }
    }

    fn fault(&mut self, kind: u8, from: usize) {
        self.faults.push(Fault {
            kind,
            from: from as u32,
            to: self.place.at as u32,
        });
    }

    fn escape(&mut self, template: bool) {
        let backslash = self.place.at - 1;
        self.marked = true;
        match self.place.escape(template) {
            Some(Some(number)) => self.put(number),
            Some(None) => {}
            None if template => self.units = None,
            None => self.fault(2, backslash),
        }
    }

    fn closed(self, kind: Kind) -> Reading {
        let value = self.marked.then_some(self.units);
        Reading {
            kind,
            end: self.place.at as u32,
            escaped: self.marked,
            value,
            faults: self.faults,
        }
    }

    fn broken(mut self, times: usize) -> Reading {
        for _ in 0..times {
            self.fault(1, self.start);
        }
        self.marked = false;
        self.closed(Kind::Undetermined)
    }
}

/// The kinds of a literal that ends at its closing delimiter, and at `${`.
fn kinds(scan: Scan) -> (Kind, Kind) {
    match scan {
        Scan::Str => (Kind::Str, Kind::Str),
        Scan::Template => (Kind::NoSubstitutionTemplate, Kind::TemplateHead),
        Scan::Resumption => (Kind::TemplateTail, Kind::TemplateMiddle),
    }
}

/// The reading of the literal that opens at `start`.
pub fn read(text: &str, scan: Scan, start: usize) -> Reading {
    let template = scan != Scan::Str;
    let closing = if template {
        '`'
    } else {
        char::from(text.as_bytes()[start])
    };
    let (whole, part) = kinds(scan);
    let mut course = Course::at(text, start);
    loop {
        let Some(c) = course.place.next() else {
            return course.broken(1);
        };
        match c {
            '\\' if course.place.peek().is_none() => return course.broken(2),
            '\\' => course.escape(template),
            '\r' | '\n' if !template => return course.broken(1),
            '\r' => {
                course.place.take('\n');
                course.marked = true;
                course.put(0xA);
            }
            '$' if template && course.place.take('{') => return course.closed(part),
            c if c == closing => return course.closed(whole),
            c => course.put(c as u32),
        }
    }
}
