//! Stands in for numbers, which no scan of a literal reads.

pub fn parse_big_int() {}
pub fn parse_float() {}
pub fn parse_int() {}
