//! Both texts: lines that end with byte 10, fields between commas, names and numbers.

/// A cell name, filled up with zero bytes, which no name contains.
pub type Name = [u8; 8];

pub struct Line<'a> {
    /// From 1.
    pub number: u32,
    pub bytes: &'a [u8],
    /// False for a last line without byte 10.
    pub ended: bool,
}

/// The lines of a text from the top.
pub struct Lines<'a> {
    rest: &'a [u8],
    number: u32,
}

impl<'a> Lines<'a> {
    pub fn of(text: &'a [u8]) -> Self {
        Lines {
            rest: text,
            number: 0,
        }
    }

    /// The number of the line handed out last.
    pub fn number(&self) -> u32 {
        self.number
    }
}

impl<'a> Iterator for Lines<'a> {
    type Item = Line<'a>;

    fn next(&mut self) -> Option<Line<'a>> {
        if self.rest.is_empty() {
            return None;
        }
        self.number += 1;
        let rest = self.rest;
        let (bytes, ended) = match rest.iter().position(|&b| b == b'\n') {
            Some(end) => {
                self.rest = &rest[end + 1..];
                (&rest[..end], true)
            }
            None => {
                self.rest = &[];
                (rest, false)
            }
        };
        Some(Line {
            number: self.number,
            bytes,
            ended,
        })
    }
}

/// The parts between commas; an empty line has one empty field.
pub fn fields(line: &[u8]) -> impl Iterator<Item = &[u8]> {
    line.split(|&b| b == b',')
}

/// 1 to 8 bytes of A-Z, 0-9.
pub fn name(field: &[u8]) -> Option<Name> {
    if field.is_empty() || field.len() > 8 {
        return None;
    }
    let mut name = [0; 8];
    for (place, &b) in name.iter_mut().zip(field) {
        if !b.is_ascii_uppercase() && !b.is_ascii_digit() {
            return None;
        }
        *place = b;
    }
    Some(name)
}

/// 1 to 5 decimal digits without a leading zero.
pub fn decimal(field: &[u8]) -> Option<u32> {
    number(field, 10, 5)
}

/// 1 to so many octal digits without a leading zero.
pub fn octal(field: &[u8], most: usize) -> Option<u32> {
    number(field, 8, most)
}

fn number(field: &[u8], base: u32, most: usize) -> Option<u32> {
    if field.is_empty() || field.len() > most || (field[0] == b'0' && field.len() > 1) {
        return None;
    }
    let mut value = 0;
    for &b in field {
        let digit = u32::from(b.wrapping_sub(b'0'));
        if digit >= base {
            return None;
        }
        value = value * base + digit;
    }
    Some(value)
}
