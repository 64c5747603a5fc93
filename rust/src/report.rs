//! Printed lines: fields with a separator between them, as text or as CSV.

use std::io::Write;

use crate::Refusal;

/// One field of a printed line.
#[derive(Clone, Copy)]
pub enum Field<'a> {
    Word(&'a str),
    Name(&'a [u8]),
    Number(i128),
    Refused(Refusal),
}

impl From<u64> for Field<'_> {
    fn from(number: u64) -> Self {
        Field::Number(number.into())
    }
}

impl From<u32> for Field<'_> {
    fn from(number: u32) -> Self {
        Field::Number(number.into())
    }
}

impl From<i64> for Field<'_> {
    fn from(number: i64) -> Self {
        Field::Number(number.into())
    }
}

/// The printed lines, as text or as CSV.
pub struct Report {
    csv: bool,
    bytes: Vec<u8>,
}

impl Report {
    pub fn new(csv: bool) -> Report {
        Report { csv, bytes: Vec::new() }
    }

    pub fn into_bytes(self) -> Vec<u8> {
        self.bytes
    }

    pub fn line(&mut self, fields: &[Field]) {
        let separator = if self.csv { b',' } else { b' ' };
        for (place, &field) in fields.iter().enumerate() {
            if place > 0 {
                self.bytes.push(separator);
            }
            self.field(field);
        }
        self.bytes.push(b'\n');
    }

    fn field(&mut self, field: Field) {
        let bytes = &mut self.bytes;
        let written = match field {
            Field::Name(name) => bytes.write_all(name),
            Field::Word(word) => bytes.write_all(word.as_bytes()),
            Field::Number(number) => write!(bytes, "{number}"),
            Field::Refused(why) if self.csv => write!(bytes, "refused,{},\"{why}\"", why.number()),
            Field::Refused(why) => write!(bytes, "refused {}: {why}", why.number()),
        };
        written.expect("a list of bytes takes every byte");
    }
}
