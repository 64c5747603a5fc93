//! The calls of a journal, one a line, as `docs/JOURNAL.md` gives them.

use crate::point::Particulars;
use crate::text::{number, temperature, words};

#[derive(Clone, Copy, PartialEq, Eq, Debug)]
pub enum Call<'a> {
    Ledger { day: u32 },
    Sheet { places: u32 },
    Profile { name: &'a [u8], making: Making<'a> },
    Trader { name: Option<&'a [u8]> },
    Point(Particulars),
    Open { temperature: i32, season: u32 },
    Enter { trader: u32, litres: u64 },
    Inflow { litres: u64, rate: u32 },
    Share { profile: &'a [u8], rule: Rule },
    Abandon,
    Quantity { trader: u32 },
    Read { point: u32, reading: u32 },
    Book { point: u32 },
    HandOver { point: u32, trader: u32 },
    Withdraw { point: u32 },
}

/// How a profile is made.
#[derive(Clone, Copy, PartialEq, Eq, Debug)]
pub enum Making<'a> {
    Table { file: &'a str },
    Even { factor: u32 },
    Season { segment: u32, file: &'a str, below: &'a [u8] },
}

#[derive(Clone, Copy, PartialEq, Eq, Debug)]
pub enum Rule {
    Running,
    Largest,
}

/// Why a line is malformed.
pub type Reason = String;

/// The call of a line, `None` where it has no word.
pub fn parse(line: &[u8]) -> Result<Option<Call<'_>>, Reason> {
    let words = words(line).map_err(|byte| format!("byte {byte} cannot stand in a journal"))?;
    match words.split_first() {
        None => Ok(None),
        Some((&call, arguments)) => parse_call(call, arguments).map(Some),
    }
}

fn parse_call<'a>(call: &[u8], arguments: &[&'a [u8]]) -> Result<Call<'a>, Reason> {
    let parsed = match (call, arguments) {
        (b"ledger", [day]) => Call::Ledger { day: word32(day)? },
        (b"sheet", [places]) => Call::Sheet { places: word32(places)? },
        (b"profile", [name, making @ ..]) => {
            Call::Profile { name: self::name(name)?, making: parse_making(making)? }
        }
        (b"trader", []) => Call::Trader { name: None },
        (b"trader", [name]) => Call::Trader { name: Some(self::name(name)?) },
        (b"point", [trader, segment, digits, litres_per_unit, reading, scale_factor]) => {
            Call::Point(Particulars {
                trader: word32(trader)?,
                segment: word32(segment)?,
                digits: word32(digits)?,
                litres_per_unit: word32(litres_per_unit)?,
                reading: word32(reading)?,
                scale_factor: word32(scale_factor)?,
            })
        }
        (b"open", [degrees, season]) => Call::Open {
            temperature: temperature(degrees).ok_or_else(|| not("a temperature", degrees))?,
            season: word8(season)?,
        },
        (b"enter", [trader, litres]) => {
            Call::Enter { trader: word32(trader)?, litres: word64(litres)? }
        }
        (b"inflow", [litres, rate]) => {
            Call::Inflow { litres: word64(litres)?, rate: word32(rate)? }
        }
        (b"share", [profile, rule]) => {
            Call::Share { profile: name(profile)?, rule: parse_rule(rule)? }
        }
        (b"abandon", []) => Call::Abandon,
        (b"quantity", [trader]) => Call::Quantity { trader: word32(trader)? },
        (b"read", [point, reading]) => {
            Call::Read { point: word32(point)?, reading: word32(reading)? }
        }
        (b"book", [point]) => Call::Book { point: word32(point)? },
        (b"hand-over", [point, trader]) => {
            Call::HandOver { point: word32(point)?, trader: word32(trader)? }
        }
        (b"withdraw", [point]) => Call::Withdraw { point: word32(point)? },
        _ => return Err("no such call, or not its number of words".to_string()),
    };
    Ok(parsed)
}

fn parse_making<'a>(words: &[&'a [u8]]) -> Result<Making<'a>, Reason> {
    match words {
        [b"table", file] => Ok(Making::Table { file: self::file(file)? }),
        [b"even", factor] => Ok(Making::Even { factor: word32(factor)? }),
        [b"season", segment, file, b"over", below] => Ok(Making::Season {
            segment: word32(segment)?,
            file: self::file(file)?,
            below: name(below)?,
        }),
        _ => Err("a profile is: table FILE, even FACTOR, or season SEGMENT FILE over BELOW".into()),
    }
}

fn parse_rule(word: &[u8]) -> Result<Rule, Reason> {
    match word {
        b"running" => Ok(Rule::Running),
        b"largest" => Ok(Rule::Largest),
        _ => Err(not("a share rule (running or largest)", word)),
    }
}

fn not(what: &str, word: &[u8]) -> Reason {
    format!("not {what}: {}", String::from_utf8_lossy(word))
}

fn word8(word: &[u8]) -> Result<u32, Reason> {
    let value = number(word, u64::from(u8::MAX)).ok_or_else(|| not("a number of 8 bits", word))?;
    Ok(value as u32)
}

fn word32(word: &[u8]) -> Result<u32, Reason> {
    let value =
        number(word, u64::from(u32::MAX)).ok_or_else(|| not("a number of 32 bits", word))?;
    Ok(value as u32)
}

fn word64(word: &[u8]) -> Result<u64, Reason> {
    number(word, u64::MAX).ok_or_else(|| not("a number of 64 bits", word))
}

fn name(word: &[u8]) -> Result<&[u8], Reason> {
    let of_name = |&byte: &u8| byte.is_ascii_alphanumeric() || b"-_.".contains(&byte) || byte > 127;
    if word.iter().all(of_name) {
        Ok(word)
    } else {
        Err(not("a name", word))
    }
}

fn file(word: &[u8]) -> Result<&str, Reason> {
    std::str::from_utf8(word).map_err(|_| not("text", word))
}

#[cfg(test)]
mod tests {
    use super::*;

    fn is_malformed(line: &str) -> bool {
        parse(line.as_bytes()).is_err()
    }

    #[test]
    fn a_line_without_words_is_no_call() {
        for line in ["", "  \t\r", "# ledger 5", "   #"] {
            assert_eq!(parse(line.as_bytes()), Ok(None));
        }
    }

    #[test]
    fn calls() {
        let cases: [(&str, Call); 9] = [
            ("ledger 3561 # first", Call::Ledger { day: 3_561 }),
            ("trader", Call::Trader { name: None }),
            ("trader N.O-r_7", Call::Trader { name: Some(b"N.O-r_7") }),
            ("open -8.1 255", Call::Open { temperature: -81, season: 255 }),
            (
                "enter 4294967295 18446744073709551615",
                Call::Enter { trader: u32::MAX, litres: u64::MAX },
            ),
            ("share a largest", Call::Share { profile: b"a", rule: Rule::Largest }),
            ("hand-over 3 1", Call::HandOver { point: 3, trader: 1 }),
            (
                "profile a table ../b,c!",
                Call::Profile { name: b"a", making: Making::Table { file: "../b,c!" } },
            ),
            (
                "profile a season 1 f over b",
                Call::Profile {
                    name: b"a",
                    making: Making::Season { segment: 1, file: "f", below: b"b" },
                },
            ),
        ];
        for (line, call) in cases {
            assert_eq!(parse(line.as_bytes()), Ok(Some(call)));
        }
    }

    #[test]
    fn malformed_lines() {
        for line in [
            "ledger",
            "ledger 1 2",
            "ledger 4294967296",
            "Ledger 1",
            "ledger\u{b}1",
            "trader a b",
            "trader a!",
            "point 0 0 5 1 0",
            "open 1 256",
            "open +1 0",
            "enter 0 18446744073709551616",
            "share a",
            "share a both",
            "profile a",
            "profile a even",
            "profile a even 1 2",
            "profile a season 1 f under b",
            "profile a! even 1",
            "abandon 1",
        ] {
            assert!(is_malformed(line), "{line}");
        }
        assert!(parse(b"profile a table \xff").is_err());
        assert!(parse(b"trader \xff").is_ok());
    }
}
