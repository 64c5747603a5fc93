//! Plain text as journals and profile sheets have it: lines of words, `#` begins a comment.

/// The words of a line, or the byte that can stand in none.
pub fn words(line: &[u8]) -> Result<Vec<&[u8]>, u8> {
    let data = line.split(|&byte| byte == b'#').next().unwrap_or(line);
    if let Some(&byte) = data.iter().find(|&&byte| !is_blank(byte) && !is_of_word(byte)) {
        return Err(byte);
    }
    Ok(data.split(|&byte| is_blank(byte)).filter(|word| !word.is_empty()).collect())
}

fn is_blank(byte: u8) -> bool {
    matches!(byte, b' ' | b'\t' | b'\r')
}

fn is_of_word(byte: u8) -> bool {
    byte > 32 && byte != 127
}

/// Lines without their line feeds; the last may lack it.
pub fn lines(text: &[u8]) -> impl Iterator<Item = &[u8]> {
    let text = text.strip_suffix(b"\n").unwrap_or(text);
    text.split(|&byte| byte == b'\n')
}

/// Digits alone, read as a decimal number of at most `most`.
pub fn number(word: &[u8], most: u64) -> Option<u64> {
    if word.is_empty() {
        return None;
    }
    let value = word.iter().try_fold(0_u64, |value, byte| {
        let digit = byte.is_ascii_digit().then(|| u64::from(byte - b'0'))?;
        value.checked_mul(10)?.checked_add(digit)
    })?;
    (value <= most).then_some(value)
}

/// Degrees with at most one decimal, in tenths; what does not fit 16 bits is none.
pub fn temperature(word: &[u8]) -> Option<i32> {
    let (sign, size) = match word.strip_prefix(b"-") {
        Some(size) => (-1, size),
        None => (1, word),
    };
    let (whole, tenth) = match size {
        [whole @ .., b'.', tenth] => (whole, number(&[*tenth], 9)?),
        whole => (whole, 0),
    };
    let tenths = sign * (number(whole, 10_000)? * 10 + tenth) as i32;
    i16::try_from(tenths).ok().map(i32::from)
}

/// The numbers of a profile sheet, each of 32 bits; `None` where anything else stands in it.
pub fn sheet(text: &[u8]) -> Option<Vec<u64>> {
    let mut numbers = Vec::new();
    for line in lines(text) {
        for word in words(line).ok()? {
            numbers.push(number(word, u64::from(u32::MAX))?);
        }
    }
    Some(numbers)
}

#[cfg(test)]
mod tests {
    use super::*;

    #[test]
    fn words_stand_apart_by_blanks() {
        assert_eq!(words(b"  a\tb \r"), Ok(vec![&b"a"[..], b"b"]));
        assert_eq!(words(b"a#b c"), Ok(vec![&b"a"[..]]));
        assert_eq!(words(b"# \x00\x7f"), Ok(vec![]));
        assert_eq!(words(b"\xc3\xa9"), Ok(vec![&b"\xc3\xa9"[..]]));
        for byte in [0, 11, 12, 31, 127] {
            assert_eq!(words(&[b'a', byte]), Err(byte));
        }
    }

    #[test]
    fn every_line_counts() {
        let all = |text: &'static [u8]| lines(text).collect::<Vec<_>>();
        assert_eq!(all(b"a\n\nb"), [&b"a"[..], b"", b"b"]);
        assert_eq!(all(b"a\nb\n"), [b"a", b"b"]);
    }

    #[test]
    fn numbers_are_digits_that_fit() {
        assert_eq!(number(b"007", 255), Some(7));
        assert_eq!(number(b"255", 255), Some(255));
        assert_eq!(number(b"256", 255), None);
        assert_eq!(number(b"18446744073709551615", u64::MAX), Some(u64::MAX));
        assert_eq!(number(b"18446744073709551616", u64::MAX), None);
        for bad in ["", "-1", "+1", "1_000", "1.0", "1,5", "x"] {
            assert_eq!(number(bad.as_bytes(), u64::MAX), None, "{bad}");
        }
    }

    #[test]
    fn temperatures_have_at_most_one_decimal() {
        let cases: [(&[u8], i32); 8] = [
            (b"10", 100),
            (b"10.5", 105),
            (b"-8.1", -81),
            (b"-0.5", -5),
            (b"-0", 0),
            (b"003.0", 30),
            (b"3276.7", 32_767),
            (b"-3276.8", -32_768),
        ];
        for (word, tenths) in cases {
            assert_eq!(temperature(word), Some(tenths));
        }
        for bad in ["", "-", "+3", ".5", "-.5", "5.", "1.25", "1,5", "--1", "3276.8", "-3276.9"] {
            assert_eq!(temperature(bad.as_bytes()), None, "{bad}");
        }
    }

    #[test]
    fn sheets() {
        assert_eq!(sheet(b"1 2\t3 # 4\n# 5\r\n\n6"), Some(vec![1, 2, 3, 6]));
        assert_eq!(sheet(b""), Some(vec![]));
        assert_eq!(sheet(b"4294967295"), Some(vec![4_294_967_295]));
        for bad in ["4294967296", "-1", "1,5", "1\u{c}2"] {
            assert_eq!(sheet(bad.as_bytes()), None, "{bad:?}");
        }
    }
}
