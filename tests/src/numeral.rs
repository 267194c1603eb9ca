//! Numbers in texts: a run of digits, at most three, with no needless leading zero.

const MOST_DIGITS: usize = 3;

/// Reads the number at a place: its value and the place after it. The error is the place of the fault: where a digit is due and there
/// is none (the text's length, if it has ended), or the first byte of a run that is too long or has a needless zero.
pub fn number(text: &[u8], place: usize) -> Result<(usize, usize), usize> {
    let rest = text.get(place..).unwrap_or(&[]);
    let count = rest.iter().take_while(|byte| byte.is_ascii_digit()).count();
    let digits = &rest[..count];
    let needless_zero = digits.len() > 1 && digits[0] == b'0';
    if digits.is_empty() || digits.len() > MOST_DIGITS || needless_zero {
        return Err(place.min(text.len()));
    }
    let value = digits.iter().fold(0, |value, digit| 10 * value + (digit - b'0') as usize);
    Ok((value, place + digits.len()))
}

#[cfg(test)]
mod tests {
    use super::*;

    #[test]
    fn numbers_have_one_form() {
        for value in 0..1000 {
            let text = format!("x{value} ");
            assert_eq!(number(text.as_bytes(), 1), Ok((value, text.len() - 1)));
            assert_eq!(number(format!("0{value}").as_bytes(), 0), Err(0));
            assert_eq!(number(format!("{}", value + 1000).as_bytes(), 0), Err(0));
        }
        assert_eq!(number(b"12", 2), Err(2));
        assert_eq!(number(b"12", 99), Err(2));
        assert_eq!(number(b"1:", 1), Err(1));
    }
}
