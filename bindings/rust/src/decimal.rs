//! Numbers as the library has them.

use std::fmt::Write;

/// The most digits after the point.
pub(crate) const DIGITS: usize = 18;

/// As many of these as there are in one.
const UNITS: u64 = 10_u64.pow(DIGITS as u32);

/// A number of at most 18 digits after the point, whose whole part is below 2^64. Zero isn't negative.
#[derive(Clone, Copy, Debug, PartialEq, Eq)]
pub(crate) struct Decimal {
    is_negative: bool,
    whole: u64,
    /// What is after the point, in parts of 10^-18.
    fraction: u64,
}

impl Decimal {
    fn new(is_negative: bool, whole: u64, fraction: u64) -> Decimal {
        Decimal { is_negative: is_negative && (whole, fraction) != (0, 0), whole, fraction }
    }

    /// An integer, if its absolute value is below 2^64.
    pub(crate) fn of_integer(n: i128) -> Option<Decimal> {
        Some(Decimal::new(n < 0, n.unsigned_abs().try_into().ok()?, 0))
    }

    /// The number that a text is: an optional sign, digits, and at most 18 digits after a point.
    pub(crate) fn parse(text: &str) -> Option<Decimal> {
        let (is_negative, whole, digits) = parts(text)?;
        if digits.len() > DIGITS {
            return None;
        }
        Some(Decimal::new(is_negative, whole, units(digits)))
    }

    /// Reads a text with any number of digits after the point, rounded to 18: away from zero if the rest is a half.
    pub(crate) fn rounded(text: &str) -> Option<Decimal> {
        let (is_negative, whole, digits) = parts(text)?;
        let (kept, rest) = digits.split_at(digits.len().min(DIGITS));
        let fraction = units(kept) + u64::from(rest.starts_with(|digit| digit >= '5'));
        let (whole, fraction) = if fraction < UNITS { (whole, fraction) } else { (whole.checked_add(1)?, 0) };
        Some(Decimal::new(is_negative, whole, fraction))
    }

    /// The integer that the number is, if it is one.
    pub(crate) fn integer(self) -> Option<i128> {
        (self.fraction == 0).then(|| self.truncated())
    }

    /// The integer that the number is, if it is one of these.
    #[inline]
    pub(crate) fn signed(self) -> Option<i64> {
        let whole = i64::try_from(self.whole).ok().filter(|_| self.fraction == 0)?;
        Some(if self.is_negative { -whole } else { whole })
    }

    /// The nearest float.
    #[inline]
    pub(crate) fn nearest(self) -> f64 {
        let value = match self.fraction {
            0 => self.whole as f64,
            _ => return self.nearest_of_fraction(),
        };
        if self.is_negative {
            -value
        } else {
            value
        }
    }

    #[inline(never)]
    fn nearest_of_fraction(self) -> f64 {
        // Each decimal is the text of a float.
        self.text(None).parse().unwrap_or(f64::NAN)
    }

    /// The integer toward zero.
    pub(crate) fn truncated(self) -> i128 {
        let whole = i128::from(self.whole);
        if self.is_negative {
            -whole
        } else {
            whole
        }
    }

    /// The text, with at least this many of 18 digits after the point. The point is there if `least` is.
    pub(crate) fn text(self, least: Option<usize>) -> String {
        let mut text = String::new();
        if self.is_negative {
            text.push('-');
        }
        // Nothing is refused by a String.
        let _ = write!(text, "{}.{:018}", self.whole, self.fraction);
        let without_zeros = text.trim_end_matches('0').len();
        let point = text.len() - DIGITS;
        text.truncate(without_zeros.max(point + least.unwrap_or(0).min(DIGITS)));
        if least.is_none() && text.ends_with('.') {
            text.pop();
        }
        text
    }
}

/// The sign of a text, the number before its point and the digits after it.
fn parts(text: &str) -> Option<(bool, u64, &str)> {
    let unsigned = text.strip_prefix(['-', '+']).unwrap_or(text);
    let (whole, fraction) = unsigned.split_once('.').unwrap_or((unsigned, ""));
    let all_digits = |part: &str| part.bytes().all(|byte| byte.is_ascii_digit());
    if (whole.is_empty() && fraction.is_empty()) || !all_digits(whole) || !all_digits(fraction) {
        return None;
    }
    let whole = if whole.is_empty() { 0 } else { whole.parse().ok()? };
    Some((text.starts_with('-'), whole, fraction))
}

/// The units of at most 18 digits after a point.
fn units(digits: &str) -> u64 {
    let places = 10_u64.pow((DIGITS - digits.len()) as u32);
    digits.parse::<u64>().map_or(0, |number| number * places)
}

#[cfg(test)]
mod tests {
    use super::*;

    #[test]
    fn decimals_are_told_from_texts() {
        for text in ["0", "-1", "+1", "1.50", ".5", "5.", "18446744073709551615", "1.123456789012345678", "-.0"] {
            assert!(Decimal::parse(text).is_some(), "{text}");
        }
        for text in ["", "-", ".", "1e3", "18446744073709551616", "1.1234567890123456789", "NaN", "1,5", "٣", "++1"] {
            assert!(Decimal::parse(text).is_none(), "{text}");
        }
    }

    #[test]
    fn decimals_are_shown() {
        let shown = |text: &str, least| Decimal::parse(text).map(|decimal| decimal.text(least));
        for (text, least, expected) in [
            ("1.50", None, "1.5"),
            ("1.50", Some(1), "1.5"),
            ("1.50", Some(3), "1.500"),
            ("5", Some(0), "5."),
            ("-5", Some(2), "-5.00"),
            ("-0", None, "0"),
            ("007.0", None, "7"),
            ("10", None, "10"),
            (".000000000000000001", Some(40), "0.000000000000000001"),
            ("-18446744073709551615", None, "-18446744073709551615"),
        ] {
            assert_eq!(shown(text, least).as_deref(), Some(expected), "{text}");
        }
    }

    #[test]
    fn decimals_are_rounded() {
        for (text, expected) in [
            ("0.0000000000000000004", Some("0")),
            ("-0.0000000000000000005", Some("-0.000000000000000001")),
            ("1.9999999999999999995", Some("2")),
            ("0.33333333333333333333", Some("0.333333333333333333")),
            ("18446744073709551615.9999999999999999999", None),
            ("18446744073709551616", None),
        ] {
            assert_eq!(Decimal::rounded(text).map(|decimal| decimal.text(None)).as_deref(), expected, "{text}");
        }
    }
}
