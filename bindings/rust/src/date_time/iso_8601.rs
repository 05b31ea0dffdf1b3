//! Dates and times as texts of ISO 8601, written and read.

use super::{DateError, FluentDateTime, Time};
use std::fmt;
use std::str::FromStr;

/// Writes two digits.
fn write_two<W: fmt::Write>(text: &mut W, number: u32) -> fmt::Result {
    let digit = |number: u32| char::from_digit(number % 10, 10).unwrap_or('0');
    text.write_char(digit(number / 10))?;
    text.write_char(digit(number))
}

impl FluentDateTime {
    /// Writes the text of ISO 8601, such as `2026-11-28T20:26:05+01:00`.
    pub(super) fn write_iso<W: fmt::Write>(&self, text: &mut W) -> fmt::Result {
        if self.year < 0 {
            text.write_char('-')?;
        }
        let year = u32::from(self.year.unsigned_abs());
        write_two(text, year / 100)?;
        write_two(text, year)?;
        text.write_char('-')?;
        write_two(text, self.month.into())?;
        text.write_char('-')?;
        write_two(text, self.day.into())?;
        match self.time {
            Some(time) => self.write_clock(text, time),
            None => Ok(()),
        }
    }

    fn write_clock<W: fmt::Write>(&self, text: &mut W, time: Time) -> fmt::Result {
        text.write_char('T')?;
        write_two(text, time.hour.into())?;
        text.write_char(':')?;
        write_two(text, time.minute.into())?;
        text.write_char(':')?;
        write_two(text, time.second.into())?;
        if time.nanosecond != 0 {
            write!(text, ".{:09}", time.nanosecond)?;
        }
        match self.offset {
            None => Ok(()),
            Some(0) => text.write_char('Z'),
            Some(offset) => write_offset(text, offset),
        }
    }
}

fn write_offset<W: fmt::Write>(text: &mut W, offset: i32) -> fmt::Result {
    let ahead = offset.unsigned_abs();
    text.write_char(if offset < 0 { '-' } else { '+' })?;
    write_two(text, ahead / 3600)?;
    text.write_char(':')?;
    write_two(text, ahead / 60 % 60)?;
    match ahead % 60 {
        0 => Ok(()),
        seconds => {
            text.write_char(':')?;
            write_two(text, seconds)
        }
    }
}

/// The text of ISO 8601, such as `2026-11-28T20:26:05+01:00`.
impl fmt::Display for FluentDateTime {
    fn fmt(&self, f: &mut fmt::Formatter<'_>) -> fmt::Result {
        self.write_iso(f)
    }
}

/// The number that two digits are, and what is after them.
fn two_digits(text: &str) -> Result<(u8, &str), DateError> {
    let digits = text.get(..2).filter(|digits| digits.bytes().all(|byte| byte.is_ascii_digit()));
    let number = digits.and_then(|digits| digits.parse().ok()).ok_or(DateError::Text)?;
    Ok((number, &text[2..]))
}

/// The number that two digits after a sign are, and what is after them.
fn after(text: &str, sign: char) -> Result<(u8, &str), DateError> {
    two_digits(text.strip_prefix(sign).ok_or(DateError::Text)?)
}

/// The nanoseconds that up to nine digits are, and what is after them.
fn fraction(text: &str) -> Result<(u32, &str), DateError> {
    let count = text.bytes().take_while(u8::is_ascii_digit).count();
    let power = u32::try_from(9_usize.checked_sub(count).ok_or(DateError::Text)?).map_err(|_| DateError::Text)?;
    let digits: u32 = text[..count].parse().map_err(|_| DateError::Text)?;
    Ok((digits * 10_u32.pow(power), &text[count..]))
}

/// The date with the time and the offset that a text has.
fn with_clock(date: FluentDateTime, text: &str) -> Result<FluentDateTime, DateError> {
    let (hour, rest) = two_digits(text)?;
    let (minute, rest) = after(rest, ':')?;
    let (second, rest) = if rest.starts_with(':') { after(rest, ':')? } else { (0, rest) };
    let (nanosecond, rest) = match rest.strip_prefix(['.', ',']) {
        Some(digits) => fraction(digits)?,
        None => (0, rest),
    };
    let date = date.with_time(hour, minute, second, nanosecond)?;
    match rest {
        "" => Ok(date),
        "Z" | "z" => date.with_offset(0),
        _ => {
            let sign = if rest.starts_with('-') { -1 } else { 1 };
            let (hours, rest) = after(rest, if sign < 0 { '-' } else { '+' })?;
            let (minutes, rest) = after(rest, ':')?;
            let (seconds, rest) = if rest.is_empty() { (0, rest) } else { after(rest, ':')? };
            if !rest.is_empty() {
                return Err(DateError::Text);
            }
            if minutes >= 60 || seconds >= 60 {
                return Err(DateError::Offset);
            }
            date.with_offset(sign * (i32::from(hours) * 3600 + i32::from(minutes) * 60 + i32::from(seconds)))
        }
    }
}

/// Reads a date of ISO 8601, and a time and an offset if they are there: `2026-11-28`, `2026-11-28T20:26`,
/// `2026-11-28T20:26:05.123+01:00`.
///
/// The year has four digits. After the date is `T`, in either case, or a space.
impl FromStr for FluentDateTime {
    type Err = DateError;

    fn from_str(text: &str) -> Result<Self, DateError> {
        let (century, rest) = two_digits(text)?;
        let (year, rest) = two_digits(rest)?;
        let (month, rest) = after(rest, '-')?;
        let (day, rest) = after(rest, '-')?;
        let date = FluentDateTime::new(i16::from(century) * 100 + i16::from(year), month, day)?;
        match rest.strip_prefix(['T', 't', ' ']) {
            Some(clock) => with_clock(date, clock),
            None if rest.is_empty() => Ok(date),
            None => Err(DateError::Text),
        }
    }
}
