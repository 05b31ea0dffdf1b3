//! Numbers.

use crate::decimal::{Decimal, DIGITS};
use crate::options::{FluentNumberOptions, Written};
use crate::value::FluentValue;
use std::borrow::Cow;
use std::error::Error;
use std::fmt;
use std::str::FromStr;

/// How much a number is.
#[derive(Clone, Copy, Debug, PartialEq)]
enum Amount {
    /// A decimal, exactly.
    Decimal(Decimal),
    /// A float that isn't a number, or has an absolute value of 2^64 or more.
    Float(f64),
}

/// A number, and how it is shown.
///
/// An integer and a decimal are kept exactly beside their nearest float: a decimal with at most 18 digits after the
/// point, and a whole part below 2^64. A float is rounded to that: the digits are those that Rust shows, so `1.0` is 1
/// and `0.1` is 0.1. A float that isn't a number, or is too large, is shown as Rust shows it, and chooses variants as a
/// text.
///
/// ```
/// use kozhvadi::types::{FluentNumber, FluentNumberOptions};
///
/// let options = FluentNumberOptions { minimum_fraction_digits: Some(2), ..Default::default() };
/// let number = FluentNumber { value: 2.5, options };
/// assert_eq!((number.value, number.as_string().as_ref()), (2.5, "2.50"));
/// ```
#[derive(Clone)]
pub struct FluentNumber {
    /// The nearest float. If you set it, the number is that float.
    pub value: f64,
    /// How the number is shown.
    pub options: FluentNumberOptions,
}

/// Numbers are equal if they are as much, and are shown in the same way.
impl PartialEq for FluentNumber {
    fn eq(&self, other: &FluentNumber) -> bool {
        self.amount() == other.amount() && self.options == other.options
    }
}

impl fmt::Debug for FluentNumber {
    fn fmt(&self, f: &mut fmt::Formatter<'_>) -> fmt::Result {
        f.debug_struct("FluentNumber").field("amount", &self.amount()).field("options", &self.options).finish()
    }
}

/// A text isn't the number that it was taken for.
#[derive(Clone, Debug, PartialEq, Eq)]
pub struct ParseNumberError;

impl fmt::Display for ParseNumberError {
    fn fmt(&self, f: &mut fmt::Formatter<'_>) -> fmt::Result {
        f.write_str("the text isn't a decimal, or has more than 18 digits after its point or 2^64 or more before it")
    }
}

impl Error for ParseNumberError {}

/// How a number is passed to the library.
pub(crate) enum Given {
    Signed(i64),
    Unsigned(u64),
    /// A number as it is written.
    Decimal(String),
    /// A number of no written digits.
    Float(String),
    Text(String),
}

impl FluentNumber {
    /// A number of these options.
    pub fn new(value: f64, options: FluentNumberOptions) -> Self {
        FluentNumber { value, options }
    }

    /// The number of a decimal.
    #[inline]
    fn of(decimal: Decimal) -> Self {
        let options = FluentNumberOptions { written: Written(Some(decimal)), ..FluentNumberOptions::default() };
        FluentNumber { value: decimal.nearest(), options }
    }

    /// The decimal that the number was made of, as long as it is that number.
    #[inline]
    fn written(&self) -> Option<Decimal> {
        self.options.written.0.filter(|decimal| decimal.nearest() == self.value)
    }

    fn amount(&self) -> Amount {
        let decimal = self.written().or_else(|| Decimal::rounded(&self.value.to_string()));
        decimal.map_or(Amount::Float(self.value), Amount::Decimal)
    }

    /// The nearest float.
    pub fn value(&self) -> f64 {
        self.value
    }

    /// The text, with the least number of digits after the point.
    pub fn as_string(&self) -> Cow<'static, str> {
        Cow::Owned(match self.amount() {
            Amount::Decimal(decimal) => decimal.text(self.options.minimum_fraction_digits),
            Amount::Float(value) => value.to_string(),
        })
    }

    /// The integer that the number is, if it has no digits after the point. A large one may be left out.
    #[inline]
    pub(crate) fn plain_integer(&self) -> Option<i64> {
        /// Each integer up to this one is a float of its own.
        const MOST: f64 = 9_007_199_254_740_992.0;
        let integer = match self.options.written.0 {
            Some(decimal) => decimal.signed()?,
            None if self.value.abs() <= MOST => self.value as i64,
            None => return None,
        };
        (self.options.minimum_fraction_digits.is_none() && integer as f64 == self.value).then_some(integer)
    }

    /// The number, as it is passed to the library.
    #[inline]
    pub(crate) fn given(&self) -> Given {
        match self.plain_integer() {
            Some(integer) => Given::Signed(integer),
            None => self.given_as(self.written(), self.options.minimum_fraction_digits),
        }
    }

    /// What is given of a number that isn't the integer that it was made of.
    #[inline(never)]
    fn given_as(&self, written: Option<Decimal>, least: Option<usize>) -> Given {
        let decimal = match self.amount() {
            Amount::Float(value) => return Given::Text(value.to_string()),
            Amount::Decimal(decimal) => decimal,
        };
        let integer = if least.is_none() { decimal.integer() } else { None };
        match integer.map(|integer| (i64::try_from(integer), u64::try_from(integer))) {
            Some((Ok(integer), _)) => Given::Signed(integer),
            Some((_, Ok(integer))) => Given::Unsigned(integer),
            _ if least.is_none() && written.is_none() => Given::Float(decimal.text(None)),
            _ => Given::Decimal(decimal.text(least)),
        }
    }

    /// The number as it is passed to a call of `NUMBER` that has all its options.
    pub(crate) fn without_options(&self) -> FluentNumber {
        FluentNumber {
            value: self.value,
            options: FluentNumberOptions { written: self.options.written, ..Default::default() },
        }
    }

    /// Whether the number is a text for the library, since it is too large or none.
    pub(crate) fn is_text(&self) -> bool {
        matches!(self.amount(), Amount::Float(_))
    }

    /// Whether there is an option but for the digits after the point.
    #[inline]
    pub(crate) fn has_more_options(&self) -> bool {
        self.options.are_more()
    }
}

/// A text is shown with the digits after its point: `1.50` as `1.50`.
impl FromStr for FluentNumber {
    type Err = ParseNumberError;

    fn from_str(text: &str) -> Result<Self, ParseNumberError> {
        let decimal = Decimal::parse(text).ok_or(ParseNumberError)?;
        let mut number = FluentNumber::of(decimal);
        number.options.minimum_fraction_digits = text.find('.').map(|point| text.len() - point - 1);
        debug_assert!(number.options.minimum_fraction_digits <= Some(DIGITS));
        Ok(number)
    }
}

impl fmt::Display for FluentNumber {
    fn fmt(&self, f: &mut fmt::Formatter<'_>) -> fmt::Result {
        f.write_str(&self.as_string())
    }
}

/// Conversions from integers, which are exact if they are below 2^64, and to them: toward zero, to the nearest that the
/// type has.
macro_rules! integers {
    ($($integer:ty),*) => {$(
        impl From<$integer> for FluentNumber {
            #[inline]
            fn from(n: $integer) -> Self {
                match i128::try_from(n).ok().and_then(Decimal::of_integer) {
                    Some(decimal) => FluentNumber::of(decimal),
                    None => FluentNumber::new(n as f64, FluentNumberOptions::default()),
                }
            }
        }

        impl From<&FluentNumber> for $integer {
            fn from(number: &FluentNumber) -> Self {
                match number.amount() {
                    Amount::Decimal(decimal) => {
                        let integer = decimal.truncated();
                        let bound = if integer < 0 { <$integer>::MIN } else { <$integer>::MAX };
                        integer.try_into().unwrap_or(bound)
                    }
                    Amount::Float(value) => value as $integer,
                }
            }
        }
    )*};
}

integers!(i8, i16, i32, i64, i128, isize, u8, u16, u32, u64, u128, usize);

impl From<f64> for FluentNumber {
    #[inline]
    fn from(n: f64) -> Self {
        FluentNumber::new(n, FluentNumberOptions::default())
    }
}

/// The digits are those that Rust shows, and not those of the `f64` that the number is.
impl From<f32> for FluentNumber {
    fn from(n: f32) -> Self {
        FluentNumber::from(n.to_string().parse().unwrap_or(f64::from(n)))
    }
}

/// Conversions to floats.
macro_rules! floats {
    ($($float:ty),*) => {$(
        impl From<&FluentNumber> for $float {
            fn from(number: &FluentNumber) -> Self {
                number.value as $float
            }
        }
    )*};
}

floats!(f32, f64);

/// What is the same for integers and floats.
macro_rules! numbers {
    ($($number:ty),*) => {$(
        impl From<FluentNumber> for $number {
            fn from(number: FluentNumber) -> Self {
                (&number).into()
            }
        }

        impl From<$number> for FluentValue<'_> {
            #[inline]
            fn from(n: $number) -> Self {
                FluentValue::Number(n.into())
            }
        }

        impl From<&$number> for FluentValue<'_> {
            fn from(n: &$number) -> Self {
                FluentValue::from(*n)
            }
        }
    )*};
}

numbers!(i8, i16, i32, i64, i128, isize, u8, u16, u32, u64, u128, usize, f32, f64);

#[cfg(test)]
mod tests {
    use super::*;

    fn shown(number: impl Into<FluentNumber>) -> String {
        number.into().as_string().into_owned()
    }

    #[test]
    fn numbers_are_shown() {
        assert_eq!(shown(1.0), "1");
        assert_eq!(shown(0.1_f32), "0.1");
        assert_eq!(shown(-0.0), "0");
        assert_eq!(shown(2.0 / 3e6), "0.000000666666666667");
        assert_eq!(shown(1e19), "10000000000000000000");
        assert_eq!(shown(1e21), "1000000000000000000000");
        assert_eq!(shown(f64::NAN), "NaN");
        assert_eq!(shown(i128::from(u64::MAX)), "18446744073709551615");
        assert_eq!(shown(u128::from(u64::MAX) + 1), "18446744073709552000");
        assert_eq!(FluentNumber::from_str("1.50").map(shown), Ok("1.50".into()));
        for text in ["1e5", "junk", "", "NaN", "1.1234567890123456789"] {
            assert_eq!(FluentNumber::from_str(text), Err(ParseNumberError));
        }
    }

    #[test]
    fn numbers_are_equal_by_their_amount_and_options() {
        assert_eq!(FluentValue::from(5), FluentValue::try_number("5"));
        assert_eq!(FluentValue::from(5_u64), FluentValue::from(5.0));
        assert_ne!(FluentValue::from(5), FluentValue::try_number("5.0"));
        assert_ne!(FluentNumber::from(f64::NAN), FluentNumber::from(f64::NAN));
    }

    #[test]
    fn plain_integers_are_those_that_are_given() {
        let exact = 1_i64 << 53;
        let values = [0.0, -0.0, 5.0, -3.0, 0.5, 1e300, f64::NAN, f64::INFINITY, exact as f64, (2 * exact) as f64];
        let numbers = values
            .map(FluentNumber::from)
            .into_iter()
            .chain([0, -5, exact, exact + 1, -exact - 1, i64::MAX, -i64::MAX].map(FluentNumber::from));
        for number in numbers {
            let slowly = number.given_as(number.written(), number.options.minimum_fraction_digits);
            match (number.plain_integer(), slowly) {
                (Some(integer), Given::Signed(given)) => assert_eq!(integer, given),
                (Some(integer), _) => panic!("{integer}"),
                (None, _) => {}
            }
        }
        assert_eq!(FluentNumber::from(-5).plain_integer(), Some(-5));
        assert_eq!(FluentNumber::from(exact + 1).plain_integer(), Some(exact + 1));
        assert_eq!(FluentNumber::from(2.0).plain_integer(), Some(2));
        assert_eq!(FluentNumber::from_str("5.0").map(|number| number.plain_integer()), Ok(None));
        let changed = FluentNumber { value: 6.0, ..FluentNumber::from(5) };
        assert_eq!(changed.plain_integer(), None);
    }

    #[test]
    fn numbers_are_converted() {
        assert_eq!(i8::from(FluentNumber::from(-3.7)), -3);
        assert_eq!(u8::from(FluentNumber::from(300)), u8::MAX);
        assert_eq!(u8::from(FluentNumber::from(-1)), 0);
        assert_eq!(u64::from(FluentNumber::from(u64::MAX)), u64::MAX);
        assert_eq!(f64::from(FluentNumber::from(0.1)), 0.1);
        assert_eq!(FluentNumber::from(f64::INFINITY).value(), f64::INFINITY);
    }
}
