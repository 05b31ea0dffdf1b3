//! How numbers are shown.

use crate::args::FluentArgs;
use crate::decimal::Decimal;
use crate::value::FluentValue;
use std::hash::{Hash, Hasher};

/// What a number is a number of.
#[derive(Clone, Copy, Debug, Default, PartialEq, Eq, Hash)]
pub enum FluentNumberStyle {
    /// Nothing.
    #[default]
    Decimal,
    /// An amount of money.
    Currency,
    /// A share of a hundred.
    Percent,
}

impl FluentNumberStyle {
    /// The name that the function `NUMBER` has for it.
    fn name(self) -> &'static str {
        match self {
            FluentNumberStyle::Decimal => "decimal",
            FluentNumberStyle::Currency => "currency",
            FluentNumberStyle::Percent => "percent",
        }
    }
}

impl From<&str> for FluentNumberStyle {
    fn from(name: &str) -> Self {
        match name {
            "currency" => FluentNumberStyle::Currency,
            "percent" => FluentNumberStyle::Percent,
            _ => FluentNumberStyle::Decimal,
        }
    }
}

/// How a currency is shown.
#[derive(Clone, Copy, Debug, Default, PartialEq, Eq, Hash)]
pub enum FluentNumberCurrencyDisplayStyle {
    /// As its sign.
    #[default]
    Symbol,
    /// As its code.
    Code,
    /// As its name.
    Name,
}

impl FluentNumberCurrencyDisplayStyle {
    /// The name that the function `NUMBER` has for it.
    fn name(self) -> &'static str {
        match self {
            FluentNumberCurrencyDisplayStyle::Symbol => "symbol",
            FluentNumberCurrencyDisplayStyle::Code => "code",
            FluentNumberCurrencyDisplayStyle::Name => "name",
        }
    }
}

impl From<&str> for FluentNumberCurrencyDisplayStyle {
    fn from(name: &str) -> Self {
        match name {
            "code" => FluentNumberCurrencyDisplayStyle::Code,
            "name" => FluentNumberCurrencyDisplayStyle::Name,
            _ => FluentNumberCurrencyDisplayStyle::Symbol,
        }
    }
}

/// The digits that a number was written with, if it wasn't a float. They count as long as the number is their nearest float.
#[doc(hidden)]
#[derive(Clone, Copy, Debug, Default)]
pub struct Written(pub(crate) Option<Decimal>);

/// Options are compared without the digits of their number.
impl PartialEq for Written {
    fn eq(&self, _: &Written) -> bool {
        true
    }
}

impl Eq for Written {}

impl Hash for Written {
    fn hash<H: Hasher>(&self, _: &mut H) {}
}

/// How a number is shown, in the words of the function `NUMBER`.
#[derive(Clone, Debug, PartialEq, Eq, Hash)]
pub struct FluentNumberOptions {
    /// What the number is a number of.
    pub style: FluentNumberStyle,
    /// The currency.
    pub currency: Option<String>,
    /// How the currency is shown.
    pub currency_display: FluentNumberCurrencyDisplayStyle,
    /// Whether digits are grouped.
    pub use_grouping: bool,
    /// The least number of digits before the point.
    pub minimum_integer_digits: Option<usize>,
    /// The least number of digits after the point. They choose variants too: 1 is `one` in English, and 1.0 is `other`.
    pub minimum_fraction_digits: Option<usize>,
    /// The greatest number of digits after the point.
    pub maximum_fraction_digits: Option<usize>,
    /// The least number of significant digits.
    pub minimum_significant_digits: Option<usize>,
    /// The greatest number of significant digits.
    pub maximum_significant_digits: Option<usize>,
    #[doc(hidden)]
    pub written: Written,
}

impl Default for FluentNumberOptions {
    #[inline]
    fn default() -> Self {
        FluentNumberOptions {
            style: FluentNumberStyle::Decimal,
            currency: None,
            currency_display: FluentNumberCurrencyDisplayStyle::Symbol,
            use_grouping: true,
            minimum_integer_digits: None,
            minimum_fraction_digits: None,
            maximum_fraction_digits: None,
            minimum_significant_digits: None,
            maximum_significant_digits: None,
            written: Written(None),
        }
    }
}

impl FluentNumberOptions {
    /// Takes the options that arguments name as the function `NUMBER` does, such as `minimumFractionDigits`.
    pub fn merge(&mut self, opts: &FluentArgs<'_>) {
        for (name, value) in opts.iter() {
            match value {
                FluentValue::String(text) => self.set_text(name, text),
                FluentValue::Number(number) => self.set_count(name, number.into()),
                FluentValue::Custom(_) | FluentValue::None | FluentValue::Error => {}
            }
        }
    }

    /// Whether there is an option but for `minimum_fraction_digits`, which the digits of a number say.
    #[inline]
    pub(crate) fn are_more(&self) -> bool {
        self.style != FluentNumberStyle::Decimal
            || self.currency.is_some()
            || self.currency_display != FluentNumberCurrencyDisplayStyle::Symbol
            || !self.use_grouping
            || self.minimum_integer_digits.is_some()
            || self.maximum_fraction_digits.is_some()
            || self.minimum_significant_digits.is_some()
            || self.maximum_significant_digits.is_some()
    }

    /// The options that aren't the usual ones, as named arguments of the function `NUMBER`, each after a comma.
    pub(crate) fn as_arguments(&self) -> String {
        let usual = FluentNumberOptions::default();
        let texts = [
            ("style", Some(self.style.name()).filter(|_| self.style != usual.style)),
            // A text that would end the literal is no currency.
            ("currency", self.currency.as_deref().filter(|code| code.bytes().all(|byte| byte.is_ascii_alphanumeric()))),
            (
                "currencyDisplay",
                Some(self.currency_display.name()).filter(|_| self.currency_display != usual.currency_display),
            ),
            ("useGrouping", Some("false").filter(|_| !self.use_grouping)),
        ];
        let counts = [
            ("minimumIntegerDigits", self.minimum_integer_digits),
            ("minimumFractionDigits", self.minimum_fraction_digits),
            ("maximumFractionDigits", self.maximum_fraction_digits),
            ("minimumSignificantDigits", self.minimum_significant_digits),
            ("maximumSignificantDigits", self.maximum_significant_digits),
        ];
        let texts = texts.into_iter().filter_map(|(name, text)| Some(format!(", {name}: \"{}\"", text?)));
        texts.chain(counts.into_iter().filter_map(|(name, count)| Some(format!(", {name}: {}", count?)))).collect()
    }

    fn set_text(&mut self, name: &str, text: &str) {
        match name {
            "style" => self.style = text.into(),
            "currency" => self.currency = Some(text.to_owned()),
            "currencyDisplay" => self.currency_display = text.into(),
            "useGrouping" => self.use_grouping = text != "false",
            _ => {}
        }
    }

    fn set_count(&mut self, name: &str, count: usize) {
        let option = match name {
            "minimumIntegerDigits" => &mut self.minimum_integer_digits,
            "minimumFractionDigits" => &mut self.minimum_fraction_digits,
            "maximumFractionDigits" => &mut self.maximum_fraction_digits,
            "minimumSignificantDigits" => &mut self.minimum_significant_digits,
            "maximumSignificantDigits" => &mut self.maximum_significant_digits,
            _ => return,
        };
        *option = Some(count);
    }
}

#[cfg(test)]
mod tests {
    use super::*;
    use crate::number::FluentNumber;

    #[test]
    fn options_are_merged() {
        let mut options = FluentNumberOptions { minimum_integer_digits: Some(3), ..Default::default() };
        let pairs = [("currency", FluentValue::from("EUR")), ("minimumFractionDigits", 2.into()), ("style", 5.into())];
        options.merge(&pairs.into_iter().collect());
        assert_eq!((options.currency.as_deref(), options.minimum_fraction_digits), (Some("EUR"), Some(2)));
        assert_eq!((options.style, options.minimum_integer_digits), (FluentNumberStyle::Decimal, Some(3)));
        assert_eq!(FluentNumber::new(5.0, options).as_string(), "5.00");
    }
}
