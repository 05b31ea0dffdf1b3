//! How a date or time is shown, in the words of the function `DATETIME`.

use crate::args::FluentArgs;
use crate::value::FluentValue;

/// An enum of the values that an option has, with the names that `DATETIME` has for them.
macro_rules! values {
    ($(#[$about:meta])* $kind:ident { $($(#[$what:meta])* $value:ident = $name:literal,)* }) => {
        $(#[$about])*
        #[derive(Clone, Copy, Debug, PartialEq, Eq, Hash)]
        pub enum $kind {
            $($(#[$what])* $value,)*
        }

        impl $kind {
            fn named(name: &str) -> Option<Self> {
                match name {
                    $($name => Some($kind::$value),)*
                    _ => None,
                }
            }

            fn name(self) -> &'static str {
                match self {
                    $($kind::$value => $name,)*
                }
            }
        }
    };
}

values! {
    /// A style of dates or of times.
    DateStyle {
        /// The longest, for a date with its weekday.
        Full = "full",
        /// A date with the name of its month, a time with its zone.
        Long = "long",
        /// A date with its month abbreviated, a time with seconds.
        Medium = "medium",
        /// The shortest, mostly in digits.
        Short = "short",
    }
}

values! {
    /// How hours are counted.
    HourCycle {
        /// From 0 to 11, twice a day.
        H11 = "h11",
        /// 12, and then from 1 to 11, twice a day.
        H12 = "h12",
        /// From 0 to 23.
        H23 = "h23",
        /// 24, and then from 1 to 23.
        H24 = "h24",
    }
}

values! {
    /// The width of a name.
    TextWidth {
        /// A letter or two.
        Narrow = "narrow",
        /// Abbreviated.
        Short = "short",
        /// The whole name.
        Long = "long",
    }
}

values! {
    /// The width of a number.
    NumberWidth {
        /// As many digits as it has.
        Numeric = "numeric",
        /// Two digits.
        TwoDigit = "2-digit",
    }
}

values! {
    /// The width of a month: a number's, or a name's.
    MonthWidth {
        /// As many digits as it has.
        Numeric = "numeric",
        /// Two digits.
        TwoDigit = "2-digit",
        /// A letter or two.
        Narrow = "narrow",
        /// The name, abbreviated.
        Short = "short",
        /// The whole name.
        Long = "long",
    }
}

values! {
    /// How the offset of a clock is named.
    ZoneName {
        /// UTC, or an offset such as GMT+1.
        Short = "short",
        /// The name of UTC, or an offset such as GMT+01:00.
        Long = "long",
        /// An offset such as GMT+1.
        ShortOffset = "shortOffset",
        /// An offset such as GMT+01:00.
        LongOffset = "longOffset",
        /// An offset such as GMT+1.
        ShortGeneric = "shortGeneric",
        /// An offset such as GMT+01:00.
        LongGeneric = "longGeneric",
    }
}

/// How a date or time is shown, in the words of the function `DATETIME`: by the styles of the locale, or by components.
///
/// If a style is set, only `hour_cycle` and `hour12` count of the other options. If no option is set but `era` and
/// `time_zone_name`, year, month and day are shown in digits, too.
#[derive(Clone, Debug, Default, PartialEq, Eq, Hash)]
pub struct FluentDateTimeOptions {
    /// The style of the date.
    pub date_style: Option<DateStyle>,
    /// The style of the time.
    pub time_style: Option<DateStyle>,
    /// How hours are counted, unless `hour12` is set.
    pub hour_cycle: Option<HourCycle>,
    /// Whether twelve hours are counted, as the locale does, or 24 from 0.
    pub hour12: Option<bool>,
    /// The width of the weekday.
    pub weekday: Option<TextWidth>,
    /// The width of the era.
    pub era: Option<TextWidth>,
    /// The width of the year.
    pub year: Option<NumberWidth>,
    /// The width of the month.
    pub month: Option<MonthWidth>,
    /// The width of the day of the month.
    pub day: Option<NumberWidth>,
    /// The width of the part of the day, as `at night`.
    pub day_period: Option<TextWidth>,
    /// The width of the hour.
    pub hour: Option<NumberWidth>,
    /// The width of the minute.
    pub minute: Option<NumberWidth>,
    /// The width of the second.
    pub second: Option<NumberWidth>,
    /// How many digits of the second's fraction are shown, from 1 to 3; other numbers don't count.
    pub fractional_second_digits: Option<u8>,
    /// How the offset of the clock is named.
    pub time_zone_name: Option<ZoneName>,
}

/// Sets an option to the value that a text names, if it names one.
fn set<T>(option: &mut Option<T>, named: Option<T>) {
    if named.is_some() {
        *option = named;
    }
}

impl FluentDateTimeOptions {
    /// Sets the options that a message has: a text, or a number for `fractionalSecondDigits`. An option that isn't there
    /// changes nothing, and neither does a value that it doesn't have.
    pub fn merge(&mut self, args: &FluentArgs<'_>) {
        for (name, value) in args.iter() {
            match value {
                FluentValue::String(text) => self.set_named(name, text),
                FluentValue::Number(number) if name == "fractionalSecondDigits" => {
                    let digits = number.value.trunc();
                    set(&mut self.fractional_second_digits, (1..=3).find(|&each| f64::from(each) == digits));
                }
                _ => {}
            }
        }
    }

    fn set_named(&mut self, name: &str, text: &str) {
        match name {
            "dateStyle" => set(&mut self.date_style, DateStyle::named(text)),
            "timeStyle" => set(&mut self.time_style, DateStyle::named(text)),
            "hourCycle" => set(&mut self.hour_cycle, HourCycle::named(text)),
            "hour12" => set(&mut self.hour12, text.parse().ok()),
            "weekday" => set(&mut self.weekday, TextWidth::named(text)),
            "era" => set(&mut self.era, TextWidth::named(text)),
            "year" => set(&mut self.year, NumberWidth::named(text)),
            "month" => set(&mut self.month, MonthWidth::named(text)),
            "day" => set(&mut self.day, NumberWidth::named(text)),
            "dayPeriod" => set(&mut self.day_period, TextWidth::named(text)),
            "hour" => set(&mut self.hour, NumberWidth::named(text)),
            "minute" => set(&mut self.minute, NumberWidth::named(text)),
            "second" => set(&mut self.second, NumberWidth::named(text)),
            "timeZoneName" => set(&mut self.time_zone_name, ZoneName::named(text)),
            _ => {}
        }
    }

    /// The options, as the library takes them.
    pub(super) fn as_arguments(&self) -> FluentArgs<'static> {
        let mut args = FluentArgs::new();
        let texts = [
            ("dateStyle", self.date_style.map(DateStyle::name)),
            ("timeStyle", self.time_style.map(DateStyle::name)),
            ("hourCycle", self.hour_cycle.map(HourCycle::name)),
            ("hour12", self.hour12.map(|is| if is { "true" } else { "false" })),
            ("weekday", self.weekday.map(TextWidth::name)),
            ("era", self.era.map(TextWidth::name)),
            ("year", self.year.map(NumberWidth::name)),
            ("month", self.month.map(MonthWidth::name)),
            ("day", self.day.map(NumberWidth::name)),
            ("dayPeriod", self.day_period.map(TextWidth::name)),
            ("hour", self.hour.map(NumberWidth::name)),
            ("minute", self.minute.map(NumberWidth::name)),
            ("second", self.second.map(NumberWidth::name)),
            ("timeZoneName", self.time_zone_name.map(ZoneName::name)),
        ];
        for (name, text) in texts {
            if let Some(text) = text {
                args.set(name, text);
            }
        }
        if let Some(digits) = self.fractional_second_digits {
            args.set("fractionalSecondDigits", digits);
        }
        args
    }
}
