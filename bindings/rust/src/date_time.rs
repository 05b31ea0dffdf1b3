//! Dates and times, and how they are shown.

mod iso_8601;
mod options;

pub use options::{DateStyle, FluentDateTimeOptions, HourCycle, MonthWidth, NumberWidth, TextWidth, ZoneName};

use crate::args::FluentArgs;
use crate::c;
use crate::memoizer::IntlLangMemoizer;
use crate::text::Text;
use crate::value::{FluentType, FluentValue};
use std::borrow::Cow;
use std::error::Error;
use std::fmt;
use std::time::{SystemTime, UNIX_EPOCH};

/// The first thing that is wrong with numbers or a text that make no date or time.
#[derive(Clone, Copy, Debug, PartialEq, Eq)]
pub enum DateError {
    /// The year isn't from -9999 to 9999.
    Year,
    /// The month isn't from 1 to 12.
    Month,
    /// The month has no such day.
    Day,
    /// The hour isn't below 24.
    Hour,
    /// The minute isn't below 60.
    Minute,
    /// The second isn't below 60.
    Second,
    /// The nanosecond isn't below 1,000,000,000.
    Nanosecond,
    /// The offset is a day or more, or its minutes or seconds aren't below 60.
    Offset,
    /// The text isn't in the form that ISO 8601 has.
    Text,
}

impl fmt::Display for DateError {
    fn fmt(&self, f: &mut fmt::Formatter<'_>) -> fmt::Result {
        f.write_str(match self {
            DateError::Year => "the year isn't from -9999 to 9999",
            DateError::Month => "the month isn't from 1 to 12",
            DateError::Day => "the month has no such day",
            DateError::Hour => "the hour isn't below 24",
            DateError::Minute => "the minute isn't below 60",
            DateError::Second => "the second isn't below 60",
            DateError::Nanosecond => "the nanosecond isn't below 1000000000",
            DateError::Offset => "the offset isn't below a day",
            DateError::Text => "not a date in ISO 8601",
        })
    }
}

impl Error for DateError {}

/// A date, its time if it has one, the offset of its clock from UTC if that is known, and how it is shown.
///
/// A message shows it as the locale of the bundle writes it, and `DATETIME` sets its options. The program converts time
/// zones: a value has the date and the time that its clock shows.
///
/// ```
/// use kozhvadi::types::{DateStyle, FluentDateTime};
/// use kozhvadi::{fluent_args, FluentBundle, FluentResource};
///
/// let source = r#"due = Due { $date }, that is on { DATETIME($date, dateStyle: "full") }"#.to_string();
/// let mut bundle = FluentBundle::new(vec!["en"]);
/// bundle.set_use_isolating(false);
/// bundle.add_resource(FluentResource::try_new(source).unwrap()).unwrap();
///
/// let date = FluentDateTime::new(2026, 11, 28)?.with_time(20, 26, 5, 0)?.with_offset(3600)?;
/// let pattern = bundle.get_message("due").and_then(|message| message.value()).unwrap();
/// let text = bundle.format_pattern(pattern, Some(&fluent_args!["date" => date]), &mut vec![]);
/// assert_eq!(text, "Due 11/28/2026, that is on Saturday, November 28, 2026");
/// # Ok::<(), kozhvadi::types::DateError>(())
/// ```
///
/// Dates of other packages need a function of a few lines, such as this one for `chrono`:
///
/// ```ignore
/// fn shown<Z: TimeZone>(time: &DateTime<Z>) -> Result<FluentDateTime, DateError> {
///     let offset = time.offset().fix().local_minus_utc();
///     FluentDateTime::from_system_time(time.to_utc().into(), offset)
/// }
/// ```
#[derive(Clone, Debug, PartialEq, Eq, Hash)]
pub struct FluentDateTime {
    year: i16,
    month: u8,
    day: u8,
    time: Option<Time>,
    offset: Option<i32>,
    /// How the value is shown.
    pub options: FluentDateTimeOptions,
}

#[derive(Clone, Copy, Debug, PartialEq, Eq, Hash)]
struct Time {
    hour: u8,
    minute: u8,
    second: u8,
    nanosecond: u32,
}

/// How many seconds a day has.
const DAY: i64 = 86_400;

fn days_in(year: i16, month: u8) -> u8 {
    match month {
        2 if year % 4 == 0 && (year % 100 != 0 || year % 400 == 0) => 29,
        2 => 28,
        4 | 6 | 9 | 11 => 30,
        _ => 31,
    }
}

impl FluentDateTime {
    /// A date without a time. The year 0 is 1 BC.
    ///
    /// # Errors
    /// [`DateError::Year`], [`DateError::Month`] or [`DateError::Day`], the first that is wrong.
    pub fn new(year: i16, month: u8, day: u8) -> Result<Self, DateError> {
        if !(-9999..=9999).contains(&year) {
            return Err(DateError::Year);
        }
        if !(1..=12).contains(&month) {
            return Err(DateError::Month);
        }
        if day < 1 || day > days_in(year, month) {
            return Err(DateError::Day);
        }
        Ok(FluentDateTime { year, month, day, time: None, offset: None, options: FluentDateTimeOptions::default() })
    }

    /// The date with this time.
    ///
    /// # Errors
    /// [`DateError::Hour`], [`DateError::Minute`], [`DateError::Second`] or [`DateError::Nanosecond`], the first that is
    /// wrong.
    pub fn with_time(mut self, hour: u8, minute: u8, second: u8, nanosecond: u32) -> Result<Self, DateError> {
        if hour >= 24 {
            return Err(DateError::Hour);
        }
        if minute >= 60 {
            return Err(DateError::Minute);
        }
        if second >= 60 {
            return Err(DateError::Second);
        }
        if nanosecond >= 1_000_000_000 {
            return Err(DateError::Nanosecond);
        }
        self.time = Some(Time { hour, minute, second, nanosecond });
        Ok(self)
    }

    /// The date on a clock that is this number of seconds ahead of UTC; a negative number means that it shows less.
    ///
    /// # Errors
    /// [`DateError::Offset`] if it is a day, which is 86,400 seconds, or more.
    pub fn with_offset(mut self, seconds: i32) -> Result<Self, DateError> {
        if i64::from(seconds).abs() >= DAY {
            return Err(DateError::Offset);
        }
        self.offset = Some(seconds);
        Ok(self)
    }

    /// The date and time that a clock shows which is this number of seconds ahead of UTC.
    ///
    /// # Errors
    /// [`DateError::Offset`] if the offset is a day or more, and [`DateError::Year`] for a time after the year 9999 or
    /// before the year -9999.
    pub fn from_system_time(time: SystemTime, offset: i32) -> Result<Self, DateError> {
        let (seconds, nanosecond) = since_1970(time).ok_or(DateError::Year)?;
        let shown = seconds.checked_add(i64::from(offset)).ok_or(DateError::Year)?;
        let second = shown.rem_euclid(DAY);
        let part = |number: i64| u8::try_from(number).map_err(|_| DateError::Second);
        FluentDateTime::of_day(shown.div_euclid(DAY))?
            .with_time(part(second / 3600)?, part(second / 60 % 60)?, part(second % 60)?, nanosecond)?
            .with_offset(offset)
    }

    /// The date that is this number of days after 1 January 1970.
    fn of_day(days: i64) -> Result<Self, DateError> {
        // Days since 1 March of the year 0, in cycles of 400 years, of which a year begins in March.
        let from = days.checked_add(719_468).ok_or(DateError::Year)?;
        let (cycle, day) = (from.div_euclid(146_097), from.rem_euclid(146_097));
        let year = (day - day / 1460 + day / 36_524 - day / 146_096) / 365;
        let of_year = day - (365 * year + year / 4 - year / 100);
        let month = (5 * of_year + 2) / 153;
        let of_month = of_year - (153 * month + 2) / 5 + 1;
        let (month, year) = if month < 10 { (month + 3, year) } else { (month - 9, year + 1) };
        let year = i16::try_from(cycle * 400 + year).map_err(|_| DateError::Year)?;
        let part = |number: i64| u8::try_from(number).map_err(|_| DateError::Day);
        FluentDateTime::new(year, part(month)?, part(of_month)?)
    }

    /// The date with these options.
    pub fn with_options(mut self, options: FluentDateTimeOptions) -> Self {
        self.options = options;
        self
    }

    /// The text that the library reads as this date, if it then shows the date as the package does: one without options,
    /// whose year has no minus.
    #[inline]
    pub(crate) fn for_library(&self) -> Option<String> {
        if !self.is_plain() {
            return None;
        }
        let mut text = String::with_capacity(40);
        self.write_iso(&mut text).ok()?;
        Some(text)
    }

    /// Whether the library shows the date as the package does, if it is given the text of ISO 8601.
    #[inline]
    pub(crate) fn is_plain(&self) -> bool {
        self.year >= 0 && self.options == FluentDateTimeOptions::default()
    }

    /// The text as the locale of a tag writes it, or that of ISO 8601 if CLDR doesn't know its language.
    pub(crate) fn text_in(&self, locale: &str) -> String {
        let time = self.time.unwrap_or(Time { hour: 0, minute: 0, second: 0, nanosecond: 0 });
        let date = c::FluentDate {
            offset: self.offset.unwrap_or(0),
            nanosecond: time.nanosecond,
            year: self.year,
            month: self.month,
            day: self.day,
            hour: time.hour,
            minute: time.minute,
            second: time.second,
            has_time: self.time.is_some(),
            has_offset: self.offset.is_some(),
        };
        let mut text = Text::none();
        let status = self.options.as_arguments().with_c(|options| {
            // SAFETY: each pointer is that of a slice of the length next to it, or of a struct.
            unsafe {
                c::fluent_write_date(
                    locale.as_ptr(),
                    locale.len(),
                    &date,
                    options.as_ptr(),
                    options.len(),
                    text.place(),
                )
            }
        });
        if status == c::FLUENT_READ {
            text.as_str().to_owned()
        } else {
            self.to_string()
        }
    }
}

/// Seconds since 1970, and the nanoseconds after them.
fn since_1970(time: SystemTime) -> Option<(i64, u32)> {
    match time.duration_since(UNIX_EPOCH) {
        Ok(after) => Some((i64::try_from(after.as_secs()).ok()?, after.subsec_nanos())),
        Err(before) => {
            let (seconds, nanos) = (i64::try_from(before.duration().as_secs()).ok()?, before.duration().subsec_nanos());
            Some(if nanos == 0 { (-seconds, 0) } else { (-seconds - 1, 1_000_000_000 - nanos) })
        }
    }
}

impl FluentType for FluentDateTime {
    fn duplicate(&self) -> Box<dyn FluentType + Send> {
        Box::new(self.clone())
    }

    fn as_string(&self, _: &IntlLangMemoizer) -> Cow<'static, str> {
        self.to_string().into()
    }

    fn as_string_threadsafe(&self, intls: &IntlLangMemoizer) -> Cow<'static, str> {
        self.as_string(intls)
    }
}

impl From<FluentDateTime> for FluentValue<'_> {
    fn from(date: FluentDateTime) -> Self {
        FluentValue::Custom(Box::new(date))
    }
}

/// The date that a value of the program's own is, if it is one.
#[inline]
pub(crate) fn date_of(value: &(dyn FluentType + Send)) -> Option<&FluentDateTime> {
    value.as_any().downcast_ref::<FluentDateTime>()
}

/// The locales of a bundle by which values of the program's own are shown.
#[derive(Clone, Copy, Default)]
pub(crate) struct Locales<'b> {
    /// That which writes dates, or the empty one if they are written plainly.
    pub dates: &'b str,
    /// That of the formatters of the program, which may be empty.
    pub formatters: &'b str,
}

/// The text of a value of the program's own, in a bundle of these locales: that of a date is as the locale writes it.
pub(crate) fn shown_in(value: &(dyn FluentType + Send), locales: Locales<'_>) -> String {
    match date_of(value) {
        Some(date) => date.text_in(locales.dates),
        None => value.as_string(&IntlLangMemoizer::of(locales.formatters)).into_owned(),
    }
}

/// The function `DATETIME` that each bundle has: a date with the options of a call.
///
/// # Errors
/// Why there is no date.
pub(crate) fn called(
    positional: &[FluentValue<'static>],
    named: &FluentArgs<'_>,
) -> Result<FluentValue<'static>, String> {
    let date = match positional.first() {
        Some(FluentValue::Custom(value)) => date_of(&**value),
        Some(FluentValue::None | FluentValue::Error) => return Ok(FluentValue::Error),
        _ => None,
    };
    let mut date = date.ok_or_else(|| String::from("the argument is no date"))?.clone();
    date.options.merge(named);
    Ok(date.into())
}
