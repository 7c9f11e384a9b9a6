//! What can be wrong with a calendar.

use super::{write_offset, Window, DATES_PLACE, DATE_BYTES, DAY_MINUTES};
use std::fmt;

/// What is wrong with a calendar, or with a part of it.
#[derive(Clone, Debug, PartialEq, Eq)]
pub enum CalendarError {
    /// A window that does not open before it closes, or closes after 24:00; by minutes of the day.
    WrongWindow {
        /// The minute at which it would open.
        opening: u16,
        /// The minute at which it would close.
        closing: u16,
    },
    /// An offset, in minutes, below -720 or above 840.
    WrongOffset(i32),
    /// A date that does not exist.
    NoSuchDate {
        /// Its year.
        year: u16,
        /// Its month.
        month: u8,
        /// Its day of the month.
        day: u8,
    },
    /// A year before 1970 or after 9999.
    YearOutOfRange(u16),
    /// More than 32 closed dates: so many.
    ManyDates(usize),
    /// Bytes of another length than a calendar of so many dates has.
    WrongLength {
        /// The number of bytes.
        length: usize,
        /// The number of dates that they say.
        dates: usize,
    },
    /// A text that is no weekday.
    NoWeekday(String),
    /// A text that is no window.
    NoWindow(String),
    /// A text that is no offset.
    NoOffset(String),
    /// A text that is no date.
    NoDate(String),
}

impl fmt::Display for CalendarError {
    fn fmt(&self, f: &mut fmt::Formatter<'_>) -> fmt::Result {
        match self {
            CalendarError::WrongWindow { opening, closing } => {
                let window = Window { opening: *opening, closing: *closing };
                let rule = match *closing > DAY_MINUTES {
                    true => "ends at 24:00 at the latest",
                    false => "opens before it closes",
                };
                write!(f, "a window {rule}, and {window} does not")
            }
            CalendarError::WrongOffset(minutes) => {
                f.write_str("local time lies between UTC-12:00 and UTC+14:00, and ")?;
                write_offset(f, *minutes)?;
                f.write_str(" does not")
            }
            CalendarError::NoSuchDate { year, month, day } => {
                write!(f, "there is no date {year:04}-{month:02}-{day:02}")
            }
            CalendarError::YearOutOfRange(year) => {
                write!(f, "the year of a closed date is 1970 to 9999, not {year}")
            }
            CalendarError::ManyDates(dates) => {
                write!(f, "a calendar has at most 32 closed dates, not {dates}")
            }
            CalendarError::WrongLength { length, dates } => {
                let right = DATES_PLACE + DATE_BYTES * dates;
                write!(f, "a calendar of {dates} closed dates has {right} bytes, not {length}")
            }
            CalendarError::NoWeekday(text) => {
                write!(f, "{text:?} is not a weekday: write Mon, Tue, and so on")
            }
            CalendarError::NoWindow(text) => {
                write!(f, "{text:?} is not a window: write two times from 00:00 to 24:00, as 07:30-17:00")
            }
            CalendarError::NoOffset(text) => write!(f, "{text:?} is not an offset: write it as UTC+01:00"),
            CalendarError::NoDate(text) => {
                write!(f, "{text:?} is not a date: write year, month and day, as 2026-12-25")
            }
        }
    }
}

impl std::error::Error for CalendarError {}
