//! Sending hours: a calendar says when messages may leave.

mod error;

pub use error::CalendarError;

use crate::date;
use crate::{Date, Weekday};
use std::fmt;
use std::str::FromStr;

const MINUTE_MS: u64 = 60_000;
const DAY_MINUTES: u16 = 1_440;

const WINDOW_BYTES: usize = 4;
const DATE_BYTES: usize = 4;
const OFFSET_PLACE: usize = 7 * WINDOW_BYTES;
const NUMBER_PLACE: usize = OFFSET_PLACE + 2;
const DATES_PLACE: usize = NUMBER_PLACE + 1;

/// What the offset's bytes are above it.
const OFFSET_ABOVE: i32 = 720;

/// When messages may leave, as the bytes that a wake reads: a window for each weekday, the offset of local time
/// from UTC, and dates on which it is closed all day. A `Calendar` is always well formed.
///
/// ```
/// use socketlemon::{Calendar, Date, Offset, Weekday, Window};
/// let mut calendar = Calendar::closed().offset("UTC+01:00".parse()?).close_on(Date::new(2026, 12, 25)?)?;
/// for weekday in &Weekday::ALL[..5] {
///     calendar = calendar.open(*weekday, "07:30-17:00".parse()?);
/// }
///
/// // 7:30 on Monday 23 November 2026, one hour earlier by UTC, and the millisecond before
/// let monday = 1_795_415_400_000;
/// assert!(calendar.is_open(monday) && !calendar.is_open(monday - 1));
/// assert_eq!(calendar.local_time(monday).to_string(), "Mon 2026-11-23 07:30");
/// let friday_evening = monday - 60 * 3_600_000;
/// assert_eq!(calendar.next_opening(friday_evening), Some(monday));
/// assert!(Calendar::always().is_open(0));
/// # Ok::<(), socketlemon::CalendarError>(())
/// ```
#[derive(Clone, Debug, PartialEq, Eq)]
pub struct Calendar {
    bytes: Vec<u8>,
}

impl Calendar {
    /// The most closed dates.
    pub const MOST_DATES: usize = 32;

    /// A calendar that never opens: [`Calendar::open`] opens it, weekday by weekday. Its local time is UTC.
    pub fn closed() -> Calendar {
        Calendar { bytes: vec![0; DATES_PLACE] }.offset(Offset::UTC)
    }

    /// A calendar that is always open.
    pub fn always() -> Calendar {
        Weekday::ALL.into_iter().fold(Calendar::closed(), |calendar, day| calendar.open(day, Window::ALL_DAY))
    }

    /// The same calendar with this window on a weekday.
    pub fn open(mut self, weekday: Weekday, window: Window) -> Calendar {
        let place = WINDOW_BYTES * weekday as usize;
        self.put(place, window.opening);
        self.put(place + 2, window.closing);
        self
    }

    /// The same calendar by this local time.
    pub fn offset(mut self, offset: Offset) -> Calendar {
        // an offset is above -721
        self.put(OFFSET_PLACE, (i32::from(offset.minutes) + OFFSET_ABOVE) as u16);
        self
    }

    /// The same calendar, closed on one more date; at most 32.
    pub fn close_on(mut self, date: Date) -> Result<Calendar, CalendarError> {
        let dates = usize::from(self.bytes[NUMBER_PLACE]) + 1;
        if dates > Self::MOST_DATES {
            return Err(CalendarError::ManyDates(dates));
        }
        self.bytes[NUMBER_PLACE] += 1;
        self.bytes.extend(date.year().to_be_bytes());
        self.bytes.extend([date.month(), date.day()]);
        Ok(self)
    }

    /// The calendar of these bytes, if they are one: exactly those that a wake does not refuse with
    /// [`Refusal::BadCalendar`](crate::Refusal::BadCalendar).
    pub fn from_bytes(bytes: &[u8]) -> Result<Calendar, CalendarError> {
        let length = bytes.len();
        let dates = bytes.get(NUMBER_PLACE).map_or(0, |number| usize::from(*number));
        if dates > Self::MOST_DATES {
            return Err(CalendarError::ManyDates(dates));
        }
        if length != DATES_PLACE + DATE_BYTES * dates {
            return Err(CalendarError::WrongLength { length, dates });
        }
        let calendar = Calendar { bytes: bytes.to_vec() };
        for weekday in Weekday::ALL {
            match calendar.minutes(weekday) {
                (0, 0) => {}
                (opening, closing) => drop(Window::new(opening, closing)?),
            }
        }
        Offset::new(calendar.offset_minutes())?;
        calendar.written_dates().try_for_each(|(year, month, day)| Date::new(year, month, day).map(drop))?;
        Ok(calendar)
    }

    /// The calendar's bytes.
    pub fn as_bytes(&self) -> &[u8] {
        &self.bytes
    }

    /// The window of a weekday, if it opens on it.
    pub fn window(&self, weekday: Weekday) -> Option<Window> {
        let (opening, closing) = self.minutes(weekday);
        Window::new(opening, closing).ok()
    }

    /// The offset of its local time from UTC.
    pub fn utc_offset(&self) -> Offset {
        // it lies between -720 and 840
        Offset { minutes: self.offset_minutes() as i16 }
    }

    /// The dates on which it is closed all day, as they were given.
    pub fn closed_dates(&self) -> impl Iterator<Item = Date> + '_ {
        self.written_dates().filter_map(|(year, month, day)| Date::new(year, month, day).ok())
    }

    /// The local time at a time, in milliseconds since 1970 in UTC.
    pub fn local_time(&self, unix_ms: u64) -> LocalTime {
        // 2^64 milliseconds are fewer than 2^49 minutes
        LocalTime { minutes: (unix_ms / MINUTE_MS) as i64 + i64::from(self.offset_minutes()) }
    }

    /// Whether it is open at a time, in milliseconds since 1970 in UTC. Weekday, minute and date are local.
    pub fn is_open(&self, unix_ms: u64) -> bool {
        let time = self.local_time(unix_ms);
        let is_within = |window: Window| (window.opening..window.closing).contains(&time.minute());
        self.window_on(time.day()).map_or(false, is_within)
    }

    /// The first time from this one on at which it is open, if there is one.
    pub fn next_opening(&self, unix_ms: u64) -> Option<u64> {
        if self.is_open(unix_ms) {
            return Some(unix_ms);
        }
        let now = self.local_time(unix_ms);
        // today's window may be over, and 32 closed dates shut a weekday for as many weeks more
        let last = now.day() + 7 * (Self::MOST_DATES as i64 + 1);
        (now.day()..=last).find_map(|day| {
            let opening = i64::from(self.window_on(day)?.opening) + day * i64::from(DAY_MINUTES);
            let utc = u64::try_from(opening - i64::from(self.offset_minutes())).ok()?;
            utc.checked_mul(MINUTE_MS).filter(|opens| *opens > unix_ms)
        })
    }

    /// The window on a day, if it opens on it; day 0 is 1 January 1970.
    fn window_on(&self, day: i64) -> Option<Window> {
        let (year, month, day_of_month) = date::of_day(day);
        let is_closed =
            self.written_dates().any(|(y, m, d)| (i64::from(y), m, d) == (year, month, day_of_month));
        self.window(Weekday::of_day(day)).filter(|_| !is_closed)
    }

    fn minutes(&self, weekday: Weekday) -> (u16, u16) {
        let place = WINDOW_BYTES * weekday as usize;
        (self.get(place), self.get(place + 2))
    }

    fn offset_minutes(&self) -> i32 {
        i32::from(self.get(OFFSET_PLACE)) - OFFSET_ABOVE
    }

    fn written_dates(&self) -> impl Iterator<Item = (u16, u8, u8)> + '_ {
        let date = |date: &[u8]| (u16::from_be_bytes([date[0], date[1]]), date[2], date[3]);
        self.bytes[DATES_PLACE..].chunks_exact(DATE_BYTES).map(date)
    }

    fn get(&self, place: usize) -> u16 {
        u16::from_be_bytes([self.bytes[place], self.bytes[place + 1]])
    }

    fn put(&mut self, place: usize, number: u16) {
        self.bytes[place..place + 2].copy_from_slice(&number.to_be_bytes());
    }
}

/// The hours of a weekday, shown as `07:30-17:00`. The opening minute belongs to them, the closing minute not.
#[derive(Clone, Copy, Debug, PartialEq, Eq, Hash)]
pub struct Window {
    opening: u16,
    closing: u16,
}

impl Window {
    /// From midnight to midnight.
    pub const ALL_DAY: Window = Window { opening: 0, closing: DAY_MINUTES };

    /// A window by its minutes of the day; it opens before it closes, and closes by 1,440.
    pub fn new(opening: u16, closing: u16) -> Result<Window, CalendarError> {
        if opening >= closing || closing > DAY_MINUTES {
            return Err(CalendarError::WrongWindow { opening, closing });
        }
        Ok(Window { opening, closing })
    }

    /// The minute of the day at which it opens.
    pub fn opening(self) -> u16 {
        self.opening
    }

    /// The minute of the day at which it closes.
    pub fn closing(self) -> u16 {
        self.closing
    }
}

impl fmt::Display for Window {
    fn fmt(&self, f: &mut fmt::Formatter<'_>) -> fmt::Result {
        write!(f, "{}-{}", Clock(self.opening), Clock(self.closing))
    }
}

impl FromStr for Window {
    type Err = CalendarError;

    /// Reads `07:30-17:00`, or `7:30-17:00`; `24:00` is the end of the day.
    fn from_str(text: &str) -> Result<Window, CalendarError> {
        let times =
            text.split_once('-').and_then(|(opening, closing)| Some((clock(opening)?, clock(closing)?)));
        let (opening, closing) = times.ok_or_else(|| CalendarError::NoWindow(text.to_owned()))?;
        Window::new(opening, closing)
    }
}

/// How far local time is from UTC, shown as `UTC+01:00`: from `UTC-12:00` to `UTC+14:00`.
#[derive(Clone, Copy, Debug, PartialEq, Eq, Hash)]
pub struct Offset {
    minutes: i16,
}

impl Offset {
    /// No offset.
    pub const UTC: Offset = Offset { minutes: 0 };

    /// An offset by its minutes, -720 to 840; before UTC, to the west, it is negative.
    pub fn new(minutes: i32) -> Result<Offset, CalendarError> {
        match i16::try_from(minutes) {
            Ok(minutes @ -720..=840) => Ok(Offset { minutes }),
            _ => Err(CalendarError::WrongOffset(minutes)),
        }
    }

    /// Its minutes.
    pub fn minutes(self) -> i16 {
        self.minutes
    }
}

impl fmt::Display for Offset {
    fn fmt(&self, f: &mut fmt::Formatter<'_>) -> fmt::Result {
        write_offset(f, i32::from(self.minutes))
    }
}

impl FromStr for Offset {
    type Err = CalendarError;

    /// Reads `UTC`, `UTC+01:00` or `UTC-3:30`.
    fn from_str(text: &str) -> Result<Offset, CalendarError> {
        let unreadable = || CalendarError::NoOffset(text.to_owned());
        let rest = text.strip_prefix("UTC").ok_or_else(unreadable)?;
        let minutes = match (rest.strip_prefix('+'), rest.strip_prefix('-')) {
            _ if rest.is_empty() => Some(0),
            (Some(ahead), _) => clock(ahead).map(i32::from),
            (_, Some(behind)) => clock(behind).map(|minutes| -i32::from(minutes)),
            _ => None,
        };
        Offset::new(minutes.ok_or_else(unreadable)?)
    }
}

/// A local time, shown as `Mon 2026-11-23 07:30`.
#[derive(Clone, Copy, Debug, PartialEq, Eq)]
pub struct LocalTime {
    /// Minutes since 1 January 1970, 0:00.
    minutes: i64,
}

impl LocalTime {
    /// The day of the week.
    pub fn weekday(self) -> Weekday {
        Weekday::of_day(self.day())
    }

    /// The minute of the day, 0 to 1,439.
    pub fn minute(self) -> u16 {
        self.minutes.rem_euclid(i64::from(DAY_MINUTES)) as u16
    }

    /// The day; day 0 is 1 January 1970.
    fn day(self) -> i64 {
        self.minutes.div_euclid(i64::from(DAY_MINUTES))
    }
}

impl fmt::Display for LocalTime {
    fn fmt(&self, f: &mut fmt::Formatter<'_>) -> fmt::Result {
        let (year, month, day) = date::of_day(self.day());
        write!(f, "{} {year:04}-{month:02}-{day:02} {}", self.weekday(), Clock(self.minute()))
    }
}

/// A minute of the day as hours and minutes.
struct Clock(u16);

impl fmt::Display for Clock {
    fn fmt(&self, f: &mut fmt::Formatter<'_>) -> fmt::Result {
        write!(f, "{:02}:{:02}", self.0 / 60, self.0 % 60)
    }
}

/// Reads hours and minutes, up to `24:00`, as minutes.
fn clock(text: &str) -> Option<u16> {
    let (hours, minutes) = text.split_once(':')?;
    let is_number = |part: &str| part.bytes().all(|byte| byte.is_ascii_digit());
    if !(1..=2).contains(&hours.len()) || minutes.len() != 2 || !is_number(hours) || !is_number(minutes) {
        return None;
    }
    let (hours, minutes): (u16, u16) = (hours.parse().ok()?, minutes.parse().ok()?);
    (minutes < 60 && hours * 60 + minutes <= DAY_MINUTES).then_some(hours * 60 + minutes)
}

fn write_offset(f: &mut fmt::Formatter<'_>, minutes: i32) -> fmt::Result {
    let (sign, size) = (if minutes < 0 { '-' } else { '+' }, minutes.unsigned_abs());
    write!(f, "UTC{sign}{:02}:{:02}", size / 60, size % 60)
}

#[cfg(test)]
mod tests;
