//! Weekdays, and the dates of the Gregorian calendar.

use crate::CalendarError;
use std::fmt;
use std::str::FromStr;

/// A day of the week, shown by its first three letters.
#[derive(Clone, Copy, Debug, PartialEq, Eq, PartialOrd, Ord, Hash)]
pub enum Weekday {
    /// Mon
    Monday,
    /// Tue
    Tuesday,
    /// Wed
    Wednesday,
    /// Thu
    Thursday,
    /// Fri
    Friday,
    /// Sat
    Saturday,
    /// Sun
    Sunday,
}

impl Weekday {
    /// The week, from Monday on.
    pub const ALL: [Weekday; 7] = [
        Weekday::Monday,
        Weekday::Tuesday,
        Weekday::Wednesday,
        Weekday::Thursday,
        Weekday::Friday,
        Weekday::Saturday,
        Weekday::Sunday,
    ];

    /// Its name in English.
    pub fn name(self) -> &'static str {
        match self {
            Weekday::Monday => "Monday",
            Weekday::Tuesday => "Tuesday",
            Weekday::Wednesday => "Wednesday",
            Weekday::Thursday => "Thursday",
            Weekday::Friday => "Friday",
            Weekday::Saturday => "Saturday",
            Weekday::Sunday => "Sunday",
        }
    }

    /// The weekday of a day; day 0 is 1 January 1970, a Thursday.
    pub(crate) fn of_day(day: i64) -> Weekday {
        let thursday = Weekday::Thursday as i64;
        Weekday::ALL[(day + thursday).rem_euclid(7) as usize]
    }
}

impl fmt::Display for Weekday {
    fn fmt(&self, f: &mut fmt::Formatter<'_>) -> fmt::Result {
        f.write_str(&self.name()[..3])
    }
}

impl FromStr for Weekday {
    type Err = CalendarError;

    /// Reads `Mon` or `Monday`, in capitals or not.
    fn from_str(text: &str) -> Result<Weekday, CalendarError> {
        let is = |name: &str| text.eq_ignore_ascii_case(name);
        let found = Weekday::ALL.into_iter().find(|day| is(day.name()) || is(&day.name()[..3]));
        found.ok_or_else(|| CalendarError::NoWeekday(text.to_owned()))
    }
}

/// A date that exists, in the years 1970 to 9999, shown as `2026-12-25`.
#[derive(Clone, Copy, Debug, PartialEq, Eq, PartialOrd, Ord, Hash)]
pub struct Date {
    year: u16,
    month: u8,
    day: u8,
}

impl Date {
    /// The date of a year, a month and a day of the month, which count from 1.
    ///
    /// ```
    /// use socketlemon::Date;
    /// assert_eq!(Date::new(2096, 2, 29)?.to_string(), "2096-02-29");
    /// let error = Date::new(2100, 2, 29).expect_err("no leap year");
    /// assert_eq!(error.to_string(), "there is no date 2100-02-29");
    /// # Ok::<(), socketlemon::CalendarError>(())
    /// ```
    pub fn new(year: u16, month: u8, day: u8) -> Result<Date, CalendarError> {
        if !(1970..=9999).contains(&year) {
            return Err(CalendarError::YearOutOfRange(year));
        }
        if !(1..=12).contains(&month) || !(1..=month_days(year, month)).contains(&day) {
            return Err(CalendarError::NoSuchDate { year, month, day });
        }
        Ok(Date { year, month, day })
    }

    /// Its year.
    pub fn year(self) -> u16 {
        self.year
    }

    /// Its month, 1 to 12.
    pub fn month(self) -> u8 {
        self.month
    }

    /// Its day of the month, from 1 on.
    pub fn day(self) -> u8 {
        self.day
    }
}

impl fmt::Display for Date {
    fn fmt(&self, f: &mut fmt::Formatter<'_>) -> fmt::Result {
        write!(f, "{:04}-{:02}-{:02}", self.year, self.month, self.day)
    }
}

impl FromStr for Date {
    type Err = CalendarError;

    /// Reads `2026-12-25`: four digits, two and two.
    fn from_str(text: &str) -> Result<Date, CalendarError> {
        let unreadable = || CalendarError::NoDate(text.to_owned());
        let parts: Vec<&str> = text.split('-').collect();
        let digits = |part: &str| part.bytes().all(|byte| byte.is_ascii_digit());
        match parts[..] {
            [year, month, day]
                if [year.len(), month.len(), day.len()] == [4, 2, 2]
                    && parts.iter().all(|part| digits(part)) =>
            {
                let number = |part: &str| part.parse::<u16>().map_err(|_| unreadable());
                // two digits fit into a byte
                Date::new(number(year)?, number(month)? as u8, number(day)? as u8)
            }
            _ => Err(unreadable()),
        }
    }
}

fn month_days(year: u16, month: u8) -> u8 {
    let is_leap = year % 4 == 0 && (year % 100 != 0 || year % 400 == 0);
    match month {
        2 if is_leap => 29,
        2 => 28,
        4 | 6 | 9 | 11 => 30,
        _ => 31,
    }
}

/// The year, month and day of the month of a day; day 0 is 1 January 1970.
pub(crate) fn of_day(day: i64) -> (i64, u8, u8) {
    // Years start with March here, so that a leap day is the last of its year; 1 March of year 0 is
    // day -719,468. 400 years have 146,097 days; of these 100 years have 36,524, and 4 years 1,461.
    let from_march = day + 719_468;
    let (cycle, rest) = (from_march.div_euclid(146_097), from_march.rem_euclid(146_097));
    let year = (rest - rest / 1_460 + rest / 36_524 - rest / 146_096) / 365;
    let day_of_year = rest - (365 * year + year / 4 - year / 100);
    // five months from March on have 153 days, and so have the next five
    let month = (5 * day_of_year + 2) / 153;
    let day_of_month = day_of_year - (153 * month + 2) / 5 + 1;
    let next_year = i64::from(month >= 10);
    (400 * cycle + year + next_year, (month + 3 - 12 * next_year) as u8, day_of_month as u8)
}

#[cfg(test)]
mod tests {
    use super::*;

    /// Day by day over more than 400 years: from 1969 on, and close to the last day that has milliseconds.
    #[test]
    fn days_are_counted() {
        let late = 1_461_000;
        for (start, mut year) in [(-365, 1969), (146_097 * late, 1970 + 400 * late)] {
            let (mut month, mut day) = (1, 1);
            // 400 years are whole weeks
            let mut weekday = if start < 0 { Weekday::Wednesday } else { Weekday::Thursday } as usize;
            for n in start..start + 150_000 {
                assert_eq!(
                    (of_day(n), Weekday::of_day(n) as usize),
                    ((year, month, day), weekday),
                    "day {}",
                    n
                );
                weekday = (weekday + 1) % 7;
                day += 1;
                if day > month_days((year % 400 + 2_000) as u16, month) {
                    (month, day) = (month + 1, 1);
                }
                if month > 12 {
                    (year, month) = (year + 1, 1);
                }
            }
        }
        assert_eq!((of_day(0), Weekday::of_day(0)), ((1970, 1, 1), Weekday::Thursday));
        assert_eq!((of_day(-1), Weekday::of_day(-1)), ((1969, 12, 31), Weekday::Wednesday));
        assert_eq!((of_day(11_016), Weekday::of_day(11_016)), ((2000, 2, 29), Weekday::Tuesday));
        assert_eq!(of_day(2_932_896), (9999, 12, 31));
    }

    #[test]
    fn dates_exist() {
        for (year, month, day) in [(1972, 2, 29), (2000, 2, 29), (2400, 2, 29), (1970, 1, 1), (9999, 12, 31)]
        {
            let date = Date::new(year, month, day).expect("a date");
            assert_eq!((date.year(), date.month(), date.day()), (year, month, day));
            assert_eq!(date.to_string().parse(), Ok(date));
        }
        for (year, month, day) in [
            (2026, 4, 31),
            (2100, 2, 29),
            (2027, 2, 29),
            (2026, 0, 1),
            (2026, 13, 1),
            (2026, 1, 0),
            (2026, 1, 32),
        ] {
            assert_eq!(Date::new(year, month, day), Err(CalendarError::NoSuchDate { year, month, day }));
        }
        for year in [0, 1969, 10_000, u16::MAX] {
            assert_eq!(Date::new(year, 1, 1), Err(CalendarError::YearOutOfRange(year)));
        }
    }

    #[test]
    fn texts_that_are_no_dates_are_refused() {
        for text in [
            "",
            "2026",
            "2026-12",
            "2026-1-01",
            "26-01-01",
            "2026-12-25-1",
            "2026-1x-01",
            "+026-01-01",
            "25.12.2026",
        ] {
            assert_eq!(text.parse::<Date>(), Err(CalendarError::NoDate(text.to_owned())));
        }
        let wrong = CalendarError::NoSuchDate { year: 2026, month: 12, day: 32 };
        assert_eq!("2026-12-32".parse::<Date>(), Err(wrong));
    }

    #[test]
    fn weekdays_are_read_as_they_are_shown() {
        for day in Weekday::ALL {
            for text in [day.to_string(), day.name().to_owned(), day.name().to_uppercase()] {
                assert_eq!(text.parse(), Ok(day));
            }
        }
        for text in ["", "Mo", "Mond", "Montag"] {
            assert_eq!(text.parse::<Weekday>(), Err(CalendarError::NoWeekday(text.to_owned())));
        }
    }
}
