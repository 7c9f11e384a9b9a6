//! The hours that wakes are given: calendars and times that look random, and what a calendar says of a time.
//! This model goes by document 02 and shares nothing with the library: years, months and days are counted.

use crate::call::Hours;
use crate::live::rng::Rng;

const MINUTE_MS: u64 = 60_000;
const DAY: u64 = 1_440;
const OFFSET: usize = 28;
const DATES: usize = 31;
const MOST_DATES: u8 = 32;

/// 400 years have so many days, which are whole weeks.
const CYCLE: u64 = 146_097;

/// What a calendar says of a time.
#[derive(Clone, Copy, Debug, PartialEq, Eq)]
pub enum Says {
    Open,
    Shut,
    Malformed,
}

/// What the hours say of their time.
pub fn says(hours: &Hours) -> Says {
    if !is_well_formed(&hours.calendar) {
        Says::Malformed
    } else if is_open(&hours.calendar, hours.unix_ms) {
        Says::Open
    } else {
        Says::Shut
    }
}

fn pair(bytes: &[u8]) -> u64 {
    u64::from(bytes[0]) * 256 + u64::from(bytes[1])
}

/// The opening and the closing minute of a weekday; 0 is Monday.
fn window(calendar: &[u8], weekday: u64) -> (u64, u64) {
    let at = 4 * weekday as usize;
    (pair(&calendar[at..]), pair(&calendar[at + 2..]))
}

/// The closed dates: year, month and day.
fn dates(calendar: &[u8]) -> impl Iterator<Item = [u64; 3]> + '_ {
    calendar[DATES..].chunks(4).map(|date| [pair(date), date[2].into(), date[3].into()])
}

fn is_well_formed(calendar: &[u8]) -> bool {
    let Some(number) = calendar.get(DATES - 1).copied() else {
        return false;
    };
    let fits = |(opening, closing)| (opening, closing) == (0, 0) || opening < closing && closing <= DAY;
    let exists = |[year, month, day]: [u64; 3]| {
        (1970..=9999).contains(&year)
            && (1..=12).contains(&month)
            && (1..=month_days(year, month)).contains(&day)
    };
    number <= MOST_DATES
        && calendar.len() == DATES + 4 * usize::from(number)
        && pair(&calendar[OFFSET..]) <= 1_560
        && (0..7).all(|weekday| fits(window(calendar, weekday)))
        && dates(calendar).all(exists)
}

/// The local day and minute at a time; day 0 is Wednesday 31 December 1969.
fn local(calendar: &[u8], unix_ms: u64) -> (u64, u64) {
    let minutes = unix_ms / MINUTE_MS + DAY + pair(&calendar[OFFSET..]) - 720;
    (minutes / DAY, minutes % DAY)
}

fn weekday(day: u64) -> u64 {
    (day + 2) % 7
}

fn is_open(calendar: &[u8], unix_ms: u64) -> bool {
    let (day, minute) = local(calendar, unix_ms);
    let (opening, closing) = window(calendar, weekday(day));
    (opening..closing).contains(&minute)
        && (dates(calendar).count() == 0 || !dates(calendar).any(|date| date == date_of(day)))
}

fn is_leap(year: u64) -> bool {
    matches!((year % 4, year % 100, year % 400), (0, 1.., _) | (_, _, 0))
}

fn month_days(year: u64, month: u64) -> u64 {
    let days = [31, if is_leap(year) { 29 } else { 28 }, 31, 30, 31, 30, 31, 31, 30, 31, 30, 31];
    days[month as usize - 1]
}

/// The date of a day, by counting from 1 January 1970.
fn date_of(day: u64) -> [u64; 3] {
    let Some(since) = day.checked_sub(1) else {
        return [1969, 12, 31];
    };
    let (mut year, mut month, mut left) = (1970 + 400 * (since / CYCLE), 1, since % CYCLE);
    while left >= 365 + u64::from(is_leap(year)) {
        left -= 365 + u64::from(is_leap(year));
        year += 1;
    }
    while left >= month_days(year, month) {
        left -= month_days(year, month);
        month += 1;
    }
    [year, month, left + 1]
}

/// Where hours come from.
pub enum Source {
    /// A calendar that is always open, as in lists.
    Always,
    /// These numbers.
    Drawn(Rng),
}

impl Source {
    /// The hours of the next wake: mostly always open, else about their time, now and then malformed.
    pub fn next(&mut self) -> Hours {
        let Self::Drawn(rng) = self else {
            return Hours::always();
        };
        let unix_ms = match rng.below(4) {
            0 => rng.next() >> rng.below(64),
            1 => rng.below(8_100 * 365) * 86_400_000 + rng.below(86_400_000),
            _ => rng.between(1_700_000_000_000, 2_000_000_000_000),
        };
        let always = Hours { unix_ms, ..Hours::always() };
        match rng.below(16) {
            0 => Hours { calendar: malformed(rng, unix_ms), unix_ms },
            1..=3 => Hours { calendar: about(rng, unix_ms), unix_ms },
            _ => always,
        }
    }
}

/// A calendar about a time: with a bound of today's window at this minute or near, and closed dates near today.
fn about(rng: &mut Rng, unix_ms: u64) -> Vec<u8> {
    let mut calendar = vec![0; DATES];
    calendar[OFFSET..OFFSET + 2].copy_from_slice(&(rng.below(1_561) as u16).to_be_bytes());
    let (day, minute) = local(&calendar, unix_ms);
    for of in 0..7 {
        let near = rng.one_in(2) && of == weekday(day);
        let opening = if near { minute.saturating_sub(rng.below(2)) } else { rng.below(DAY) };
        let (opening, closing) = match rng.below(6) {
            0 => (0, 0),
            1 => (0, DAY),
            2 if near => (0, minute.max(1)),
            _ => (opening, rng.between(opening + 1, DAY)),
        };
        let at = 4 * of as usize;
        calendar[at..at + 2].copy_from_slice(&(opening as u16).to_be_bytes());
        calendar[at + 2..at + 4].copy_from_slice(&(closing as u16).to_be_bytes());
    }
    let most = *rng.pick(&[0, 2, 32]);
    for _ in 0..rng.below(most + 1) {
        let [year, month, of_month] = date_of((day + rng.below(20)).saturating_sub(10));
        if (1970..=9999).contains(&year) {
            calendar[DATES - 1] += 1;
            calendar.extend((year as u16).to_be_bytes());
            calendar.extend([month as u8, of_month as u8]);
        }
    }
    calendar
}

/// Dates that do not exist, or lie outside the years of a calendar.
const NO_DATES: [(u16, u8, u8); 8] = [
    (2026, 4, 31),
    (2100, 2, 29),
    (2026, 0, 1),
    (2026, 13, 1),
    (2026, 1, 0),
    (2026, 1, 32),
    (1969, 12, 31),
    (10_000, 1, 1),
];

/// A calendar with something wrong.
fn malformed(rng: &mut Rng, unix_ms: u64) -> Vec<u8> {
    let mut calendar = about(rng, unix_ms);
    let at = 4 * rng.below(7) as usize;
    let mut put = |at: usize, numbers: &[u64]| {
        let bytes = numbers.iter().flat_map(|number| (*number as u16).to_be_bytes());
        calendar.splice(at..at + 2 * numbers.len(), bytes);
    };
    match rng.below(7) {
        0 => put(at, &[rng.between(700, 720), rng.between(600, 700)]),
        1 => put(at, &[rng.below(DAY), DAY + 1]),
        2 => put(OFFSET, &[rng.between(1_561, 65_535)]),
        3 => calendar.truncate(rng.below(calendar.len() as u64) as usize),
        4 => calendar.extend(vec![0; 1 + rng.below(5) as usize]),
        5 => {
            calendar.truncate(DATES);
            calendar[DATES - 1] = MOST_DATES + 1;
            calendar.extend([7, 234, 12, 25].repeat(usize::from(MOST_DATES) + 1));
        }
        _ => {
            let (year, month, day) = *rng.pick(&NO_DATES);
            calendar.truncate(DATES);
            calendar[DATES - 1] = 1;
            calendar.extend(year.to_be_bytes());
            calendar.extend([month, day]);
        }
    }
    calendar
}

#[cfg(test)]
mod tests {
    use super::*;

    /// Days after 31 December 1969, by Python's datetime, and what day of the week each is.
    #[test]
    fn days_have_dates() {
        for (day, date, of_week) in [
            (0, [1969, 12, 31], 2),
            (1, [1970, 1, 1], 3),
            (790, [1972, 2, 29], 1),
            (11_017, [2000, 2, 29], 1),
            (46_081, [2096, 2, 29], 2),
            (47_541, [2100, 2, 28], 6),
            (47_542, [2100, 3, 1], 0),
            (157_114, [2400, 2, 29], 1),
            (2_932_897, [9999, 12, 31], 4),
        ] {
            assert_eq!((date_of(day), weekday(day)), (date, of_week), "day {day}");
        }
        assert_eq!(date_of(2_932_898), [10_000, 1, 1]);
    }

    #[test]
    fn hours_open_and_shut() {
        // 1 January 1970 was a Thursday; by UTC, open from minute 1 to 3 on Thursdays
        let mut calendar = vec![0; DATES];
        calendar[3 * 4 + 1] = 1;
        calendar[3 * 4 + 3] = 3;
        calendar[OFFSET..OFFSET + 2].copy_from_slice(&720u16.to_be_bytes());
        let at = |calendar: &[u8], unix_ms| says(&Hours { calendar: calendar.to_vec(), unix_ms });
        let found = [59_999, 60_000, 179_999, 180_000].map(|time| at(&calendar, time));
        assert_eq!(found, [Says::Shut, Says::Open, Says::Open, Says::Shut]);
        assert_eq!(at(&calendar, 7 * 86_400_000 + 60_000), Says::Open);
        let mut closed = calendar.clone();
        closed[DATES - 1] = 1;
        closed.extend([7, 178, 1, 1]);
        assert_eq!((at(&closed, 60_000), at(&closed, 7 * 86_400_000 + 60_000)), (Says::Shut, Says::Open));
        closed.pop();
        assert_eq!(at(&closed, 60_000), Says::Malformed);
        assert_eq!(at(&[], 0), Says::Malformed);
        assert_eq!(says(&Hours::always()), Says::Open);
    }

    #[test]
    fn all_kinds_are_drawn() {
        let mut source = Source::Drawn(Rng::new(1));
        let always = Hours::always().calendar;
        let mut counts = [0; 4];
        for _ in 0..16_000 {
            let hours = source.next();
            let kind = match says(&hours) {
                _ if hours.calendar == always => 0,
                Says::Open => 1,
                Says::Shut => 2,
                Says::Malformed => 3,
            };
            counts[kind] += 1;
        }
        assert!(counts[0] > 11_000 && counts[1..].iter().all(|count| *count > 700), "{counts:?}");
        let mut rng = Rng::new(2);
        for _ in 0..2_000 {
            let unix_ms = rng.next() >> rng.below(64);
            assert!(is_well_formed(&about(&mut rng, unix_ms)));
            let calendar = malformed(&mut rng, unix_ms);
            assert!(!is_well_formed(&calendar), "{calendar:?}");
        }
        assert_eq!(Source::Always.next(), Hours::always());
    }
}
