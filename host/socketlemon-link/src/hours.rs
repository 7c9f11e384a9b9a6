//! Sending hours, as a text that a person writes, and what the tablet says of them.

use crate::failure::Failure;
use socketlemon::{Calendar, CalendarError, Weekday};
use std::collections::BTreeSet;
use std::fs;
use std::path::Path;
use std::time::Duration;

/// Reads the hours of a file: on each line a weekday or a range of them with its window, the offset from UTC, or a
/// date that is closed. What stands behind a `#` is a comment. A weekday that is not named is closed.
pub fn read(path: &Path) -> Result<Calendar, Failure> {
    let text = fs::read_to_string(path).map_err(|error| Failure::file("read", path, &error))?;
    calendar(&text).map_err(|(line, why)| Failure::new(format!("line {line} of {}: {why}", path.display())))
}

/// The calendar of a text, or the number of the line in which something is wrong, and what.
fn calendar(text: &str) -> Result<Calendar, (usize, String)> {
    let mut hours = Hours { calendar: Calendar::closed(), named: BTreeSet::new(), has_offset: false };
    let text = text.strip_prefix('\u{feff}').unwrap_or(text);
    for (line, written) in (1..).zip(text.lines()) {
        let said = written.split('#').next().unwrap_or_default();
        let words: Vec<&str> = said.split_whitespace().collect();
        hours = hours.line(&words).map_err(|why| (line, why))?;
    }
    Ok(hours.calendar)
}

/// What the lines so far have said.
struct Hours {
    calendar: Calendar,
    named: BTreeSet<Weekday>,
    has_offset: bool,
}

impl Hours {
    fn line(self, words: &[&str]) -> Result<Hours, String> {
        let told = |error: CalendarError| error.to_string();
        match words {
            [] => Ok(self),
            [offset] if offset.starts_with("UTC") => self.offset(offset),
            [date] if date.starts_with(|first: char| first.is_ascii_digit()) => {
                let calendar = self.calendar.close_on(date.parse().map_err(told)?).map_err(told)?;
                Ok(Hours { calendar, ..self })
            }
            [days, window] if days.starts_with(char::is_alphabetic) => self.window(days, window),
            _ => Err(format!(
                "{:?} is neither a weekday with its window (Mon 07:30-17:00), an offset (UTC+01:00) nor a closed date (2026-12-25)",
                words.join(" ")
            )),
        }
    }

    fn offset(self, offset: &str) -> Result<Hours, String> {
        if self.has_offset {
            return Err("the offset from UTC stands here for the second time".to_owned());
        }
        let offset = offset.parse().map_err(|error: CalendarError| error.to_string())?;
        Ok(Hours { calendar: self.calendar.offset(offset), has_offset: true, ..self })
    }

    fn window(mut self, days: &str, window: &str) -> Result<Hours, String> {
        let days = weekdays(days)?;
        let window = window.parse().map_err(|error: CalendarError| error.to_string())?;
        for day in days {
            if !self.named.insert(day) {
                return Err(format!("{} has a window already, and can have one", day.name()));
            }
            self.calendar = self.calendar.open(day, window);
        }
        Ok(self)
    }
}

/// Reads `Mon`, or `Mon-Fri`.
fn weekdays(text: &str) -> Result<Vec<Weekday>, String> {
    let day = |name: &str| name.parse::<Weekday>().map_err(|error| error.to_string());
    let (first, last) = match text.split_once('-') {
        None => (day(text)?, day(text)?),
        Some((first, last)) => (day(first)?, day(last)?),
    };
    if first > last {
        return Err(format!("{text} runs backwards: a week starts with Monday"));
    }
    Ok(Weekday::ALL.into_iter().filter(|day| (first..=last).contains(day)).collect())
}

/// What the tablet says while the hours are closed at a time, and it has so long until its deadline.
pub fn closed(calendar: &Calendar, unix_ms: u64, left: Duration) -> String {
    let gives_up = format!("the tablet gives up in {}", span(left));
    match calendar.next_opening(unix_ms) {
        None => format!("closed; these hours never open, and {gives_up}"),
        Some(opens) => {
            let wait = Duration::from_millis(opens - unix_ms);
            let (at, offset) = (calendar.local_time(opens), calendar.utc_offset());
            let too_late = if wait < left { String::new() } else { format!("; {gives_up}, before that") };
            format!("closed; opens {at} ({offset}), in {}{too_late}", span(wait))
        }
    }
}

/// A time in its two largest units.
fn span(time: Duration) -> String {
    let seconds = time.as_secs();
    let [days, hours, minutes] = [seconds / 86_400, seconds / 3_600 % 24, seconds / 60 % 60];
    let plural = if days == 1 { "" } else { "s" };
    match (days, hours, minutes) {
        (0, 0, 0) => format!("{seconds} s"),
        (0, 0, _) => format!("{minutes} min {} s", seconds % 60),
        (0, ..) => format!("{hours} h {minutes} min"),
        _ => format!("{days} day{plural} {hours} h"),
    }
}

#[cfg(test)]
mod tests {
    use super::*;

    const WEEK: &str = "# the office's hours
UTC+01:00

Mon-Thu 07:30-17:00   # lunch is not closed
Fri 7:30-12:00
2026-12-25
2027-01-01 # a Friday
";

    fn wrong(text: &str) -> (usize, String) {
        calendar(text).expect_err("something is wrong")
    }

    #[test]
    fn a_text_makes_a_calendar() {
        let week = calendar(WEEK).expect("hours");
        let shown = |day: Weekday| week.window(day).map_or("closed".to_owned(), |window| window.to_string());
        let long = "07:30-17:00";
        assert_eq!(
            Weekday::ALL.map(shown),
            [long, long, long, long, "07:30-12:00", "closed", "closed"].map(str::to_owned)
        );
        assert_eq!(week.utc_offset().to_string(), "UTC+01:00");
        let dates: Vec<String> = week.closed_dates().map(|date| date.to_string()).collect();
        assert_eq!(dates, ["2026-12-25", "2027-01-01"]);
        assert_eq!(calendar(&WEEK.replace('\n', "\r\n")), Ok(week.clone()));
        assert_eq!(calendar(&format!("\u{feff}{WEEK}")), Ok(week));
    }

    #[test]
    fn what_is_not_said_is_closed_and_utc() {
        for text in ["", "\n\n", "# nothing\n  # at all"] {
            assert_eq!(calendar(text), Ok(Calendar::closed()));
        }
        assert_eq!(calendar("MON-sunday 00:00-24:00"), Ok(Calendar::always()));
    }

    #[test]
    fn each_mistake_is_told_with_its_line() {
        for (text, line, why) in [
            ("Mon 07:30-17:00\nMon 18:00-19:00", 2, "Monday has a window already, and can have one"),
            ("\nMon-Fri 07:30-17:00\nWed 08:00-09:00", 3, "Wednesday has a window already, and can have one"),
            ("Mon 17:00-07:30", 1, "a window opens before it closes, and 17:00-07:30 does not"),
            ("Mon 00:00-00:00", 1, "a window opens before it closes, and 00:00-00:00 does not"),
            ("#\nMon 07:30-24:01", 2, "\"07:30-24:01\" is not a window"),
            ("Mon 07.30-17.00", 1, "\"07.30-17.00\" is not a window"),
            ("Mo 07:30-17:00", 1, "\"Mo\" is not a weekday: write Mon, Tue, and so on"),
            ("Fri-Mon 07:30-17:00", 1, "Fri-Mon runs backwards: a week starts with Monday"),
            ("Mon-Fry 07:30-17:00", 1, "\"Fry\" is not a weekday"),
            ("Mon", 1, "\"Mon\" is neither a weekday with its window"),
            ("Mon 07:30 - 17:00", 1, "\"Mon 07:30 - 17:00\" is neither a weekday with its window"),
            ("2026-12-25 2026-12-26", 1, "\"2026-12-25 2026-12-26\" is neither a weekday with its window"),
            ("2026-04-31", 1, "there is no date 2026-04-31"),
            ("2100-02-29", 1, "there is no date 2100-02-29"),
            ("1969-12-31", 1, "the year of a closed date is 1970 to 9999, not 1969"),
            ("10000-01-01", 1, "\"10000-01-01\" is not a date"),
            ("25.12.2026", 1, "\"25.12.2026\" is not a date"),
            ("UTC+14:01", 1, "local time lies between UTC-12:00 and UTC+14:00, and UTC+14:01 does not"),
            ("UTC-13:00", 1, "local time lies between UTC-12:00 and UTC+14:00, and UTC-13:00 does not"),
            ("UTC+1", 1, "\"UTC+1\" is not an offset: write it as UTC+01:00"),
            ("UTC\nUTC+01:00", 2, "the offset from UTC stands here for the second time"),
        ] {
            let (at, told) = wrong(text);
            assert!(at == line && told.starts_with(why), "{text:?}: line {at}: {told}");
        }
        let dates = "2026-12-25\n".repeat(33);
        assert_eq!(wrong(&dates), (33, "a calendar has at most 32 closed dates, not 33".to_owned()));
    }

    #[test]
    fn the_tablet_says_when_it_opens() {
        let week = calendar(WEEK).expect("hours");
        // 4:30 on Saturday 21 November 2026, local time
        let saturday = 1_795_231_800_000;
        let long = Duration::from_secs(7 * 86_400);
        let opens = "closed; opens Mon 2026-11-23 07:30 (UTC+01:00), in 2 days 3 h";
        assert_eq!(closed(&week, saturday, long), opens);
        let told = closed(&week, saturday, Duration::from_secs(300));
        assert_eq!(told, format!("{opens}; the tablet gives up in 5 min 0 s, before that"));
        let never = "closed; these hours never open, and the tablet gives up in 1 day 0 h";
        assert_eq!(closed(&Calendar::closed(), saturday, Duration::from_secs(86_400)), never);
        let shown = [0, 59, 60, 3_599, 3_600, 86_399, 172_800].map(|s| span(Duration::from_secs(s)));
        assert_eq!(
            shown,
            ["0 s", "59 s", "1 min 0 s", "59 min 59 s", "1 h 0 min", "23 h 59 min", "2 days 0 h"]
                .map(str::to_owned)
        );
    }
}
