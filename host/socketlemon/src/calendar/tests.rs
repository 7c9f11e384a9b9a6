use super::*;
use crate::{ffi, Address, Id, Push, Role, Store, PUSH_RUN, WAKE_RUN};

const DAY_MS: u64 = 86_400_000;
const BAD_CALENDAR: u64 = 26;

/// Numbers that look random and are the same in each run (splitmix64).
struct Numbers(u64);

impl Numbers {
    fn next(&mut self) -> u64 {
        self.0 = self.0.wrapping_add(0x9e37_79b9_7f4a_7c15);
        let z = (self.0 ^ (self.0 >> 30)).wrapping_mul(0xbf58_476d_1ce4_e5b9);
        let z = (z ^ (z >> 27)).wrapping_mul(0x94d0_49bb_1331_11eb);
        z ^ (z >> 31)
    }

    fn below(&mut self, bound: u64) -> u64 {
        self.next() % bound
    }

    fn window(&mut self) -> Window {
        let opening = self.below(1_440) as u16;
        let closing = opening + 1 + self.below(u64::from(1_440 - opening)) as u16;
        Window::new(opening, closing).expect("a window")
    }

    /// A date about a day, or any at all.
    fn date(&mut self, day: i64) -> Date {
        let (year, month, day) = date::of_day(day + self.below(20) as i64 - 10);
        let near = u16::try_from(year).ok().and_then(|year| Date::new(year, month, day).ok());
        near.unwrap_or_else(|| {
            let (year, month) = (1970 + self.below(8_030) as u16, 1 + self.below(12) as u8);
            Date::new(year, month, 1 + self.below(28) as u8).expect("each month has 28 days")
        })
    }

    /// A calendar with dates about a day: some weekdays closed, some open all day.
    fn calendar(&mut self, day: i64) -> Calendar {
        let offset = Offset::new(self.below(1_561) as i32 - 720).expect("an offset");
        let mut calendar = Calendar::closed().offset(offset);
        for weekday in Weekday::ALL {
            match self.below(4) {
                0 => {}
                1 => calendar = calendar.open(weekday, Window::ALL_DAY),
                _ => calendar = calendar.open(weekday, self.window()),
            }
        }
        let most = if self.below(4) == 0 { 32 } else { 3 };
        for _ in 0..self.below(most + 1) {
            calendar = calendar.close_on(self.date(day)).expect("room for a date");
        }
        calendar
    }

    /// A day from 1970 on: mostly of these centuries, sometimes up to the last that has milliseconds.
    fn day(&mut self) -> i64 {
        let days = [60_000, 60_000, 3_000_000, u64::MAX / DAY_MS];
        let most = days[self.below(4) as usize];
        self.below(most) as i64
    }

    /// A time about a day: where its window opens or closes, the millisecond before, or any.
    fn time(&mut self, calendar: &Calendar, day: i64) -> u64 {
        let window = calendar.window(Weekday::of_day(day)).unwrap_or(Window::ALL_DAY);
        let minute = [window.opening, window.closing, self.below(1_440) as u16][self.below(3) as usize];
        let utc = day * 1_440 + i64::from(minute) - i64::from(calendar.offset_minutes());
        let time = u64::try_from(utc).unwrap_or(0).saturating_mul(MINUTE_MS);
        time.saturating_sub(self.below(2)).saturating_add(if self.below(4) == 0 {
            self.below(MINUTE_MS)
        } else {
            0
        })
    }
}

const ID: Id = Id([1; 8]);

/// A send store with a fresh message, whose init every wake within hours sends again.
fn pushed() -> Vec<u8> {
    let mut store = Store::new(Role::Send, 1).expect("a store");
    let (from, to) = (Address([4; 16]), Address([5; 16]));
    let push =
        Push { id: ID, reply: false, from, to, topic: b"survey", data: b"data", created_ms: 0, try_ms: 0 };
    store.push(&push, &mut [0; PUSH_RUN]).expect("push");
    store.into_bytes()
}

/// The library's answer to a send wake of the fresh message: a refusal's number, or whether it has sent.
/// No store changes.
fn wake(store: &mut [u8], calendar: &[u8], unix_ms: u64) -> Result<bool, u64> {
    let before = store.to_vec();
    let answer = ffi::wake(store, 1, &ID.0, 0, calendar, unix_ms, &mut [0; WAKE_RUN]);
    assert!(store == before, "an init changes no store");
    if answer.number == 0 {
        Ok(answer.run > 0)
    } else {
        Err(answer.number)
    }
}

#[test]
fn a_calendar_has_the_bytes_of_the_paper() {
    let mut always = [0, 0, 5, 160].repeat(7);
    always.extend([2, 208, 0]);
    assert_eq!(Calendar::always().as_bytes(), always);
    let calendar = Calendar::closed()
        .open(Weekday::Monday, Window::new(450, 1_020).expect("a window"))
        .open(Weekday::Sunday, Window::new(0, 1).expect("a window"))
        .offset(Offset::new(60).expect("an offset"))
        .close_on(Date::new(2026, 12, 25).expect("a date"))
        .expect("room for a date");
    let mut bytes = vec![1, 194, 3, 252];
    bytes.extend([0; 20]);
    bytes.extend([0, 0, 0, 1, 3, 12, 1, 7, 234, 12, 25]);
    assert_eq!(calendar.as_bytes(), bytes);
    assert_eq!(Calendar::from_bytes(&bytes).as_ref(), Ok(&calendar));
    assert_eq!(calendar.window(Weekday::Monday), Window::new(450, 1_020).ok());
    assert_eq!(calendar.window(Weekday::Tuesday), None);
    assert_eq!(calendar.utc_offset().minutes(), 60);
    assert_eq!(calendar.closed_dates().map(|date| date.to_string()).collect::<Vec<_>>(), ["2026-12-25"]);
}

/// Bytes near a calendar: one with something changed, cut or added, and with what the ranges just rule out.
fn near_a_calendar(numbers: &mut Numbers) -> Vec<u8> {
    let day = numbers.day();
    let mut bytes = numbers.calendar(day).bytes;
    let place = numbers.below(bytes.len() as u64) as usize;
    let (pair, window) = (|n: u64| (n as u16).to_be_bytes(), 4 * (place % 7));
    match numbers.below(10) {
        0 => bytes.truncate(place),
        1 => bytes.extend(vec![0; 1 + numbers.below(5) as usize]),
        2 => bytes[place] = numbers.next() as u8,
        3 => bytes[window..window + 2].copy_from_slice(&pair(numbers.below(1_442))),
        4 => bytes[window + 2..window + 4].copy_from_slice(&pair(1_438 + numbers.below(5))),
        5 => bytes[OFFSET_PLACE..NUMBER_PLACE].copy_from_slice(&pair(1_558 + numbers.below(5))),
        6 => {
            let dates = 31 + numbers.below(3) as usize;
            bytes[NUMBER_PLACE] = dates as u8;
            bytes.resize(DATES_PLACE, 0);
            bytes.extend([7, 234, 12, 25].repeat(dates));
        }
        7 => {
            let years = [1_969, 1_970, 2_000, 2_026, 2_096, 2_100, 9_999, 10_000];
            bytes.truncate(DATES_PLACE);
            bytes[NUMBER_PLACE] = 1;
            bytes.extend(pair(years[numbers.below(8) as usize]));
            bytes.extend([numbers.below(14) as u8, [0, 1, 28, 29, 30, 31, 32][numbers.below(7) as usize]]);
        }
        _ => {}
    }
    bytes
}

#[test]
fn the_library_refuses_the_same_bytes() {
    let (mut numbers, mut store) = (Numbers(1), pushed());
    let mut counts = [0; 2];
    for _ in 0..20_000 {
        let bytes = near_a_calendar(&mut numbers);
        let here = Calendar::from_bytes(&bytes);
        let there = wake(&mut store, &bytes, 0);
        assert!(matches!(there, Ok(_) | Err(BAD_CALENDAR)), "{:?}", there);
        assert_eq!(here.is_ok(), there.is_ok(), "{:?}: {:?}", here, bytes);
        counts[usize::from(here.is_ok())] += 1;
    }
    assert!(counts.iter().all(|count| *count > 4_000), "{:?}", counts);
}

#[test]
fn the_library_is_open_at_the_same_times() {
    let (mut numbers, mut store) = (Numbers(2), pushed());
    let mut counts = [0; 2];
    for _ in 0..20_000 {
        let day = numbers.day();
        let calendar = numbers.calendar(day);
        let unix_ms = if numbers.below(9) == 0 { numbers.next() } else { numbers.time(&calendar, day) };
        let is_open = calendar.is_open(unix_ms);
        assert_eq!(wake(&mut store, &calendar.bytes, unix_ms), Ok(is_open), "{} {:?}", unix_ms, calendar);
        counts[usize::from(is_open)] += 1;
    }
    assert!(counts.iter().all(|count| *count > 4_000), "{:?}", counts);
    for unix_ms in [0, 1, 1_794_900_000_000, u64::MAX] {
        assert_eq!(wake(&mut store, Calendar::always().as_bytes(), unix_ms), Ok(true));
        assert_eq!(wake(&mut store, Calendar::closed().as_bytes(), unix_ms), Ok(false));
    }
}

/// The next opening by trying every minute of so many days.
fn first_open_minute(calendar: &Calendar, unix_ms: u64, days: u64) -> Option<u64> {
    let next_minute = unix_ms - unix_ms % MINUTE_MS + MINUTE_MS;
    let minutes = (next_minute..next_minute + days * DAY_MS).step_by(MINUTE_MS as usize);
    std::iter::once(unix_ms).chain(minutes).find(|time| calendar.is_open(*time))
}

#[test]
fn the_next_opening_is_the_first() {
    let mut numbers = Numbers(3);
    for _ in 0..400 {
        let day = numbers.below(60_000) as i64;
        let calendar = numbers.calendar(day);
        let unix_ms = numbers.time(&calendar, day);
        let found = calendar.next_opening(unix_ms);
        match first_open_minute(&calendar, unix_ms, 15) {
            Some(time) => assert_eq!(found, Some(time), "{} {:?}", unix_ms, calendar),
            None => assert!(found.map_or(true, |time| time > unix_ms + 15 * DAY_MS), "{:?}", found),
        }
    }
}

#[test]
fn it_can_be_far_away_or_nowhere() {
    // Monday 5 January 1970, and all closed but one minute of the week
    let monday = 4 * DAY_MS;
    let mut calendar = Calendar::closed().open(Weekday::Monday, Window::new(1, 2).expect("a window"));
    assert_eq!(calendar.next_opening(0), Some(monday + MINUTE_MS));
    assert_eq!(calendar.next_opening(monday + 2 * MINUTE_MS), Some(monday + 7 * DAY_MS + MINUTE_MS));
    for week in 1..=32 {
        let (year, month, day) = date::of_day(4 + 7 * week);
        calendar = calendar.close_on(Date::new(year as u16, month, day).expect("a date")).expect("room");
    }
    assert_eq!(calendar.next_opening(monday + 2 * MINUTE_MS), Some(monday + 33 * 7 * DAY_MS + MINUTE_MS));
    assert_eq!(calendar.next_opening(u64::MAX), None, "there is no later Monday");
    assert_eq!(Calendar::closed().next_opening(0), None);
    assert_eq!(Calendar::always().next_opening(u64::MAX), Some(u64::MAX));
}

#[test]
fn what_is_wrong_is_told() {
    let told = |error: Option<CalendarError>| error.expect("an error").to_string();
    let window = |text: &str| told(text.parse::<Window>().err());
    assert_eq!(window("17:00-07:30"), "a window opens before it closes, and 17:00-07:30 does not");
    assert_eq!(window("08:00-08:00"), "a window opens before it closes, and 08:00-08:00 does not");
    assert_eq!(
        told(Window::new(0, 1_441).err()),
        "a window ends at 24:00 at the latest, and 00:00-24:01 does not"
    );
    for text in
        ["", "7-8", "07:30", "07:60-08:00", "24:01-25:00", "07:3-08:00", "+7:30-08:00", "07:30 - 08:00"]
    {
        assert_eq!(text.parse::<Window>(), Err(CalendarError::NoWindow(text.to_owned())));
    }
    assert!(window("noon-13:00").starts_with("\"noon-13:00\" is not a window: write two times"));
    let offset = |text: &str| told(text.parse::<Offset>().err());
    assert_eq!(
        offset("UTC+14:01"),
        "local time lies between UTC-12:00 and UTC+14:00, and UTC+14:01 does not"
    );
    assert_eq!(
        offset("UTC-12:01"),
        "local time lies between UTC-12:00 and UTC+14:00, and UTC-12:01 does not"
    );
    for text in ["", "CET", "+01:00", "UTC01:00", "UTC+1", "UTC+"] {
        assert_eq!(text.parse::<Offset>(), Err(CalendarError::NoOffset(text.to_owned())));
    }
    assert_eq!(told(Date::new(1969, 12, 31).err()), "the year of a closed date is 1970 to 9999, not 1969");
    let bytes = |bytes: &[u8]| told(Calendar::from_bytes(bytes).err());
    assert_eq!(bytes(&[]), "a calendar of 0 closed dates has 31 bytes, not 0");
    let date = Date::new(2026, 12, 25).expect("a date");
    let full = (0..32).fold(Calendar::always(), |calendar, _| calendar.close_on(date).expect("room"));
    assert_eq!(bytes(&full.bytes[..158]), "a calendar of 32 closed dates has 159 bytes, not 158");
    assert_eq!(told(full.close_on(date).err()), "a calendar has at most 32 closed dates, not 33");
}

#[test]
fn parts_are_read_as_they_are_shown() {
    for text in ["00:00-24:00", "07:30-17:00", "23:59-24:00"] {
        assert_eq!(text.parse::<Window>().map(|window| window.to_string()).as_deref(), Ok(text));
    }
    assert_eq!("7:30-9:00".parse::<Window>(), Window::new(450, 540));
    for text in ["UTC+00:00", "UTC-12:00", "UTC+14:00", "UTC-03:30"] {
        assert_eq!(text.parse::<Offset>().map(|offset| offset.to_string()).as_deref(), Ok(text));
    }
    assert_eq!("UTC".parse(), Ok(Offset::UTC));
    let shown = |offset: &str, unix_ms| {
        let offset = offset.parse().expect("an offset");
        Calendar::always().offset(offset).local_time(unix_ms).to_string()
    };
    assert_eq!(shown("UTC-12:00", 0), "Wed 1969-12-31 12:00");
    assert_eq!(shown("UTC+14:00", 0), "Thu 1970-01-01 14:00");
    assert_eq!(shown("UTC", 253_402_300_799_999), "Fri 9999-12-31 23:59");
    assert_eq!(shown("UTC", u64::MAX), "Wed 584556019-04-03 14:25");
}

/// A bad calendar comes before a short run buffer, and that before an unknown id.
#[test]
fn refusals_about_the_run_buffer_come_behind_those_of_the_calendar() {
    let mut store = pushed();
    let before = store.clone();
    let always = Calendar::always();
    let mut number = |id: &[u8; 8], calendar: &[u8], bytes: usize| {
        let answer = ffi::wake(&mut store, 1, id, 0, calendar, 0, &mut vec![0; bytes]);
        assert_eq!((answer.run, answer.wake, answer.pieces), (0, 0, 0));
        assert!(store == before, "a refusal changed the store");
        answer.number
    };
    for id in [&ID.0, &[9; 8]] {
        assert_eq!(number(id, &[], WAKE_RUN - 1), 26);
        assert_eq!(number(id, always.as_bytes(), WAKE_RUN - 1), 2);
    }
    assert_eq!(number(&[9; 8], &[], WAKE_RUN), 26);
    assert_eq!(number(&[9; 8], always.as_bytes(), WAKE_RUN), 8);
}
