#!/usr/bin/env python3
"""What crates/calendar_values must write, computed without the library by tools/calendar_model.py.
Use: tools/calendar_values.py > crates/calendar_values/stdout   (some ten seconds)"""
import datetime

from calendar_model import DAY, EPOCH, MINUTE, calendar_of, daily, date_of, dated, hours, is_window, weekly


def many(number, length=163):
    """A calendar that says that it has so many dates, cut to a length."""
    return calendar_of([(0, 1440)] * 7, 720, number, [(2000, 2, 29)] * 33)[:length]


def fits(calendar):
    return int(hours(calendar, 0) != "M")


def offset_text(above):
    return f", UTC-{720 - above}" if above < 720 else f", UTC+{above - 720}"


# ---- dates

def days_at(*dates):
    """Days are numbered from 1 January of year 1 on."""
    for year, month, day in dates:
        show_day((datetime.date(year, month, day) - datetime.date(1, 1, 1)).days)


def show_day(number):
    year, month, day, weekday = date_of(number - (EPOCH - datetime.date(1, 1, 1)).days)
    print(f"day {number}: {('Mon', 'Tue', 'Wed', 'Thu', 'Fri', 'Sat', 'Sun')[weekday]} {year}-{month}-{day}")


def all_days():
    total, date = 0, datetime.date(1, 1, 1)
    while True:
        turned = (total << 7 | total >> 57) % 2**64
        total = turned ^ date.year << 16 ^ date.month << 12 ^ date.day << 4 ^ date.weekday()
        if date == datetime.date.max:
            return total
        date += datetime.timedelta(1)


def dates():
    print(f"the days of the years 1 to 9999: {all_days()}")
    days_at((1969, 12, 31), *((1970, 1, day) for day in range(1, 8)))
    for year in (1972, 1973, 2000, 2096, 2100, 2400):
        eve = datetime.date(year, 2, 28)
        days_at(eve.timetuple()[:3], (eve + datetime.timedelta(1)).timetuple()[:3])
    days_at((1, 1, 1), (9999, 12, 31))
    last = (datetime.date.max - datetime.date.min).days
    for number in (last + 1, last + 31 + 28, last + 31 + 29, last + 100 * 365 + 25 + 31 + 28, last + 100 * 365 + 25 + 31 + 29):
        show_day(number)
    show_day((2**64 - 1) // DAY + (EPOCH - datetime.date.min).days)


# ---- forms

def forms():
    print("windows:", sum(is_window(o, c) for o in range(1442) for c in range(1442)))
    print("offsets:", sum(fits(daily(0, 1440, above)) for above in range(65536)))
    print("years:", sum(fits(dated(year, 1, 1, 720)) for year in range(65536)))
    print("years with a 29 February:", sum(fits(dated(year, 2, 29, 720)) for year in range(65536)))
    for year in (1969, 1970, 1972, 2000, 2100, 9999, 10000):
        print(f"dates of {year}:", sum(fits(dated(year, month, day, 720)) for month in range(256) for day in range(256)))
    for number in (0, 32, 33, 255):
        print(f"lengths with {number} dates:", sum(fits(many(number, length)) for length in range(164)))
    for opening, closing in ((0, 0), (5, 5), (1439, 1440), (1440, 1440), (0, 1441), (1020, 540)):
        print(f"window {opening} to {closing}:", fits(daily(opening, closing, 720)))
    for offset in (840, 841):
        print(f"offset {offset}:", fits(daily(0, 1440, 720 + offset)))
    for what, number, length in (("32 dates", 32, 159), ("33 dates", 33, 163), ("no dates, cut", 0, 30),
                                 ("8 dates, cut", 8, 62), ("8 dates", 8, 63), ("8 dates, too long", 8, 64)):
        print(f"{what}:", fits(many(number, length)))
    for date in ((1970, 4, 30), (1970, 4, 31), (2096, 2, 29), (2100, 2, 29), (2400, 2, 29), (1970, 0, 1), (1970, 13, 1),
                 (1970, 1, 0), (1969, 12, 31), (9999, 12, 31), (10000, 1, 1)):
        print("date {}-{}-{}:".format(*date), fits(dated(*date, 720)))


# ---- times

def edges(calendar, *times):
    return "".join(hours(calendar, at) for time in times for at in (time - 1, time))


def start(year, month, day, above=720):
    """When a date starts at an offset."""
    return (datetime.date(year, month, day) - EPOCH).days * DAY - (above - 720) * MINUTE


def times():
    second, march, past = start(1970, 1, 2), start(2024, 3, 1), start(9999, 12, 31) + DAY
    for opening, closing, at in ((0, 1, second), (0, 1440, second), (0, 0, second), (540, 1020, second), (1439, 1440, second),
                                 (540, 1020, march), (1439, 1440, march), (540, 1020, past)):
        found = edges(daily(opening, closing, 720), at + opening * MINUTE, at + closing * MINUTE)
        print(f"window {opening} to {closing}, day from {at}: {found}")
    for weekday in range(7):
        found = edges(weekly(weekday, 720, 721, 720), *(i * DAY + 720 * MINUTE for i in range(14)))
        print(f"weekday {weekday}, noons from 1970-1-1: {found}")
    for weekday, above, date in ((3, 720, (1970, 1, 8)), (3, 0, (1970, 1, 1)), (2, 0, (1970, 1, 7)), (4, 1560, (1970, 1, 2))):
        at = start(*date, above)
        print(f"weekday {weekday}{offset_text(above)}, day from {at}: {edges(weekly(weekday, 0, 1440, above), at, at + DAY)}")
    for year, month, day, above in ((1970, 1, 1, 0), (1970, 1, 2, 1560), (1972, 2, 29, 720), (2000, 2, 29, 0), (2096, 2, 29, 1560), (2100, 2, 28, 720),
                                    (2100, 3, 1, 720), (2400, 2, 29, 720), (9999, 12, 31, 720)):
        at = start(year, month, day, above)
        print(f"closed {year}-{month}-{day}{offset_text(above)}, day from {at}: {edges(dated(year, month, day, above), at, at + DAY)}")
    for what, calendar in (("all day", daily(0, 1440, 720)), ("all day, UTC+840", daily(0, 1440, 1560)), ("never", daily(0, 0, 720)),
                           ("Wednesdays, UTC-720", weekly(2, 0, 1440, 0)), ("window 5 to 5", daily(5, 5, 720))):
        print(f"{what}, first and last time: {hours(calendar, 0)}{hours(calendar, 2**64 - 1)}")


dates()
forms()
times()
