"""The calendar of docs/PROTOCOL.md, "Sending hours", from its words and without the library: dates by Python's module datetime, past 9999 moved back by
whole periods of 400 years."""
import datetime
import struct

EPOCH = datetime.date(1970, 1, 1)
PERIOD = (datetime.date(2400, 1, 1) - datetime.date(2000, 1, 1)).days  # whole weeks
LAST = (datetime.date.max - EPOCH).days
MINUTE, DAY = 60_000, 86_400_000


def date_of(days):
    """Year, month, day and weekday so many days after 1 January 1970."""
    periods = max(0, -((LAST - days) // PERIOD))
    date = EPOCH + datetime.timedelta(days - periods * PERIOD)
    return date.year + 400 * periods, date.month, date.day, date.weekday()


def exists(year, month, day):
    try:
        return datetime.date(year, month, day) is not None
    except ValueError:
        return False


def is_window(opening, closing):
    return (opening, closing) == (0, 0) or opening < closing <= 1440


def hours(calendar, ms):
    """O for open, S for shut, M for malformed."""
    if len(calendar) < 31 or len(calendar) != 31 + 4 * calendar[30] or calendar[30] > 32:
        return "M"
    windows = list(struct.iter_unpack(">HH", calendar[:28]))
    offset = int.from_bytes(calendar[28:30], "big") - 720
    dates = list(struct.iter_unpack(">HBB", calendar[31:]))
    if offset > 840 or not all(is_window(*w) for w in windows) or not all(y >= 1970 and exists(y, m, d) for y, m, d in dates):
        return "M"
    days, rest = divmod(ms + offset * MINUTE, DAY)
    *date, weekday = date_of(days)
    opening, closing = windows[weekday]
    return "O" if opening * MINUTE <= rest < closing * MINUTE and tuple(date) not in dates else "S"


def calendar_of(windows, above, number, dates):
    """The bytes of a calendar whose offset is `above` minutes above -720."""
    return b"".join(struct.pack(">HH", *w) for w in windows) + struct.pack(">HB", above, number) + b"".join(struct.pack(">HBB", *d) for d in dates)


def daily(opening, closing, above):
    return calendar_of([(opening, closing)] * 7, above, 0, [])


def weekly(weekday, opening, closing, above):
    return calendar_of([(opening, closing) if w == weekday else (0, 0) for w in range(7)], above, 0, [])


def dated(year, month, day, above):
    return calendar_of([(0, 1440)] * 7, above, 1, [(year, month, day)])
