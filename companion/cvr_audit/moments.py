"""Moments: dates and times with an offset, as `cvr` orders them."""
import datetime
import re

FORM = re.compile(r'([+-]00)?(\d{4})-?(\d\d)-?(\d\d)[Tt ](\d\d):?(\d\d)?:?(\d\d)?(?:[.,](\d+))?'
                  r'(?:[Zz]|([+-])(\d\d):?(\d\d)?:?(\d\d)?)')
YEARS, DAYS = 400, 146097       # after so many years the calendar is the same; their days


def seconds(hours, minutes, rest):
    """The seconds of a time of the day, or of an offset; the 60th of a minute is taken for the 59th."""
    return 3600 * int(hours or 0) + 60 * int(minutes or 0) + min(int(rest or 0), 59)


def instant(text):
    """The nanoseconds of an accepted moment, counted from a day that is the same for all."""
    sign, year, month, day, *clock, part, side, hours, minutes, rest = FORM.fullmatch(text).groups()
    year = -int(year) if sign == '-00' else int(year)
    days = datetime.date(YEARS + year % YEARS, int(month), int(day)).toordinal()
    days += year // YEARS * DAYS
    offset = seconds(hours, minutes, rest) * (-1 if side == '-' else 1)
    return (86400 * days + seconds(*clock) - offset) * 10 ** 9 + int((part or '').ljust(9, '0'))
