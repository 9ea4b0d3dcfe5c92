"""Gregorian dates, and the day counts of the bases."""

from typing import Callable, NamedTuple

from asks import landed

FIRST_YEAR = 1900
LAST_YEAR = 2199
MONTH_LENGTHS = (31, 28, 31, 30, 31, 30, 31, 31, 30, 31, 30, 31)


class Date(NamedTuple):
    """Dates compare in their natural order, field by field."""

    year: int
    month: int
    day: int


def is_leap(year):
    """Divisible by 4, and not by 100 unless by 400."""
    return year % 4 == 0 and (year % 100 != 0 or year % 400 == 0)


def days_in_month(year, month):
    return 29 if month == 2 and is_leap(year) else MONTH_LENGTHS[month - 1]


def date_exists(date):
    """Is it a date of the calendar, in a year from 1900 to 2199?"""
    if not FIRST_YEAR <= date.year <= LAST_YEAR:
        return False
    if not 1 <= date.month <= 12:
        return False
    return 1 <= date.day <= days_in_month(date.year, date.month)


def day_number(date):
    """Days since the last day before the first year."""
    years = range(FIRST_YEAR, date.year)
    months = range(1, date.month)
    before_year = sum(366 if is_leap(year) else 365 for year in years)
    before_month = sum(days_in_month(date.year, month) for month in months)
    return before_year + before_month + date.day


def actual_days(start, end):
    return day_number(end) - day_number(start)


def months_of_30_days(start, end, first_day, second_day):
    """Years of 360 days and months of 30, with these days in place of the dates' own."""
    years = end.year - start.year
    months = end.month - start.month
    return 360 * years + 30 * months + second_day - first_day


def european_days(start, end):
    """A day 31 in either date becomes 30."""
    return months_of_30_days(start, end, min(start.day, 30), min(end.day, 30))


def american_days(start, end):
    """A first day of 31 becomes 30; a second day of 31 only if the first day is then 30."""
    first_day = min(start.day, 30)
    second_day = 30 if end.day == 31 and first_day == 30 else end.day
    return months_of_30_days(start, end, first_day, second_day)


class Basis(NamedTuple):
    """The days that it counts between two dates that exist, and the days of its year."""

    days: Callable
    year: int


ACTUAL = (Basis(actual_days, 360), Basis(actual_days, 365))
EUROPEAN, AMERICAN = Basis(european_days, 360), Basis(american_days, 360)
BASES = ACTUAL + ((AMERICAN, EUROPEAN) if landed(2) else (EUROPEAN,))
