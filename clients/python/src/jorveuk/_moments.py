"""Dates as the ring has them: ticks of 100 ns since 0001-01-01 UTC."""

from datetime import datetime, timedelta, timezone
from typing import Union

When = Union[datetime, timedelta]

# The last tick of the year 9999.
MAX_TICKS = 3155378975999999999

_BEGIN = datetime(1, 1, 1, tzinfo=timezone.utc)
_MICROSECOND = timedelta(microseconds=1)


def now() -> datetime:
    return datetime.now(timezone.utc)


def date_of(when: When, start: datetime) -> datetime:
    """A date that knows its time zone, or so long behind the start."""
    if isinstance(when, timedelta):
        try:
            return start + when
        except OverflowError:
            raise ValueError(f"{when!r} from now is beyond the last date") from None
    if not isinstance(when, datetime):
        raise TypeError(f"a datetime or a timedelta is needed, not {type(when).__name__}")
    if when.utcoffset() is None:
        raise ValueError("the datetime has no time zone: try datetime.now(timezone.utc)")
    return when


def ticks_of(date: datetime) -> int:
    ticks = (date - _BEGIN) // _MICROSECOND * 10
    if not 0 <= ticks <= MAX_TICKS:
        raise ValueError(f"{date} is no date in UTC")
    return ticks


def date_at(ticks: int) -> datetime:
    """The date of ticks, to the microsecond below."""
    return _BEGIN + timedelta(microseconds=ticks // 10)
