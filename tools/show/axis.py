"""The axis of time below a picture."""
from datetime import datetime, timedelta

from storefile.values import BEGINNING, UNTIL_CHANGED

DAY, MOST = 86_400, 8
YEARS = [1, 2, 5, 10, 20, 50, 100, 200, 500, 1000, 2000]


class Axis:
    """From the first to the last end that is a date, and some more on both sides."""

    def __init__(self, periods, left, right):
        ends = sorted({end for period in periods for end in period if 0 < end < UNTIL_CHANGED})
        low, high = (ends[0], ends[-1]) if ends else (0, UNTIL_CHANGED - 1)
        span = (high - low) or 4 * 365 * DAY
        is_open = [any(period.begin == 0 for period in periods), any(period.till == UNTIL_CHANGED for period in periods)]
        before, behind = (span * (0.25 if wide else 0.03) for wide in is_open)
        self.low, self.high = max(0.0, low - before), min(float(UNTIL_CHANGED - 1), high + behind)
        self.left, self.right = left, right

    def place(self, instant):
        share = (min(max(instant, self.low), self.high) - self.low) / (self.high - self.low)
        return self.left + share * (self.right - self.left)

    def ticks(self):
        """Instants with their texts: so many that they are read with ease."""
        begin, till = (BEGINNING + timedelta(seconds=int(end)) for end in (self.low, self.high))
        for made in (hours, days, months, years):
            found = made(begin, till)
            if found:
                return [((moment - BEGINNING).total_seconds(), text) for moment, text in found]
        return []


def hours(begin, till):
    if till - begin > timedelta(days=2):
        return []
    step = next((step for step in (1, 2, 3, 6, 12) if (till - begin) / timedelta(hours=step) <= MOST), 12)
    first = begin.replace(minute=0, second=0, microsecond=0)
    count = (till - first) // timedelta(hours=1)  # no moment is made behind the last one that there is
    found = [first + timedelta(hours=hour) for hour in range(1, count + 1) if (first.hour + hour) % step == 0]
    return [(moment, moment.strftime("%m-%d %H:%M")) for moment in found]


def days(begin, till):
    if till - begin > timedelta(days=70):
        return []
    step = next((step for step in (1, 2, 7, 14) if (till - begin).days / step <= MOST), 14)
    first = begin.replace(hour=0, minute=0, second=0, microsecond=0)
    found = [first + timedelta(days=step * count) for count in range(1, (till - first).days // step + 1)]
    return [(moment, f"{moment:%Y-%m-%d}") for moment in found]


def months(begin, till):
    count = (till.year - begin.year) * 12 + till.month - begin.month
    if count > 6 * MOST:
        return []
    step = next(step for step in (1, 2, 3, 6) if count / step <= MOST)
    found = []
    for month in range(begin.year * 12 + begin.month, till.year * 12 + till.month):
        if month % step == 0:
            moment = datetime(month // 12, month % 12 + 1, 1)
            found.append((moment, f"{moment.year:04}-{moment.month:02}"))
    return found


def years(begin, till):
    step = next((step for step in YEARS if (till.year - begin.year) / step <= MOST), YEARS[-1])
    return [(datetime(year, 1, 1), f"{year:04}") for year in range(begin.year + 1, till.year + 1) if year % step == 0]
