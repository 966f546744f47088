"""Document 01, read once more and written down apart from the Rattle code: what each question is answered.

Every function returns the answer or raises Refused. Dates are (year, month, day); a period is (number, unit); a table is a
Table. The f64 operations are finql's in its order. WRAP=True subtracts months as u32, as finql does: only to
tell that difference from others.
"""
import math
from datetime import date

LAST = 3652059
UNITS = "DBWMY"
RULES = ("act365", "act360", "act365l", "30360", "30e360", "icma")
ADJUST = ("none", "following", "preceding", "modified")
LENGTHS = (0, 31, 28, 31, 30, 31, 30, 31, 31, 30, 31, 30, 31)


class Refused(Exception):
    """A refusal, by its number."""


def refuse(number):
    raise Refused(number)


# ---- the calendar


def leap(year):
    return year % 4 == 0 and (year % 100 != 0 or year % 400 == 0)


def month_length(year, month):
    if not 1 <= month <= 12:
        return 0
    return 29 if month == 2 and leap(year) else LENGTHS[month]


def exists(t):
    return 1 <= t[0] <= 9999 and 1 <= t[2] <= month_length(t[0], t[1])


def is_day(n):
    return 1 <= n <= LAST


def judge_date(t):
    if not exists(t):
        refuse(1)


def serial(t):
    return date(*t).toordinal()


def dated(n):
    if not is_day(n):
        refuse(1)
    d = date.fromordinal(n)
    return d.year, d.month, d.day


def weekday(n):
    if not is_day(n):
        refuse(1)
    return date.fromordinal(n).isoweekday()


def days_between(a, b):
    if not (is_day(a) and is_day(b)):
        refuse(1)
    if b < a:
        refuse(19)
    return b - a


def day_after(n, count):
    if not is_day(n) or n + count > LAST:
        refuse(1)
    return n + count


def add_months(t, n):
    index = t[0] * 12 + t[1] - 1 + n
    year, month = index // 12, index % 12 + 1
    if not 1 <= year <= 9999:
        refuse(1)
    return year, month, min(t[2], month_length(year, month))


def add_years(t, n):
    u = (t[0] + n, t[1], t[2])
    judge_date(u)
    return u


def add_days(t, n):
    return dated(serial(t) + n)


# ---- holidays


class Table:
    """A lent list of serial days."""

    def __init__(self, days):
        self.days = days
        self.set = frozenset(days)
        before, good = 0, len(days) <= 4096
        for n in days:
            if n <= before or n > LAST:
                good = False
                break
            before = n
        self.good = good

    def judge(self):
        if not self.good:
            refuse(13)

    def business(self, n):
        return (n - 1) % 7 < 5 and n not in self.set

    def walk(self, n, k, way):
        """k business days on (way 1) or back (way -1)."""
        if k > LAST:
            refuse(1)
        while k:
            n += way
            if not is_day(n):
                refuse(1)
            if self.business(n):
                k -= 1
        return n


def business_question(n, table):
    if not is_day(n):
        refuse(1)
    table.judge()


def adjust(rule, t, table):
    judge_date(t)
    table.judge()
    return adjusted(rule, t, table)


def adjusted(rule, t, table):
    if rule == "none":
        return t
    n = serial(t)
    if table.business(n):
        return t
    if rule == "preceding":
        return dated(table.walk(n, 1, -1))
    u = dated(table.walk(n, 1, 1))
    if rule == "modified" and u[1] != t[1]:
        return dated(table.walk(n, 1, -1))
    return u


# ---- periods and coupon dates


def decimal_text(s, least, most):
    """A signed decimal, `+` allowed; `-` only where a number below 0 is."""
    body = s[1:] if s[:1] == b"+" or (s[:1] == b"-" and least < 0) else s
    if not body or any(not 48 <= c <= 57 for c in body):
        return None
    n = int(body) * (-1 if s[:1] == b"-" else 1)
    return n if least <= n <= most else None


def read_period(s):
    if len(s) < 2:
        refuse(2)
    if chr(s[-1]) not in UNITS:
        refuse(3)
    n = decimal_text(s[:-1], -(2**31), 2**31 - 1)
    if n is None:
        refuse(4)
    return n, chr(s[-1])


def read_coupon_date(s):
    parts = s.strip(b"\t\n\x0b\x0c\r ").split(b".")
    if len(parts) < 2:
        refuse(6)
    day, month = (decimal_text(p, 0, 2**32 - 1) for p in parts[:2])
    if day is None or month is None:
        refuse(6)
    return new_coupon_date(day, month)


def new_coupon_date(day, month):
    if day == 0 or month == 0 or month > 12:
        refuse(7)
    if day > LENGTHS[month]:
        refuse(8)
    return day, month


def frequency(p):
    n = abs(p[0])
    if p[1] == "M" and n in (1, 3, 6, 12):
        return 12 // n
    if p[1] == "Y" and n == 1:
        return 1
    refuse(5)


def inverse(p):
    if p[0] == -(2**31):
        refuse(4)
    return -p[0], p[1]


def step(p, t, table=None):
    n, unit = p
    if unit == "D":
        return add_days(t, n)
    if unit == "W":
        return add_days(t, 7 * n)
    if unit == "M":
        return add_months(t, n)
    if unit == "Y":
        return add_years(t, n)
    return dated(table.walk(serial(t), abs(n), 1 if n > 0 else -1))


def add_to(p, t, table=None, negate=False):
    """1 for the date, 4, 12, 13, then 1 for the result."""
    judge_date(t)
    if negate:
        p = inverse(p)
    if p[1] == "B" and table is None:
        refuse(12)
    if table is not None:
        table.judge()
    return step(p, t, table)


# ---- year fractions


def thirty(start, end, european, wrap, number):
    months = end[1] - start[1]
    if wrap:
        months %= 2**32
    s = min(start[2], 30)
    e = min(end[2], 30) if european or s == 30 else end[2]
    yf = number(end[0] - start[0]) + number(months) / number(12) + number(e - s) / number(360)
    if yf == 0 and start != end:
        refuse(9)
    return yf


def since_new_year(t):
    return serial(t) - date(t[0], 1, 1).toordinal()


def year_length(year):
    return 366 if leap(year) else 365


def icma(start, end, roll, p, number):
    freq = number(frequency(p))
    if p[0] < 1:
        refuse(14)
    back = (-p[0], p[1])
    base = roll
    while base < start:
        base = step(p, base)
    while base > end:
        base = step(back, base)
    if base < start:
        length = serial(step(p, base)) - serial(base)
        return number(serial(end) - serial(start)) / (number(length) * freq)
    count, yf, b = 0, number(0), base
    while b > start:
        b = step(back, b)
        count += b >= start
    if b < start:
        u = step(p, b)
        yf += number(serial(u) - serial(start)) / number(serial(u) - serial(b))
    while base < end:
        base = step(p, base)
        count += base <= end
    if base > end:
        b = step(back, base)
        yf += number(serial(end) - serial(b)) / number(serial(base) - serial(b))
    return (yf + number(count)) / freq


def year_fraction(rule, start, end, roll, p, wrap=False, number=float):
    """The f64, or with number=Fraction the exact value."""
    judge_date(start)
    judge_date(end)
    if rule == "icma" and roll is not None:
        judge_date(roll)
    if end < start:
        refuse(19)
    if rule == "act365":
        return number(serial(end) - serial(start)) / number(365)
    if rule == "act360":
        return number(serial(end) - serial(start)) / number(360)
    if rule == "act365l":
        yf = number(end[0] - start[0]) + number(since_new_year(end)) / number(year_length(end[0]))
        return yf - number(since_new_year(start)) / number(year_length(start[0]))
    if rule == "30360":
        return thirty(start, end, False, wrap, number)
    if rule == "30e360":
        return thirty(start, end, True, wrap, number)
    if roll is None:
        refuse(10)
    if p is None:
        refuse(11)
    return icma(start, end, roll, p, number)


# ---- amounts and flows: a flow is (date, currency, amount)


def round2digits(x, digits):
    if not 0 <= digits <= 4 or not abs(x) <= 1e9:
        refuse(15)
    power = float(10**digits)
    product = x * power
    whole = float(int(abs(product)))
    if abs(product) - whole >= 0.5:
        whole += 1.0
    return math.copysign(whole, product) / power


def is_currency(c):
    return len(c) == 3 and all(65 <= x <= 90 for x in c)


def aggregatable(a, b):
    return a[0] == b[0] and a[1] == b[1]


def fuzzy(a, b, tolerance):
    return aggregatable(a, b) and abs(a[2] - b[2]) <= tolerance


def judge_finite(x):
    if not math.isfinite(x):
        refuse(15)


def show_decimal(x):
    judge_finite(x)
    return b"%16.4f" % x


def show_date(t):
    judge_date(t)
    return b"%04d-%02d-%02d" % t


def show_amount(x, c):
    judge_finite(x)
    if not is_currency(c):
        refuse(17)
    return show_decimal(x) + b" " + c


def factor(rate, rule, today, t, wrap):
    yf = year_fraction(rule, today, t, None, None, wrap)
    return 1.0 / (1.0 + rate * yf)


def judge_simple_rate(rate):
    if not 0.0 <= rate <= 1.0:
        refuse(15)


def discount_factor(rate, rule, today, t, wrap=False):
    judge_simple_rate(rate)
    return factor(rate, rule, today, t, wrap)


def flow_value(rate, rule, currency, today, flow, wrap):
    judge_finite(flow[2])
    if not is_currency(currency) or flow[1] != currency:
        refuse(17)
    return factor(rate, rule, today, flow[0], wrap) * flow[2]


def discount_cash_flow(rate, rule, currency, today, flow, wrap=False):
    judge_simple_rate(rate)
    return flow_value(rate, rule, currency, today, flow, wrap)


def discount_stream(rate, rule, currency, today, flows, wrap=False):
    judge_simple_rate(rate)
    total = 0.0
    for flow in flows:
        total += flow_value(rate, rule, currency, today, flow, wrap)
    return total


def flows_after(t, flows, places):
    if not exists(t) or not all(exists(f[0]) for f in flows):
        refuse(1)
    later = [f for f in flows if f[0] > t]
    if len(later) > places:
        refuse(16)
    return later


# ---- the note: a dict


def check_note(n, position=True, table=True):
    if not 1 <= n["count"] <= 10 or n["digits"] >= 10 ** n["count"]:
        refuse(18)
    if not (0.0 <= n["rate"] <= 100.0 and math.copysign(1.0, n["rate"]) > 0) or not position:
        refuse(15)
    if not is_currency(n["currency"]):
        refuse(17)
    judge_date(n["issue"])
    judge_date(n["maturity"])
    new_coupon_date(*n["coupon"])
    if not table:
        refuse(13)
    if n["period"][0] < 1:
        refuse(14)
    if n["period"][1] == "B":
        refuse(12)


def first_coupon_end(n):
    day, month = n["coupon"]
    t = (n["issue"][0] + (month <= n["issue"][1]), month, day)
    judge_date(t)
    return t


def interest(nominal, n, yf, number=float):
    return nominal * number(n["rate"]) / number(100) * yf


def rollout(n, position, table, places, wrap=False):
    check_note(n, abs(position) <= 1e9, table.good)
    nominal = position * float(n["denomination"])

    def coupon(start, end, roll):
        yf = year_fraction(n["rule"], start, end, roll, n["period"], wrap)
        return adjusted(n["adjust"], end, table), n["currency"], interest(nominal, n, yf)

    end = first_coupon_end(n)
    flows = [coupon(n["issue"], end, end)]
    while end < n["maturity"]:
        start, end = end, step(n["period"], end)
        flows.append(coupon(start, end, start))
    flows.append((adjusted(n["adjust"], n["maturity"], table), n["currency"], nominal))
    if len(flows) > places:
        refuse(16)
    return flows


def accrued(n, today, wrap=False, number=float):
    check_note(n)
    judge_date(today)
    start = n["issue"]
    if today < start:
        return number(0)
    end = first_coupon_end(n)
    while today > end and end < n["maturity"]:
        start, end = end, step(n["period"], end)
    if end >= n["maturity"]:
        return number(0)
    yf = year_fraction(n["rule"], start, end, start, n["period"], wrap, number)
    amount = interest(number(n["denomination"]), n, yf, number)
    return amount * (number(serial(today) - serial(start)) / number(serial(end) - serial(start)))
