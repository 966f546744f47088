"""Questions for both sides. A question is a Question: the record for `replay`, the line for finql (None: it has no such
entry point, or cannot be asked this), what document 01 answers, and what the rules of difference look at.
"""
import math
import random
import struct

import packing
import paper
from paper import ADJUST, LAST, RULES, UNITS, Refused, Table

KEPT = " kept"
LEAST = -(2**31)


class Question:
    __slots__ = ("name", "record", "line", "expected", "about")

    def __init__(self, name, verb, fields, line, answer, about=None, suffix=""):
        self.name = name
        self.record = struct.pack(">HB", len(fields), verb) + fields
        self.line = line
        self.expected = said(answer) + suffix
        self.about = about


def said(answer):
    try:
        text = answer()
    except Refused as e:
        return "refused %d" % e.args[0]
    return "ok " + text if text else "ok"


# ---- how a value is written in an answer and on a line of finql's


def bits(x):
    return struct.pack(">d", x).hex()


def day_text(t):
    return "%d-%d-%d" % t


def finql_date(t):
    return "%d-%d-%d" % t if 1 <= t[1] <= 12 and 1 <= t[2] <= paper.month_length(t[0], t[1]) and t[0] <= 9999 else None


def finql_table(table):
    if any(n > LAST for n in table.days):
        return None
    return ",".join("#%d" % n for n in table.days) or "none"


def finql_currency(c):
    return c.decode("ascii") if all(33 <= x <= 126 and x not in b":,|" for x in c) else None


def line(*words):
    return None if any(w is None for w in words) else " ".join(words)


# ---- fields of a record


def W(n):
    return struct.pack(">I", n & 0xFFFFFFFF)


def D(t):
    return struct.pack(">III", *t)


def F(x):
    return struct.pack(">d", x)


def P(p):
    return struct.pack(">IB", p[0] & 0xFFFFFFFF, UNITS.index(p[1]))


def T(table):
    return struct.pack(">H%dI" % len(table.days), len(table.days), *table.days)


def X(flow):
    return D(flow[0]) + flow[1] + F(flow[2])


def L(flows):
    return struct.pack(">H", len(flows)) + b"".join(map(X, flows))


def N(n):
    return (
        struct.pack(">IQ", n["count"], n["digits"]) + D(n["issue"]) + D(n["maturity"]) + W(n["coupon"][0]) + W(n["coupon"][1]) + P(n["period"])
        + bytes((RULES.index(n["rule"]), ADJUST.index(n["adjust"]))) + W(n["denomination"]) + F(n["rate"]) + n["currency"]
    )


def finql_note(n):
    if not math.isfinite(n["rate"]):
        return None
    words = (
        finql_date(n["issue"]), finql_date(n["maturity"]), "%d.%d" % n["coupon"], "%d%s" % n["period"], n["rule"], n["adjust"], str(n["denomination"]),
        bits(n["rate"]), finql_currency(n["currency"]),
    )
    return line(*words)


def flow_words(flows):
    words = [line(finql_date(t), finql_currency(c)) for t, c, x in flows]
    if None in words:
        return None
    return ",".join("%s:%s:%s" % (*w.split(" "), bits(f[2])) for w, f in zip(words, flows)) or "none"


# ---- ingredients, with crowded edges


class Maker:
    def __init__(self, seed):
        self.r = random.Random(seed)
        self.tables = [self.new_table() for _ in range(400)]

    def pick(self, *xs):
        return xs[int(self.r.random() * len(xs))]

    def chance(self, p):
        return self.r.random() < p

    def year(self):
        k = self.r.random()
        if k < 0.55:
            return self.r.randint(1980, 2060)
        if k < 0.75:
            return self.r.randint(1, 9999)
        if k < 0.85:
            return self.pick(1, 2, 3, 4, 9996, 9997, 9998, 9999)
        return self.pick(200, 1600, 1800, 1899, 1900, 1904, 1999, 2000, 2001, 2019, 2020, 2023, 2024, 2100, 2200, 2400)

    def date(self, odd=0.03):
        year, month = self.year(), self.r.randint(1, 12)
        k = self.r.random()
        if k < odd:
            return self.pick(
                (0, month, 1), (10000, month, 1), (year, 0, 5), (year, 13, 5), (year, month, 0), (year, month, 32), (year, 2, 30), (year, 2, 29), (year, 4, 31),
                (2**32 - 1, 1, 1), (year, 2**32 - 1, 1), (year, month, 2**31),
            )
        last = paper.month_length(year, month)
        if k < 0.35:
            return year, month, self.pick(1, 28, last, last, last - 1, 15, min(30, last))
        if k < 0.42:
            return year, 2, paper.month_length(year, 2)
        if k < 0.48:
            return self.pick((year, 1, 1), (year, 12, 31), (year, 3, 1))
        return year, month, self.r.randint(1, last)

    def near(self, t):
        """A date near another, more often not before it."""
        if not paper.exists(t) or self.chance(0.2):
            return self.date()
        n = paper.serial(t) + self.pick(0, 1, 2, 27, 28, 29, 30, 31, 59, 90, 181, 182, 184, 365, 366, self.r.randint(-40, 900), self.r.randint(0, 20000))
        return paper.dated(min(max(n, 1), LAST))

    def number(self):
        k = self.r.random()
        if k < 0.6:
            return self.pick(1, 2, 3, 4, 6, 7, 12, 13, 18, 24, 36)
        if k < 0.75:
            return self.r.randint(-400, 400)
        if k < 0.8:
            return self.pick(0, -1, -3, -6, -12)
        if k < 0.9:
            return self.r.randint(-130000, 130000)
        return self.pick(LEAST, LEAST + 1, 2**31 - 1, 2**31 - 2, 119988, 3652058, -3652058, 521722, self.r.randint(LEAST, 2**31 - 1))

    def period(self, units=UNITS):
        unit = self.r.choice(units)
        n = self.number()
        if unit == "B" and 400 < abs(n) <= LAST:
            n = self.r.randint(-400, 400)
        return n, unit

    def serial(self):
        k = self.r.random()
        if k < 0.8:
            t = self.date(0)
            return paper.serial(t)
        if k < 0.9:
            return self.r.randint(1, LAST)
        return self.pick(0, 1, 2, LAST - 1, LAST, LAST + 1, 2**31, 2**32 - 1, 146097, 146098)

    def new_table(self):
        k = self.r.random()
        if k < 0.25:
            return Table([])
        if k < 0.55:
            return Table(sorted({paper.serial(self.date(0)) for _ in range(self.r.randint(1, 12))}))
        if k < 0.7:
            first = self.pick(1, LAST - 40, paper.serial((2021, 7, 1)), paper.serial((2020, 2, 20)), paper.serial((2024, 12, 20)))
            return Table([n for n in range(first, min(LAST, first + 45) + 1) if self.chance(0.8)])
        if k < 0.74:
            return Table(self.full_table(4096))
        if k < 0.76:
            return Table(self.full_table(4097))
        days = sorted({paper.serial(self.date(0)) for _ in range(6)})
        return Table(self.pick(days[::-1], days + days[-1:], [0] + days, days + [LAST + 1], [2**32 - 1], days[:2] + days[:1]))

    def full_table(self, count):
        first = self.pick(1, LAST - 6000, paper.serial((2018, 1, 1)), self.r.randint(1, LAST - 9000))
        return [n for n in range(first, min(first + 6000, LAST + 1)) if (n - 1) % 7 < 5][:count]

    def table(self, long=0.02):
        table = self.r.choice(self.tables)
        if len(table.days) > 100 and not self.chance(long):
            return self.tables[0] if self.tables[0].good else Table([])
        return table

    def small_float(self):
        return self.pick(0.0, -0.0, 1.0, 0.5, 2.5, 0.125, 0.03125, 0.09375, 1e-5, -1e-5, 4.25, 7.125, 100.0, math.nextafter(100.0, 200), math.nextafter(100.0, 0), 5e-324)

    def float(self):
        k = self.r.random()
        if k < 0.3:
            return self.small_float()
        if k < 0.6:
            return round(self.r.uniform(-2e4, 2e4), self.r.randint(0, 6))
        if k < 0.7:
            return (self.r.randint(-(10**7), 10**7) + 0.5) / self.pick(1, 10, 100, 1000, 10000, 1024)
        if k < 0.8:
            return self.r.uniform(-1e9, 1e9)
        if k < 0.9:
            return struct.unpack(">d", struct.pack(">Q", self.r.getrandbits(64)))[0]
        return self.pick(1e9, -1e9, math.nextafter(1e9, 2e9), math.inf, -math.inf, math.nan, 1.7976931348623157e308, 2.2250738585072014e-308, 0.49999999999999994, 2.675, 1.005)

    def plain(self):
        """Never a NaN: its bits are not promised."""
        x = self.float()
        return 0.25 if x != x else x

    def rate(self):
        k = self.r.random()
        if k < 0.8:
            return self.pick(0.0, 1.0, 2.5, 4.0, 4.25, 0.125, 7.0, 99.99, 100.0, round(self.r.uniform(0, 100), 3), self.r.uniform(0, 100))
        return self.float()

    def simple_rate(self):
        return self.r.uniform(0, 1) if self.chance(0.7) else self.pick(0.0, 1.0, 0.05, -0.0, math.nextafter(1.0, 2), -2.0, math.nan, math.inf, 5e-324)

    def currency(self):
        if self.chance(0.95):
            return self.pick(b"EUR", b"EUR", b"CHF", b"USD", b"ZZZ", b"AAA")
        return self.pick(b"eur", b"EUr", b"E1R", b"EU[", b"@UR", b"\0\0\0", b"\xffUR")

    def flow(self):
        return self.date(), self.currency(), self.plain()

    def flows(self, most=12):
        start = self.date(0)
        return [(self.near(start) if self.chance(0.9) else self.date(), b"EUR" if self.chance(0.9) else self.currency(), self.plain()) for _ in range(self.r.randint(0, most))]

    def note(self):
        issue = self.date(0.01)
        unit = self.pick(*"MMMMMMYYYDWB") if self.chance(0.97) else "B"
        number = {"M": self.pick(1, 2, 3, 4, 6, 6, 12, 12, 18), "Y": self.pick(1, 1, 1, 2, 5), "D": self.pick(91, 182, 200, 365), "W": self.pick(13, 26, 52), "B": 5}[unit]
        if self.chance(0.05):
            number = self.number()
        years = self.pick(0, 1, 1, 2, 3, 5, 8)
        maturity = (min(issue[0] + years, 10000), self.r.randint(1, 12), self.r.randint(1, 28)) if self.chance(0.8) else self.date(0.01)
        if unit in "DW" and 0 < number < 50 or abs(maturity[0] - issue[0]) > 60:
            maturity = (min(issue[0] + 1, 9999), issue[1], min(issue[2], 28))
        month = self.r.randint(1, 12)
        coupon = (self.pick(1, 15, 28, paper.LENGTHS[month]), month)
        if self.chance(0.03):
            coupon = self.pick((29, 2), (0, 5), (31, 4), (15, 0), (15, 13), (257, 1), (256, 2), (288, 2), (2**32 - 1, 1), (32, 1))
        digits = self.r.randint(0, 10)
        return {
            "count": digits if self.chance(0.05) else max(digits, 1), "digits": self.r.randint(0, 10 ** max(digits, 1) - 1) if self.chance(0.97) else 10**11,
            "issue": issue, "maturity": maturity, "coupon": coupon, "period": (number, unit), "rule": self.r.choice(RULES), "adjust": self.r.choice(ADJUST),
            "denomination": self.pick(0, 1, 250, 1000, 1000, 5000, 1000000, 2**32 - 1), "rate": self.rate(), "currency": self.currency(),
        }

    def rollable(self):
        """A note that is mostly accepted, and of few flows."""
        n = self.note()
        if self.chance(0.85):
            n["count"], n["digits"], n["rate"], n["currency"] = 5, 417, self.pick(0.0, 4.0, 4.25, self.r.uniform(0, 100)), b"EUR"
        return n

    def position(self):
        return self.pick(1.0, 1.0, 10.0, -3.5, 0.0, -0.0, 1e9, 12345.678) if self.chance(0.95) else self.float()


# ---- the questions, one maker each


def q_is_leap(m):
    y = m.year() if m.chance(0.9) else m.r.getrandbits(32)
    return Question("is_leap", 1, W(y), None, lambda: str(int(paper.leap(y))))


def q_length_of_month(m):
    y, k = m.year(), m.pick(0, 1, 2, 2, 2, 4, 12, 13, m.r.getrandbits(32), m.r.randint(1, 12))
    return Question("length_of_month", 2, W(y) + W(k), None, lambda: str(paper.month_length(y, k)))


def q_length_of_year(m):
    y = m.pick(0, m.year(), m.year(), m.r.getrandbits(32))
    return Question("length_of_year", 3, W(y), None, lambda: str(paper.year_length(y) if y else 0))


def q_is_date(m):
    t = m.date(0.3)
    return Question("is_date", 4, D(t), None, lambda: str(int(paper.exists(t))))


def q_is_day(m):
    n = m.serial()
    return Question("is_day", 5, W(n), None, lambda: str(int(paper.is_day(n))))


def q_is_before(m):
    a = m.date()
    b = m.pick(a, m.near(a), m.date())
    return Question("is_before", 6, D(a) + D(b), None, lambda: str(int(a < b)))


def q_is_same(m):
    a = m.date()
    b = m.pick(a, a, m.near(a))
    return Question("is_same", 7, D(a) + D(b), None, lambda: str(int(a == b)))


def q_day_of(m, t=None):
    t = t or m.date()

    def answer():
        paper.judge_date(t)
        return str(paper.serial(t))

    return Question("day_of", 8, D(t), line("serial", finql_date(t)), answer, t)


def q_date_of(m, n=None):
    n = m.serial() if n is None else n
    return Question("date_of", 9, W(n), "showdate #%d" % n if paper.is_day(n) else None, lambda: day_text(paper.dated(n)))


def q_weekday(m, n=None):
    n = m.serial() if n is None else n
    return Question("weekday", 10, W(n), "weekday #%d" % n if paper.is_day(n) else None, lambda: str(paper.weekday(n)))


def q_days_between(m):
    a = m.serial()
    b = m.pick(a, a + 1, a - 1, m.serial(), m.serial()) & 0xFFFFFFFF
    asked = paper.is_day(a) and paper.is_day(b) and a <= b
    return Question("days_between", 11, W(a) + W(b), "days #%d #%d" % (a, b) if asked else None, lambda: str(paper.days_between(a, b)))


def q_day_after(m):
    a = m.serial()
    b = m.pick(0, 1, m.r.randint(0, 5000), LAST, 2**32 - 1, (LAST - a) & 0xFFFFFFFF, (LAST + 1 - a) & 0xFFFFFFFF)
    return Question("day_after", 12, W(a) + W(b), None, lambda: str(paper.day_after(a, b)))


def moved(move, t):
    def answer():
        paper.judge_date(t)
        return day_text(move())

    return answer


def q_add_months(m, t=None, n=None):
    t, n = t or m.date(), m.number() if n is None else n
    return Question("add_months", 13, D(t) + W(n), line("add", finql_date(t), "%dM" % n, "-"), moved(lambda: paper.add_months(t, n), t), ((n, "M"), t))


def q_add_years(m):
    t, n = m.date(), m.number()
    return Question("add_years", 14, D(t) + W(n), line("add", finql_date(t), "%dY" % n, "-"), moved(lambda: paper.add_years(t, n), t), ((n, "Y"), t))


def q_add_days(m):
    t, n = m.date(), m.number() if m.chance(0.9) else m.pick(-(2**63), 2**63 - 1, 2**32, -(2**32))
    asked = LEAST <= n < 2**31
    return Question(
        "add_days", 15, D(t) + struct.pack(">q", n), line("add", finql_date(t), "%dD" % n, "-") if asked else None, moved(lambda: paper.add_days(t, n), t), ((n, "D"), t)
    )


def q_is_table(m):
    table = m.table(0.05)
    return Question("is_table", 16, T(table), None, lambda: str(int(table.good)))


def q_is_business_day(m):
    n, table = m.serial(), m.table()

    def answer():
        paper.business_question(n, table)
        return str(int(table.business(n)))

    return Question("is_business_day", 17, W(n) + T(table), None, answer)


def business(name, verb, way, counted):
    def make(m):
        n, table = m.serial(), m.table()
        k = m.pick(0, 1, 2, 5, 20, m.r.randint(0, 300), 2**32 - 1) if counted else 1

        def answer():
            paper.business_question(n, table)
            return str(table.walk(n, k, way))

        asked = paper.is_day(n) and k < 2**31
        text = line("add", "#%d" % n, "%d%s" % (way * k, "B"), finql_table(table)) if asked else None
        return Question(name, verb, W(n) + (W(k) if counted else b"") + T(table), text, answer, ((way * k, "B"), n))

    return make


def q_adjust_date(m):
    rule, t, table = m.r.choice(ADJUST), m.date(), m.table()
    fields = bytes((ADJUST.index(rule),)) + D(t) + T(table)
    return Question("adjust_date", 22, fields, line("adjust", rule, finql_date(t), finql_table(table)), lambda: day_text(paper.adjust(rule, t, table)), t)


def damaged(m, s):
    """A good text with one byte changed, added or taken away."""
    s = bytearray(s)
    for _ in range(m.pick(0, 0, 1, 1, 2)):
        at = m.r.randint(0, len(s))
        how = m.r.random()
        byte = m.pick(*b"+-. DBWMYdm0179\t\n \0\x1c\x80\xff") if m.chance(0.8) else m.r.getrandbits(8)
        if how < 0.4:
            s[at:at] = bytes((byte,))
        elif how < 0.7:
            del s[at : at + 1]
        else:
            s[at : at + 1] = bytes((byte,))
    return bytes(s)


def finql_text(verb, s):
    try:
        s.decode("utf-8")
    except UnicodeDecodeError:
        return None
    return "%shex %s" % (verb, s.hex())


def q_read_period(m, s=None):
    if s is None:
        s = damaged(m, m.pick(b"", b"+", b"-", b"00", b" ") + b"%d" % m.number() + m.pick(b"D", b"B", b"W", b"M", b"Y", b"m", b""))

    def answer():
        n, unit = paper.read_period(s)
        return "%d %d" % (n, UNITS.index(unit))

    return Question("read_period", 23, s, finql_text("period", s), answer)


def room(m, size):
    return m.pick(size, size, size + 1, size + 7, size - 1, 0, size // 2) if size else 0


def written(data, places):
    def answer():
        text = data()
        if len(text) > places:
            paper.refuse(16)
        return "%d %s" % (len(text), text.hex() or "-")

    return answer


def q_write_period(m):
    p = m.period()
    text = b"%d%s" % (p[0], p[1].encode())
    places = max(0, room(m, len(text)))
    return Question("write_period", 24, P(p) + W(places), finql_text("period", text) if places >= len(text) else None, written(lambda: text, places), None, KEPT)


def q_frequency(m):
    p = m.period()
    return Question("frequency", 25, P(p), "freq %d%s" % p, lambda: str(paper.frequency(p)), (p, None))


def q_inverse(m):
    p = m.period()

    def answer():
        n, unit = paper.inverse(p)
        return "%d %d" % (n, UNITS.index(unit))

    return Question("inverse", 26, P(p), None, answer)


def stepped(name, verb, word, given, negate):
    def make(m):
        p, t = m.period(), m.date()
        table = m.table() if given else None
        text = line(word, finql_date(t), "%d%s" % p, finql_table(table) if given else "-")
        fields = P(p) + D(t) + (T(table) if given else b"")
        return Question(name, verb, fields, text, lambda: day_text(paper.add_to(p, t, table, negate)), (p, t))

    return make


def q_read_coupon_date(m, s=None):
    if s is None:
        day, month = m.pick(0, 1, 15, 28, 29, 31, 257, 288, m.r.randint(1, 31), 2**32), m.pick(0, 1, 2, 2, 4, 12, 13, m.r.randint(1, 12))
        s = damaged(m, m.pick(b"", b" ", b"\t", b"+", "\u00a0".encode(), "\u3000".encode()) + b"%d.%d" % (day, month) + m.pick(b"", b" ", b".", b".zz"))
    return Question("read_coupon_date", 31, s, finql_text("coupon", s), lambda: "%d %d" % paper.read_coupon_date(s), s)


def q_new_coupon_date(m):
    day, month = m.pick(0, 1, 28, 29, 30, 31, 32, 256, 257, 2**32 - 1, m.r.randint(1, 31)), m.pick(0, 1, 2, 2, 4, 12, 13, 2**32 - 1, m.r.randint(1, 12))
    return Question("new_coupon_date", 32, W(day) + W(month), "coupon %d.%d" % (day, month), lambda: "%d %d" % paper.new_coupon_date(day, month), b"%d" % day)


def q_write_coupon_date(m):
    day, month = m.r.randint(1, 31), m.r.randint(1, 12)
    text = b"%02d.%02d" % (day, month)
    places = max(0, room(m, len(text)))
    return Question("write_coupon_date", 33, W(day) + W(month) + W(places), None, written(lambda: text, places), None, KEPT)


def q_convention_of_code(m):
    n = m.pick(0, 1, 2, 3, 4, 5, 6, 7, 2**32 - 1)
    return Question("convention_of_code", 34, W(n), None, lambda: str(n) if n < 6 else paper.refuse(18))


def fraction_question(m, rule, start, end, roll, p):
    fields = bytes((RULES.index(rule),)) + D(start) + D(end) + bytes((roll is not None,)) + D(roll or (0, 0, 0)) + bytes((p is not None,)) + P(p or (0, "D"))
    text = line("yf", rule, finql_date(start), finql_date(end), finql_date(roll) if roll else "-", "%d%s" % p if p else "-")
    ask = lambda wrap=False: bits(paper.year_fraction(rule, start, end, roll, p, wrap))
    return Question("year_fraction", 35, fields, text, ask, (ask, start, roll, p))


def q_year_fraction(m):
    rule = m.pick(*RULES, "icma")
    start = m.date()
    end = m.near(start)
    roll = None if m.chance(0.05 if rule == "icma" else 0.7) else m.near(start)
    if roll and paper.exists(roll) and paper.exists(start) and abs(roll[0] - start[0]) > 120:
        roll = m.near(start) if m.chance(0.5) else start
    p = None if m.chance(0.05 if rule == "icma" else 0.7) else ((m.pick(1, 3, 6, 6, 12, 12), "M") if m.chance(0.8) else m.pick((1, "Y"), (1, "Y"), m.period()))
    return fraction_question(m, rule, start, end, roll, p)


def q_round2digits(m):
    x, digits = m.float(), m.pick(0, 1, 2, 2, 3, 4, 5, -1, 2**31 - 1, LEAST)
    return Question("round2digits", 36, F(x) + W(digits), line("round2", bits(x), str(digits)) if abs(digits) < 300 else None, lambda: bits(paper.round2digits(x, digits)))


def pair(m):
    a = m.flow()
    b = (m.pick(a[0], a[0], m.near(a[0])), m.pick(a[1], a[1], m.currency()), m.pick(a[2], m.float(), a[2] + m.pick(0.01, -0.5, 1e-9)))
    return a, b


def q_aggregatable(m):
    a, b = pair(m)
    return Question("aggregatable", 37, X(a) + X(b), None, lambda: str(int(paper.aggregatable(a, b))))


def q_fuzzy(m):
    a, b = pair(m)
    if m.chance(0.1):
        a = (a[0], a[1], math.nan)
    tolerance = m.pick(0.0, -0.0, 0.01, 1e-9, 1.0, abs(a[2] - b[2]), m.float())
    held = paper.is_currency(a[1]) and paper.is_currency(b[1])
    one, two = flow_words([a]), flow_words([b])
    return Question("fuzzy_cash_flows_cmp_eq", 38, X(a) + X(b) + F(tolerance), line("fuzzy", one, two, bits(tolerance)) if held else None, lambda: str(int(paper.fuzzy(a, b, tolerance))), (a, b))


def q_write_date(m):
    t = m.date()
    places = max(0, room(m, 10))
    return Question("write_date", 39, D(t) + W(places), line("showdate", finql_date(t)) if places >= 10 else None, written(lambda: paper.show_date(t), places), t, KEPT)


def text_of(show):
    try:
        return len(show())
    except Refused:
        return 20


def q_write_amount(m):
    x, c = m.float(), m.currency()
    show = lambda: paper.show_amount(x, c)
    size = text_of(show)
    places = min(500, max(0, room(m, size)))
    text = flow_words([((2021, 1, 1), c, x)])
    return Question("write_amount", 40, F(x) + c + W(places), line("show", text) if places >= size else None, written(show, places), x, KEPT)


def show_flow(t, c, x):
    """The order is 15, 17, 1."""
    amount = paper.show_amount(x, c)
    return paper.show_date(t) + b" " + amount


def q_cash_flow_length(m):
    t, c, x = m.date(), m.currency(), m.float()
    return Question("cash_flow_length", 43, X((t, c, x)), None, lambda: str(len(show_flow(t, c, x))))


def q_write_cash_flow(m):
    t, c, x = m.date(), m.currency(), m.float()
    show = lambda: show_flow(t, c, x)
    size = text_of(show)
    places = min(500, max(0, room(m, size)))
    return Question("write_cash_flow", 41, X((t, c, x)) + W(places), line("show", flow_words([(t, c, x)])) if places >= size else None, written(show, places), x, KEPT)


def q_write_decimal(m):
    x = m.float()
    size = text_of(lambda: paper.show_decimal(x))
    places = min(500, max(0, room(m, size)))
    return Question("write_decimal", 42, F(x) + W(places), line("showfix", bits(x)) if places >= size else None, written(lambda: paper.show_decimal(x), places), x, KEPT)


def q_discount_factor(m):
    rate, rule, today = m.simple_rate(), m.pick(*RULES[:5], m.r.choice(RULES)), m.date()
    t = m.near(today)
    text = flow_words([(t, b"EUR", 1.0)])
    ask = lambda wrap=False: bits(paper.discount_factor(rate, rule, today, t, wrap))
    return Question("discount_factor", 44, F(rate) + bytes((RULES.index(rule),)) + b"EUR" + D(today) + D(t), line("simple1", bits(rate), rule, "EUR", finql_date(today), text), ask, (ask, today, None, None))


def q_discount_cash_flow(m):
    rate, rule, today, c = m.simple_rate(), m.pick(*RULES[:5], m.r.choice(RULES)), m.date(), m.currency()
    flow = (m.near(today), c if m.chance(0.9) else m.currency(), m.plain())
    ask = lambda wrap=False: bits(paper.discount_cash_flow(rate, rule, c, today, flow, wrap))
    text = line("simple1", bits(rate), rule, finql_currency(c), finql_date(today), flow_words([flow]))
    return Question("discount_cash_flow", 45, F(rate) + bytes((RULES.index(rule),)) + c + D(today) + X(flow), text, ask, (ask, today, None, None))


def stream(name, verb):
    def make(m):
        rate, rule, today = m.simple_rate(), m.pick(*RULES[:5], m.r.choice(RULES)), m.date()
        c = b"EUR" if m.chance(0.97) else m.currency()
        flows = [(m.near(today), c if m.chance(0.97) else m.currency(), m.plain() if m.chance(0.1) else m.r.uniform(-1e4, 1e4)) for _ in range(m.r.randint(0, 8))]
        ask = lambda wrap=False: bits(paper.discount_stream(rate, rule, c, today, flows, wrap))
        text = line("simple", bits(rate), rule, finql_currency(c), finql_date(today), flow_words(flows))
        return Question(name, verb, F(rate) + bytes((RULES.index(rule),)) + c + D(today) + L(flows), text, ask, (ask, today, None, None))

    return make


def after(name, verb, written_flow):
    def make(m):
        t, flows = m.date(), m.flows()
        if flows and m.chance(0.7):
            t = flows[m.r.randint(0, len(flows) - 1)][0]
        places = m.pick(len(flows), len(flows), 100, m.r.randint(0, 12))

        def answer():
            later = paper.flows_after(t, flows, places)
            return " ".join([str(len(later))] + [written_flow(f) for f in later])

        text = line("after", finql_date(t), flow_words(flows))
        held = all(paper.is_currency(f[1]) for f in flows)
        return Question(name, verb, D(t) + W(places) + L(flows), text if held else None, answer, flows, KEPT)

    return make


def q_check_note(m):
    n = m.note()
    return Question("check_note", 48, N(n), None, lambda: paper.check_note(n) or "")


def q_first_coupon_end(m):
    n = m.note()
    return Question("first_coupon_end", 49, N(n), None, lambda: day_text(paper.first_coupon_end(n)))


def count_of(n, table):
    try:
        return len(paper.rollout(n, 1.0, table, 10**9))
    except Refused:
        return 3


def many_flows(m, n):
    """As many flows as a rollout keeps, 256, and some more or less; and as the room for records has, 300."""
    month, day = n["coupon"][1], min(n["coupon"][0], 28)
    n["issue"], n["period"] = (m.r.randint(1900, 2100), month, 1), (1, "M")
    n["coupon"] = (day, month % 12 + 1)
    n["maturity"] = paper.add_months((*n["issue"][:2], day), m.pick(254, 255, 256, 257, 298, 299, 300, m.r.randint(250, 320)))


def rolled(name, verb, written_flow, most):
    """`most` places are there; where more are asked for, that many are lent."""

    def make(m):
        n, position, table = m.rollable(), m.position(), m.table()
        if m.chance(0.03) and 1 <= n["coupon"][1] <= 12 and n["coupon"][0] > 0:
            many_flows(m, n)
        places = most if m.chance(0.8) else m.pick(0, 1, count_of(n, table), max(0, count_of(n, table) - 1))
        places = min(places, most)

        def ask(wrap=False):
            flows = paper.rollout(n, position, table, places, wrap)
            return " ".join([str(len(flows))] + [written_flow(f) for f in flows])

        text = line("rollout", finql_note(n), bits(position), finql_table(table))
        return Question(name, verb, N(n) + F(position) + W(places) + T(table), text, ask, (ask, n["issue"], n, table), KEPT)

    return make


def q_accrued_interest(m):
    n = m.rollable()
    today = m.near(n["issue"])
    ask = lambda wrap=False: bits(paper.accrued(n, today, wrap))
    return Question("accrued_interest", 51, N(n) + D(today), line("accrued", finql_note(n), finql_date(today)), ask, (ask, n["issue"], n, None))


def packable(m):
    n = m.rollable()
    n["period"] = (n["period"][0] if 0 <= n["period"][0] <= 4095 else 6, n["period"][1])
    return n


def packed_bytes(m):
    """Good records, damaged, cut and lengthened ones, and noise."""
    if m.chance(0.02):
        return m.r.randbytes(m.r.randint(0, 60))
    table = m.table(0.01)
    s = bytearray(packing.pack(packable(m), table.days))
    for _ in range(m.pick(0, 0, 0, 1, 2)):
        s[m.r.randint(0, min(len(s), 40) - 1)] ^= 1 << m.r.randint(0, 7)
    if m.chance(0.1):
        del s[m.r.randint(0, len(s)) :]
    if m.chance(0.05):
        s += m.r.randbytes(m.r.randint(1, 4))
    return bytes(s)


def q_read_note(m):
    return read_question(packed_bytes(m), m.pick(4096, 4096, 20, 5, 0))


def read_question(s, places):
    def answer():
        n, days = packing.read_note(s, places)
        words = [str(len(days)), str(n["count"]), str(n["digits"]), day_text(n["issue"]), day_text(n["maturity"]), "%d %d" % n["coupon"]]
        words += ["%d %d" % (n["period"][0], UNITS.index(n["period"][1])), str(RULES.index(n["rule"])), str(ADJUST.index(n["adjust"]))]
        return " ".join(words + [str(n["denomination"]), bits(n["rate"]), n["currency"].hex()] + [str(d) for d in days])

    return Question("read_note", 52, W(places) + s, None, answer, None, KEPT)


def q_write_note(m):
    n, table = m.rollable(), m.table(0.01)
    size = 32 + (22 * len(table.days) + 7) // 8
    return write_question(n, table, m.pick(size, size, 12000, size - 1, 0))


def write_question(n, table, places):
    def answer():
        data = packing.write_note(n, table, places)
        return "%d %s" % (len(data), data.hex())

    return Question("write_note", 53, N(n) + W(places) + T(table), None, answer, None, KEPT)


def q_list_note(m):
    s = packed_bytes(m)
    text = packing.listing(s)
    places = m.pick(100000, 100000, len(text), max(0, len(text) - 1), 0)
    asked, about = None, None
    if not text.startswith(b"refused") and places >= len(text):
        n, days = packing.unpack(s)
        table = Table(days)
        asked = line("listing", finql_note(n), bits(1.0), finql_table(table))
        about = (lambda wrap=False: wrapped_listing(n, table, wrap), n["issue"], n, table)
    return Question("list_note", 54, W(places) + s, asked, written(lambda: text, places), about, KEPT)


def wrapped_listing(n, table, wrap):
    flows = paper.rollout(n, 1.0, table, 2000, wrap)
    text = b"".join(paper.show_date(t) + b" " + paper.show_amount(x, c) + b"\n" for t, c, x in flows)
    return "%d %s" % (len(text), text.hex())


def q_read_u32(m):
    s = damaged(m, m.pick(b"", b"+", b"-", b"00") + b"%d" % m.pick(0, 7, 417, 2**31, 2**32 - 1, 2**32, m.r.getrandbits(32)))

    def answer():
        n = paper.decimal_text(s, 0, 2**32 - 1)
        return paper.refuse(4) if n is None else str(n)

    return Question("read_u32", 55, s, None, answer)


def q_read_i32(m):
    s = damaged(m, m.pick(b"", b"+", b"-", b"00") + b"%d" % m.pick(0, 7, 417, 2**31, 2**31 - 1, 2**32, m.r.getrandbits(32)))

    def answer():
        n = paper.decimal_text(s, LEAST, 2**31 - 1)
        return paper.refuse(4) if n is None else str(n)

    return Question("read_i32", 56, s, finql_text("period", s + b"D") if s else None, answer)


def plain_flow(f):
    return "%d:%d:%s" % (paper.serial(f[0]), int.from_bytes(f[1], "big"), bits(f[2]))


def record_flow(f):
    return "%s:%s:%s" % (day_text(f[0]), f[1].hex(), bits(f[2]))


RANDOM = [
    (1, q_is_leap), (1, q_length_of_month), (1, q_length_of_year), (2, q_is_date), (1, q_is_day), (2, q_is_before), (1, q_is_same), (3, q_day_of), (3, q_date_of),
    (2, q_weekday), (2, q_days_between), (1, q_day_after), (5, q_add_months), (4, q_add_years), (5, q_add_days), (1, q_is_table), (1, q_is_business_day),
    (2, business("next_bday", 18, 1, False)), (2, business("prev_bday", 19, -1, False)), (1, business("bdays_later", 20, 1, True)), (1, business("bdays_earlier", 21, -1, True)),
    (4, q_adjust_date), (6, q_read_period), (2, q_write_period), (2, q_frequency), (1, q_inverse), (5, stepped("add_to", 27, "add", False, False)),
    (5, stepped("sub_from", 28, "sub", False, True)), (3, stepped("add_to_with", 29, "add", True, False)), (3, stepped("sub_from_with", 30, "sub", True, True)),
    (6, q_read_coupon_date), (2, q_new_coupon_date), (1, q_write_coupon_date), (1, q_convention_of_code), (12, q_year_fraction), (5, q_round2digits), (1, q_aggregatable),
    (4, q_fuzzy), (2, q_write_date), (2, q_write_amount), (3, q_write_cash_flow), (1, q_cash_flow_length), (4, q_write_decimal), (3, q_discount_factor), (4, q_discount_cash_flow),
    (2, stream("discount_plain_flows", 46)), (2, after("flows_after_plain", 47, plain_flow)), (1, q_check_note), (1, q_first_coupon_end),
    (3, rolled("rollout_flows", 50, lambda f: "%d:%s" % (paper.serial(f[0]), bits(f[2])), 2000)), (5, q_accrued_interest), (1, q_read_note), (1, q_write_note), (1, q_list_note),
    (1, q_read_u32), (2, q_read_i32), (2, stream("discount_cash_flow_stream", 57)), (2, after("get_cash_flows_after", 58, record_flow)),
    (3, rolled("rollout_cash_flows", 59, record_flow, 300)),
]
