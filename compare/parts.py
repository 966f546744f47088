"""Questions about the parts that the other entry points are made of: lengths, writers, tests, amounts. What document 01 answers is
Python's own text of a number, its whole numbers and its floats. `asked.py` has all questions.
"""
import math

import paper
import questions
from questions import KEPT, LEAST, F, N, Question, W, bits, day_text, flow_words, line, room, written

NOTE = {
    "count": 5, "digits": 417, "issue": (2021, 1, 15), "maturity": (2022, 1, 15), "coupon": (15, 7), "period": (6, "M"), "rule": "act365", "adjust": "none",
    "denomination": 1000, "rate": 4.0, "currency": b"EUR",
}


def crowded(m, bits_wide):
    """Numbers about the powers of ten and of two, and the ends of the width."""
    power = m.pick(10 ** m.r.randint(0, len(str(2**bits_wide)) - 1), 2 ** m.r.randint(0, bits_wide))
    n = m.pick(0, 1, 9, 10, 2**bits_wide - 1, power, power - 1, power + 1, m.r.randint(0, power), m.r.getrandbits(bits_wide))
    return n % 2**bits_wide


def crowded_signed(m):
    n = crowded(m, 31)
    return m.pick(n, -n, -n, LEAST, 0, -1, 1)


def yes(b):
    return str(int(b))


def Q(n):
    return W(n >> 32) + W(n)


def q_read_decimal(m):
    most = m.pick(2**32 - 1, 2**31, 2**31 - 1, 9999, 10, 9, 0, crowded(m, 32))
    refusal = m.pick(4, 6, 0, 2**32 - 1)
    n = m.pick(most, most + 1, max(0, most - 1), most * 10, crowded(m, 32), 2**32, 10**25)
    s = m.pick(b"", b"", b"+", b"-", b"0", b"000000000000") + b"%d" % n
    if m.chance(0.2):
        s = m.pick(b"", b":", b"/", b"1:", b"1/", b"0x1", b"1_0", "\u0661".encode(), s + b" ", b" " + s)
    elif m.chance(0.3):
        s = questions.damaged(m, s)

    def answer():
        good = s.isdigit() and int(s) <= most
        return str(int(s)) if good else paper.refuse(refusal)

    return Question("read_decimal", 60, W(most) + W(refusal) + s, None, answer)


def q_decimal_length_of_number(m):
    n = crowded(m, 64)
    return Question("number_text::decimal_length", 61, Q(n), None, lambda: str(len(str(n))))


def q_padded_length(m):
    n, width = crowded(m, 64), m.pick(0, 1, 2, 4, 19, 20, 21, m.r.randint(0, 40), 2**32 - 1)
    return Question("padded_length", 62, Q(n) + W(width), None, lambda: str(max(width, len(str(n)))))


def q_magnitude(m):
    n = crowded_signed(m)
    return Question("magnitude", 63, W(n), None, lambda: str(abs(n)))


# finql writes a period's number as it writes any i32.


def q_signed_length(m):
    n = crowded_signed(m)
    return Question("signed_length", 64, W(n), "period %dD" % n, lambda: str(len(str(n))))


def q_write_u32(m):
    n = crowded(m, 32)
    text = b"%d" % n
    places = max(0, room(m, len(text)))
    asked = n < 2**31 and places >= len(text)
    return Question("write_u32", 65, W(n) + W(places), "period %dD" % n if asked else None, written(lambda: text, places), None, KEPT)


def q_write_i32(m):
    n = crowded_signed(m)
    text = b"%d" % n
    places = max(0, room(m, len(text)))
    return Question("write_i32", 66, W(n) + W(places), "period %dD" % n if places >= len(text) else None, written(lambda: text, places), None, KEPT)


def q_write_padded(m):
    n, width = crowded(m, 32), m.pick(0, 1, 2, 2, 4, 10, 11, m.r.randint(0, 40), 512, 513, 2**32 - 1)
    text = str(n).zfill(width if width < 1000 else 1000).encode()
    places = max(0, room(m, len(text)))
    return Question("write_padded", 67, W(n) + W(width) + W(places), None, written(lambda: text, min(places, 512)), None, KEPT)


def q_put_scaled(m):
    n, twos = crowded(m, 64), m.pick(0, 1, 3, 47, 48, 49, 95, 96, 97, 1074, m.r.randint(0, 1100))
    places = m.pick(0, 1, 2, 19, 20, 347, 512, m.r.randint(0, 360))
    text = str(n << twos).zfill(places)[-places:] if places else ""
    return Question("put_scaled", 68, Q(n) + W(twos) + W(places), None, written(text.encode, 512), None, KEPT)


def q_leading_zeros(m):
    s = b"0" * m.pick(0, 1, 2, 20, m.r.randint(0, 60)) + m.pick(b"", b"1", b"10", b"/0", b"\0", b" 0", b"17", b"O0")
    s = questions.damaged(m, s) if m.chance(0.3) else s
    return Question("leading_zeros", 69, s, None, lambda: str(len(s) - len(s.lstrip(b"0"))))


def q_decimal_length_of_float(m):
    x = m.float()
    return Question("decimal::decimal_length", 70, F(x), line("showfix", bits(x)), lambda: str(len(paper.show_decimal(x))), x)


def q_code_of_convention(m):
    k = m.r.randint(0, 5)
    return Question("code_of_convention", 71, bytes((k,)), None, lambda: str(k))


def q_is_currency(m):
    c = m.currency() if m.chance(0.3) else bytes(m.pick(*b"AZMaz@[`{09 \0\xff", m.r.randint(65, 90)) if m.chance(0.3) else m.r.randint(65, 90) for _ in range(3))
    return Question("is_currency", 72, c, None, lambda: yes(c.isalpha() and c.isupper()))


def q_is_same_currency(m):
    """finql compares two flows: with one date and one amount only their currencies are left."""
    a = m.currency()
    b = bytearray(a)
    for _ in range(m.pick(0, 0, 1, 1, 2)):
        b[m.r.randint(0, 2)] = m.pick(*b"AEURX", m.r.randint(65, 90))
    b = bytes(b)
    held = paper.is_currency(a) and paper.is_currency(b)
    asked = line("fuzzy", flow_words([((2021, 1, 1), a, 1.0)]), flow_words([((2021, 1, 1), b, 1.0)]), bits(0.0)) if held else None
    return Question("is_same_currency", 73, a + b, asked, lambda: yes(a == b))


def edged(m, *edges):
    """A float, more often at or beside an edge."""
    x = m.pick(*edges)
    return m.pick(x, -x, math.nextafter(x, math.inf), math.nextafter(x, -math.inf), -math.nextafter(x, math.inf), m.float(), m.float(), math.nan, math.inf, -math.inf)


def q_is_up_to_billion(m):
    x = edged(m, 1e9, 1e9, 0.0)
    return Question("is_up_to_billion", 74, F(x), None, lambda: yes(-1e9 <= x <= 1e9))


def q_date_or_none(m):
    n = m.serial()
    return Question("date_or_none", 75, W(n), "showdate #%d" % n if paper.is_day(n) else None, lambda: day_text(paper.dated(n) if paper.is_day(n) else (0, 0, 0)))


def q_is_note_number(m):
    count = m.pick(*range(12), 2**32 - 1)
    digits = 10 ** m.pick(min(count, 18), m.r.randint(0, 12)) + m.pick(-1, 0, 1) if m.chance(0.8) else crowded(m, 64)
    return Question("is_note_number", 76, W(count) + Q(digits), None, lambda: yes(1 <= count <= 10 and len(str(digits)) <= count))


def q_is_coupon_rate(m):
    x = edged(m, 100.0, 100.0, 0.0)
    return Question("is_coupon_rate", 77, F(x), None, lambda: yes(0.0 <= x <= 100.0 and not bits(x)[0] in "89abcdef"))


def q_is_position(m):
    x = edged(m, 1e9, 1e9, 0.0)
    return Question("is_position", 78, F(x), None, lambda: yes(math.isfinite(x) and abs(x) <= 1e9))


def q_check_note_with(m):
    n, position, table = m.note(), m.chance(0.8), m.chance(0.8)
    return Question("check_note_with", 79, N(n) + bytes((position, table)), None, lambda: paper.check_note(n, position, table) or "")


# Of amounts finql is asked by a rollout of one coupon: Act/365 from the issue to 15 July, and the nominal behind it.


def one_coupon(m):
    """A note of one coupon and its fraction, and the numbers that an amount is made of, whatever they are."""
    issue = m.date(0)
    issue = (min(issue[0], 9998), *issue[1:])
    issue = (*issue[:2], min(issue[2], paper.month_length(*issue[:2])))
    n = dict(NOTE, issue=issue, maturity=issue, denomination=m.pick(0, 1, 250, 1000, 2**32 - 1, m.r.getrandbits(32)), rate=m.rate())
    fraction = float(paper.serial(paper.first_coupon_end(n)) - paper.serial(issue)) / 365.0
    return n, m.position(), fraction if m.chance(0.7) else m.float(), fraction


def asked_amount(n, position, answer):
    """A NaN has no bits of its own, so none is asked of finql."""
    if answer != answer or not math.isfinite(n["rate"]):
        return None
    return line("rollout", questions.finql_note(n), bits(position), "none")


def told_bits(x):
    return bits(math.nan if x != x else x)


def on_nominal(nominal, rate, fraction):
    return nominal * rate / 100.0 * fraction


def q_interest(m):
    n, nominal, fraction, reached = one_coupon(m)
    n["denomination"] = 1
    x = on_nominal(nominal, n["rate"], fraction)
    asked = asked_amount(n, nominal, x) if fraction == reached else None
    return Question("interest", 80, bytes(66) + F(nominal) + F(n["rate"]) + F(fraction), asked, lambda: told_bits(x))


def q_nominal(m):
    n, position, _, _ = one_coupon(m)
    x = position * float(n["denomination"])
    return Question("nominal", 81, N(n) + F(position), asked_amount(n, position, x), lambda: told_bits(x))


def q_coupon_amount(m):
    n, position, fraction, reached = one_coupon(m)
    x = on_nominal(position * float(n["denomination"]), n["rate"], fraction)
    asked = asked_amount(n, position, x) if fraction == reached else None
    return Question("coupon_amount", 82, N(n) + F(position) + F(fraction), asked, lambda: told_bits(x))


def q_amount_length(m):
    x, c = m.float(), m.currency()
    return Question("amount_length", 83, F(x) + c, line("show", flow_words([((2021, 1, 1), c, x)])), lambda: str(len(paper.show_amount(x, c))), x)


RANDOM = [
    (1, q_read_decimal), (1, q_decimal_length_of_number), (1, q_padded_length), (1, q_magnitude), (1, q_signed_length), (1, q_write_u32), (1, q_write_i32),
    (1, q_write_padded), (1, q_put_scaled), (1, q_leading_zeros), (2, q_decimal_length_of_float), (1, q_code_of_convention), (1, q_is_currency), (1, q_is_same_currency),
    (1, q_is_up_to_billion), (1, q_date_or_none), (1, q_is_note_number), (1, q_is_coupon_rate), (1, q_is_position), (2, q_check_note_with), (2, q_interest), (1, q_nominal),
    (2, q_coupon_amount), (2, q_amount_length),
]
