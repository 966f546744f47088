"""What finql said, in our words; and why it may differ from document 01. A difference is explained by a rule or not at all.

Each rule is known by what it looks at, never by a case: docs/DIFFERENCES.md has the smallest input of each.
"""
import re

import paper

LEAST = -(2**31)
NUMBERS = {
    "InvalidDate": 1, "OutOfBound": 1, "InvalidUnit": 3, "InvalidPeriod": 4, "NoFrequency": 5, "IcmaNoFrequency": 5, "DayOutOfRange": 7, "DayToBig": 8,
    "Impossible360": 9, "IcmaMissingRollDate": 10, "IcmaMissingTimePeriod": 11, "DiscountError": 17, "InvalidLength": 17, "InvalidCharacter": 17,
}
COUPON = ("read_coupon_date", "new_coupon_date")
NOTES = ("rollout_flows", "rollout_cash_flows", "accrued_interest", "list_note")
SIMPLE = ("discount_factor", "discount_cash_flow", "discount_plain_flows", "discount_cash_flow_stream")


def refusal(name, text):
    word = re.findall(r"\w+", text)[-1]
    if word == "ParseError":
        return 6 if name in COUPON or name in NOTES else 2
    return NUMBERS.get(word)


def flow_list(name, text):
    words = text.split(" ")[2:]
    out = [text.split(" ")[1]]
    for w in words:
        t, c, x = w.rsplit(":", 2)
        t = tuple(map(int, t.rsplit("-", 2)))
        if t[0] < 1:
            return None
        day, currency = paper.serial(t), c.encode()
        if name == "rollout_flows":
            out.append("%d:%s" % (day, x))
        elif name == "flows_after_plain":
            out.append("%d:%d:%s" % (day, int.from_bytes(currency, "big"), x))
        else:
            out.append("%d-%d-%d:%s:%s" % (*t, currency.hex(), x))
    return " ".join(out)


def date_word(text):
    year, month, day = text.rsplit("-", 2)
    return "%d-%d-%d" % (int(year), int(month), int(day))


DATES = ("date_of", "date_or_none", "add_months", "add_years", "add_days", "adjust_date", "add_to", "sub_from", "add_to_with", "sub_from_with")
DAYS = ("next_bday", "prev_bday", "bdays_later", "bdays_earlier")
TEXTS = ("write_date", "write_cash_flow", "write_decimal", "write_amount", "write_period", "list_note")
NUMBERS_OF_PERIODS = ("signed_length", "write_u32", "write_i32")
LENGTHS = ("signed_length", "decimal::decimal_length", "amount_length")
AMOUNTS = {"interest": 2, "coupon_amount": 2, "nominal": 3}
LISTS = ("rollout_flows", "rollout_cash_flows", "flows_after_plain", "get_cash_flows_after")


def in_our_words(name, text):
    """finql's answer as `replay` would write it; `panic` and `hang` stay; None: it was not asked."""
    if text in ("panic", "hang", "died"):
        return "panic" if text == "died" else text
    if text.startswith("bad "):
        return None
    if text.startswith("err "):
        n = refusal(name, text[4:])
        return "error " + text[4:] if n is None else "refused %d" % n
    if name in DATES:
        return "ok " + date_word(text)
    if name in DAYS:
        year, month, day = map(int, text.rsplit("-", 2))
        return "ok %d" % paper.serial((year, month, day)) if year > 0 else "ok before year 1"
    if name in NUMBERS_OF_PERIODS:
        text = text[3:-1]
    if name in LENGTHS:
        return "ok %d" % (len(text) - (11 if name == "amount_length" else 0))
    if name in AMOUNTS:
        return "ok " + text.split(" ")[AMOUNTS[name]].rsplit(":", 1)[1]
    if name in TEXTS or name in NUMBERS_OF_PERIODS:
        if name == "write_amount":
            text = text[11:]
        if name == "write_period":
            text = text[3:]
        if name == "list_note":
            text = text.replace("|", "\n") + "\n"
        return "ok %d %s kept" % (len(text), text.encode().hex())
    if name in LISTS:
        flows = flow_list(name, text)
        return "ok before year 1" if flows is None else "ok " + flows + " kept"
    if name == "read_period":
        return "ok %d %d" % (int(text[3:-1]), paper.UNITS.index(text[-1]))
    if name == "read_i32":
        return "ok %d" % int(text[3:-1])
    if name in ("fuzzy_cash_flows_cmp_eq", "is_same_currency"):
        return "ok 1" if text == "yes" else "ok 0"
    return text if text.startswith("ok ") else "ok " + text


def into_year_0(q, finql):
    """A step or a walk that leaves year 1 downwards, which finql follows to year -9999."""
    if finql == "ok before year 1" or re.match(r"ok (-\d+|0)-\d+-\d+$", finql):
        return True
    if q.name == "year_fraction":
        start, roll = q.about[1], q.about[2]
        return min(t[0] for t in (start, roll) if t) <= 2
    return q.name in NOTES and q.about[1][0] <= 2


def not_held(line):
    """A currency of the question that finql cannot hold: it refuses it before it is asked anything."""
    words = line.split(" ")
    held = [words[3]] + [f.split(":")[1] for f in words[5].split(",") if ":" in f]
    return not all(re.fullmatch("[A-Za-z]{3}", c) for c in held)


def explain(q, finql):
    """The rule by which finql's answer may differ from document 01's, or None."""
    name, expected = q.name, q.expected.replace(" kept", "")
    given = expected.startswith("ok")
    if name in ("discount_plain_flows", "discount_cash_flow_stream") and finql == "refused 17" and not_held(q.line):
        return "currency: finql cannot hold it"
    number = 0 if given else int(expected.split(" ")[1])
    if given:
        if name in NOTES + SIMPLE + ("year_fraction",) and finql.startswith("ok"):
            wrapped = "ok " + q.about[0](True) + (" kept" if q.expected.endswith(" kept") else "")
            return "months subtracted as u32" if finql == wrapped else None
        return None
    if number == 1 and re.search(r"[ ,]0-\d", q.line):
        return "a date of year 0"
    if number == 16:
        return "room: finql's vector grows"
    if number == 13:
        return "table: finql takes any days"
    if number == 19 and name in SIMPLE + ("year_fraction",):
        return "start after end"
    if number == 15:
        return "limits of numbers"
    if number == 17 and (name in NOTES or name in SIMPLE or name in TEXTS or name in LENGTHS):
        return "currency: lower case is taken" if finql.startswith("ok") else "currency: another refusal comes first"
    if number == 4 and name in ("sub_from", "sub_from_with") and q.about[0][0] == LEAST:
        return "least number negated"
    if number == 12 and name in ("add_to", "sub_from") and finql == "panic":
        return "business days without a table"
    if name in NOTES and number in (12, 14):
        return "coupon period of business days" if number == 12 else "coupon period below 1"
    if name in NOTES and number == 18:
        return "number of the note"
    if name == "year_fraction" and number == 14:
        return "ICMA period below 1"
    if name in SIMPLE and number in (9, 10) and finql == "panic":
        return "Simple: a refused fraction panics"
    if name in COUPON:
        if number == 8 and finql.startswith("ok") and int(re.match(rb"\D*(\d+)", q.about).group(1)) > 255:
            return "coupon day as u8"
        if number == 6 and finql == "panic" and b"." not in q.about.strip():
            return "coupon text without a dot"
        if number == 6 and any(c > 127 for c in q.about):
            return "coupon text: blanks beyond ASCII"
    if name in NOTES and number == 8 and q.about[2]["coupon"][0] > 255:
        return "coupon day as u8"
    if name in NOTES and number == 1 and finql in ("refused 7", "refused 8", "error ParseError"):
        return "order: the coupon date is judged first"
    if name in NOTES and number == 7 and finql.startswith("refused"):
        return None
    if number == 1:
        if name in ("add_to_with", "sub_from_with", "add_to") and q.about[0] == (LEAST, "B"):
            return "least number of business days"
        if finql == "panic":
            unit = q.about[2]["period"][1] if name in NOTES else q.about[0][1] if name in ("add_to", "sub_from", "add_to_with", "sub_from_with", "add_days") else ""
            if unit in ("D", "W"):
                return "days or weeks past the range"
        if into_year_0(q, finql):
            return "before year 1"
    return None
