/* The register from C: every function is called, most of them for a refusal too, and what is lent is looked at afterwards.
   examples/run-face builds it, runs it and holds it to face.out. */
#include <stdio.h>
#include <string.h>

#include "notes.h"

/* What is lent begins with these, so that a refusal that writes is seen. */
#define UNTOUCHED 4242u
#define UNTOUCHED_AMOUNT 4242.5

static void told(uint32_t refusal, int kept)
{
    printf("refused %u, %s\n", (unsigned)refusal, kept ? "nothing written" : "WRITTEN");
}

static void dates(void)
{
    uint32_t serial = UNTOUCHED, weekday = UNTOUCHED, year = UNTOUCHED, month = UNTOUCHED, day = UNTOUCHED;
    uint32_t april = UNTOUCHED, days = UNTOUCHED, refusal;

    notes_day_of(2021, 1, 15, &serial);
    notes_weekday(serial, &weekday);
    notes_date_of(serial, &year, &month, &day);
    printf("serial day of 2021-01-15: %u, weekday %u, back %04u-%02u-%02u\n",
           (unsigned)serial, (unsigned)weekday, (unsigned)year, (unsigned)month, (unsigned)day);

    notes_day_of(2021, 4, 15, &april);
    notes_days_between(serial, april, &days);
    printf("days from there to 2021-04-15: %u\n", (unsigned)days);
    days = UNTOUCHED;
    refusal = notes_days_between(april, serial, &days);
    printf("days back: ");
    told(refusal, days == UNTOUCHED);

    serial = UNTOUCHED;
    refusal = notes_day_of(2021, 2, 29, &serial);
    printf("serial day of 2021-02-29: ");
    told(refusal, serial == UNTOUCHED);
}

static void step(const char *what, int32_t num, uint32_t unit, uint32_t year, uint32_t month, uint32_t day)
{
    uint32_t y = UNTOUCHED, m = UNTOUCHED, d = UNTOUCHED;
    uint32_t refusal = notes_add_to(num, unit, year, month, day, &y, &m, &d);

    printf("%s: ", what);
    if (refusal == 0)
        printf("%04u-%02u-%02u\n", (unsigned)y, (unsigned)m, (unsigned)d);
    else
        told(refusal, y == UNTOUCHED && m == UNTOUCHED && d == UNTOUCHED);
}

static void steps(void)
{
    uint32_t y = UNTOUCHED, m = UNTOUCHED, d = UNTOUCHED, refusal;

    step("2024-02-29 +12M", 12, NOTES_MONTHS, 2024, 2, 29);
    step("2024-02-29 +1Y", 1, NOTES_YEARS, 2024, 2, 29);
    step("2021-01-31 +1M", 1, NOTES_MONTHS, 2021, 1, 31);
    step("2021-03-15 -15M", -15, NOTES_MONTHS, 2021, 3, 15);
    step("9999-12-01 +1M", 1, NOTES_MONTHS, 9999, 12, 1);
    step("2021-01-15 +1B without a table", 1, NOTES_BUSINESS_DAYS, 2021, 1, 15);
    step("2021-01-15 +1 of unit 5", 1, 5, 2021, 1, 15);

    refusal = notes_sub_from(INT32_MIN, NOTES_DAYS, 2021, 2, 28, &y, &m, &d);
    printf("2021-02-28, the least number of days back: ");
    told(refusal, y == UNTOUCHED && m == UNTOUCHED && d == UNTOUCHED);
    notes_sub_from(1, NOTES_MONTHS, 2021, 2, 28, &y, &m, &d);
    printf("2021-02-28, 1M back: %04u-%02u-%02u\n", (unsigned)y, (unsigned)m, (unsigned)d);
}

static void period(const char *text)
{
    int32_t num = -4242;
    uint32_t unit = UNTOUCHED, per_year = UNTOUCHED;
    uint8_t back[12];
    size_t length = UNTOUCHED;
    uint32_t refusal = notes_read_period((const uint8_t *)text, strlen(text), &num, &unit);

    printf("period %s: ", text);
    if (refusal != 0) {
        told(refusal, num == -4242 && unit == UNTOUCHED);
        return;
    }
    notes_write_period(num, unit, back, sizeof back, &length);
    printf("%d of unit %u, back %.*s, a year: ", (int)num, (unsigned)unit, (int)length, (const char *)back);
    refusal = notes_frequency(num, unit, &per_year);
    if (refusal == 0)
        printf("%u\n", (unsigned)per_year);
    else
        told(refusal, per_year == UNTOUCHED);
}

static void coupon(const char *text)
{
    uint32_t day = UNTOUCHED, month = UNTOUCHED;
    uint8_t back[8];
    size_t length = UNTOUCHED;
    uint32_t refusal = notes_read_coupon_date((const uint8_t *)text, strlen(text), &day, &month);

    printf("coupon date %s: ", text);
    if (refusal != 0) {
        told(refusal, day == UNTOUCHED && month == UNTOUCHED);
        return;
    }
    notes_write_coupon_date(day, month, back, sizeof back, &length);
    printf("day %u of month %u, back %.*s\n", (unsigned)day, (unsigned)month, (int)length, (const char *)back);
}

static void checked_coupon(uint32_t day, uint32_t month)
{
    uint32_t refusal = notes_new_coupon_date(day, month);

    if (refusal == 0)
        printf("coupon date %02u.%02u: passes its check\n", (unsigned)day, (unsigned)month);
    else
        printf("coupon date %02u.%02u: refused %u\n", (unsigned)day, (unsigned)month, (unsigned)refusal);
}

static void texts(void)
{
    period("+6M");
    period("-12D");
    period("6X");
    coupon("15.7");
    coupon("15");
    coupon("29.02");
    checked_coupon(31, 12);
    checked_coupon(12, 31);
}

/* Friday 2021-01-15; the Monday behind it is a holiday, so that Tuesday is next. */
static void business_days(void)
{
    uint32_t friday = 0, monday = 0, open = UNTOUCHED, shut = UNTOUCHED, next = UNTOUCHED, before = UNTOUCHED;
    uint32_t y = UNTOUCHED, m = UNTOUCHED, d = UNTOUCHED;

    notes_day_of(2021, 1, 15, &friday);
    notes_day_of(2021, 1, 18, &monday);
    notes_is_business_day(friday, &monday, 1, &open);
    notes_is_business_day(monday, &monday, 1, &shut);
    notes_bdays_later(friday, 1, &monday, 1, &next);
    notes_bdays_earlier(next, 1, &monday, 1, &before);
    printf("Friday %u is open: %u; Monday %u is open: %u; next %u, before that %u\n",
           (unsigned)friday, (unsigned)open, (unsigned)monday, (unsigned)shut, (unsigned)next, (unsigned)before);
    notes_add_to_with(1, NOTES_BUSINESS_DAYS, 2021, 1, 15, &monday, 1, &y, &m, &d);
    printf("2021-01-15 +1B: %04u-%02u-%02u", (unsigned)y, (unsigned)m, (unsigned)d);
    notes_sub_from_with(1, NOTES_BUSINESS_DAYS, y, m, d, &monday, 1, &y, &m, &d);
    printf(", 1B back: %04u-%02u-%02u\n", (unsigned)y, (unsigned)m, (unsigned)d);
    notes_adjust_date(NOTES_MODIFIED, 2021, 7, 31, &monday, 0, &y, &m, &d);
    printf("2021-07-31 modified, no holidays: %04u-%02u-%02u\n", (unsigned)y, (unsigned)m, (unsigned)d);
}

static void fraction(const char *what, uint32_t rule, struct notes_date start, struct notes_date end)
{
    double x = UNTOUCHED_AMOUNT;
    uint32_t refusal = notes_year_fraction(rule, start.year, start.month, start.day, end.year, end.month, end.day, &x);

    printf("%s: ", what);
    if (refusal == 0)
        printf("%.12f\n", x);
    else
        told(refusal, x == UNTOUCHED_AMOUNT);
}

static void fractions(void)
{
    struct notes_date january = {2021, 1, 15}, march = {2021, 3, 31}, june = {2021, 6, 1};
    double x = UNTOUCHED_AMOUNT;

    fraction("30/360, 2021-01-30 to 31", NOTES_30_360, (struct notes_date){2021, 1, 30}, (struct notes_date){2021, 1, 31});
    fraction("30/360, 2020-11-30 to 2021-02-28", NOTES_30_360, (struct notes_date){2020, 11, 30}, (struct notes_date){2021, 2, 28});
    fraction("30/360, 2021-01-15 to 2021-03-31", NOTES_30_360, january, march);
    fraction("30E/360, 2021-01-15 to 2021-03-31", NOTES_30E_360, january, march);
    fraction("Act/365 leap, 2019-07-01 to 2020-07-01", NOTES_ACT_365_LEAP, (struct notes_date){2019, 7, 1}, (struct notes_date){2020, 7, 1});
    fraction("Act/365, 2021-03-31 to 2021-01-15", NOTES_ACT_365, march, january);
    fraction("ICMA without a roll date", NOTES_ICMA, january, march);
    fraction("rule 6", 6, january, march);

    notes_year_fraction_rolled(NOTES_ICMA, 2021, 3, 1, june.year, june.month, june.day, 2022, 1, 1, 12, NOTES_MONTHS, &x);
    printf("ICMA 12M, 2021-03-01 to 2021-06-01, roll 2022-01-01: %.12f\n", x);
}

static void amounts(void)
{
    double up = 0, down = 0, factor = 0;
    uint8_t text[40];
    size_t length = 0;
    uint32_t close = UNTOUCHED, apart = UNTOUCHED;

    notes_round2digits(2.5, 0, &up);
    notes_round2digits(-2.5, 0, &down);
    printf("2.5 and -2.5 to 0 digits: %g and %g\n", up, down);
    notes_write_decimal(20.0, text, sizeof text, &length);
    printf("20 with four decimals: [%.*s]\n", (int)length, (const char *)text);
    notes_write_cash_flow(2021, 7, 15, 'E', 'U', 'R', 20.0, text, sizeof text, &length);
    printf("as a flow: [%.*s]\n", (int)length, (const char *)text);
    notes_fuzzy_cash_flows_cmp_eq(2021, 7, 15, 'E', 'U', 'R', 20.0, 2021, 7, 15, 'E', 'U', 'R', 20.25, 0.25, &close);
    notes_fuzzy_cash_flows_cmp_eq(2021, 7, 15, 'E', 'U', 'R', 20.0, 2021, 7, 15, 'E', 'U', 'S', 20.0, 0.25, &apart);
    printf("20 and 20.25 within 0.25: %u; EUR and EUS: %u\n", (unsigned)close, (unsigned)apart);
    notes_discount_factor(0.05, NOTES_ACT_365, 'E', 'U', 'R', 2021, 1, 15, 2022, 1, 15, &factor);
    printf("5 percent for 365 days, Act/365: %.12f\n", factor);
}

/* The 4 percent note of document 01, number 1, as in four-percent.note: 1000 EUR, issued 2021-01-15, coupon 15.07, 6M, 30E/360, modified, maturing 2022-01-15. */
static const struct notes_note four_percent = {
    1, 1, {2021, 1, 15}, {2022, 1, 15}, 15, 7, 6, NOTES_MONTHS, NOTES_30E_360, NOTES_MODIFIED, 1000, 4.0, {'E', 'U', 'R'},
};

static void rollout(void)
{
    uint32_t days[4] = {UNTOUCHED, UNTOUCHED, UNTOUCHED, UNTOUCHED}, none = 0;
    double paid[4] = {UNTOUCHED_AMOUNT, UNTOUCHED_AMOUNT, UNTOUCHED_AMOUNT, UNTOUCHED_AMOUNT};
    size_t count = UNTOUCHED, i;
    uint32_t refusal = notes_of_rollout(&four_percent, 1.0, &none, 0, days, 2, paid, 2, &count);

    printf("rollout into 2 places: ");
    told(refusal, days[0] == UNTOUCHED && days[1] == UNTOUCHED && paid[0] == UNTOUCHED_AMOUNT && paid[1] == UNTOUCHED_AMOUNT && count == UNTOUCHED);

    notes_of_rollout(&four_percent, 1.0, &none, 0, days, 4, paid, 4, &count);
    printf("rollout into 4 places: %u flows\n", (unsigned)count);
    for (i = 0; i < count; i++) {
        uint32_t y = 0, m = 0, d = 0;
        notes_date_of(days[i], &y, &m, &d);
        printf("  %04u-%02u-%02u %.4f\n", (unsigned)y, (unsigned)m, (unsigned)d, paid[i]);
    }
    printf("the fourth place: %s\n", days[3] == UNTOUCHED && paid[3] == UNTOUCHED_AMOUNT ? "as it was" : "WRITTEN");
}

static void stream(void)
{
    uint32_t days[3], after[3] = {UNTOUCHED, UNTOUCHED, UNTOUCHED}, none = 0;
    uint32_t eur = 'E' * 65536 + 'U' * 256 + 'R', currencies[3] = {eur, eur, eur}, after_currencies[3] = {UNTOUCHED, UNTOUCHED, UNTOUCHED};
    double paid[3], after_paid[3] = {UNTOUCHED_AMOUNT, UNTOUCHED_AMOUNT, UNTOUCHED_AMOUNT}, worth = UNTOUCHED_AMOUNT;
    size_t count = 0, later = 0;
    uint32_t refusal;

    notes_of_rollout(&four_percent, 1.0, &none, 0, days, 3, paid, 3, &count);
    notes_flows_after(days[0], days, 3, currencies, 3, paid, 3, after, 3, after_currencies, 3, after_paid, 3, &later);
    printf("flows after the first coupon: %u, the first of %.4f\n", (unsigned)later, after_paid[0]);
    notes_discount_flows(0.0, NOTES_ACT_365, 'E', 'U', 'R', days, 3, currencies, 3, paid, 3, 2021, 1, 15, &worth);
    printf("all flows at 0 percent: %.4f\n", worth);
    worth = UNTOUCHED_AMOUNT;
    refusal = notes_discount_flows(0.0, NOTES_ACT_365, 'C', 'H', 'F', days, 3, currencies, 3, paid, 3, 2021, 1, 15, &worth);
    printf("the same in CHF: ");
    told(refusal, worth == UNTOUCHED_AMOUNT);
}

static void accrued(void)
{
    double amount = UNTOUCHED_AMOUNT;
    uint32_t refusal;

    notes_of_accrued(&four_percent, (struct notes_date){2021, 4, 15}, &amount);
    printf("accrued on 2021-04-15: %.10f\n", amount);
    amount = UNTOUCHED_AMOUNT;
    refusal = notes_of_accrued(&four_percent, (struct notes_date){2021, 4, 31}, &amount);
    printf("accrued on 2021-04-31: ");
    told(refusal, amount == UNTOUCHED_AMOUNT);
}

static void listing(void)
{
    uint8_t record[32], text[200];
    uint32_t none = 0;
    size_t size = UNTOUCHED, length = UNTOUCHED, i;
    uint32_t refusal;

    notes_of_write(&four_percent, &none, 0, record, sizeof record, &size);
    printf("packed into %u bytes:", (unsigned)size);
    for (i = 0; i < size && i < sizeof record; i++)
        printf(" %02x", record[i]);
    printf("\n");
    notes_list_note(record, size, text, sizeof text, &length);
    printf("listed:\n%.*s", (int)length, (const char *)text);
    notes_list_note(record, size - 1, text, sizeof text, &length);
    printf("listed without its last byte:\n%.*s", (int)length, (const char *)text);

    memset(text, '.', sizeof text);
    length = UNTOUCHED;
    refusal = notes_list_note(record, size, text, 10, &length);
    for (i = 0; i < sizeof text && text[i] == '.'; i++)
        ;
    printf("listed into 10 bytes: ");
    told(refusal, i == sizeof text && length == UNTOUCHED);
}

static void checked(const char *what, struct notes_note note)
{
    uint32_t refusal = notes_of_check(&note);

    if (refusal == 0)
        printf("%s: passes its checks\n", what);
    else
        printf("%s: refused %u\n", what, (unsigned)refusal);
}

static void checks(void)
{
    struct notes_note note;

    checked("the note itself", four_percent);
    note = four_percent, note.period_unit = 5, note.rule = 6;
    checked("unit 5", note);
    note = four_percent, note.adjustment = 4, note.rate = 101.0;
    checked("adjustment 4", note);
    note = four_percent, note.rate = 100.5, note.currency[2] = 'r';
    checked("rate 100.5", note);
    note = four_percent, note.currency[2] = 'r';
    checked("currency EUr", note);
    note = four_percent, note.maturity.day = 32;
    checked("maturity 2022-01-32", note);
    note = four_percent, note.coupon_month = 13;
    checked("coupon 15.13", note);
    note = four_percent, note.coupon_day = 29, note.coupon_month = 2;
    checked("coupon 29.02", note);
    note = four_percent, note.period_num = 0;
    checked("period 0M", note);
    note = four_percent, note.period_unit = NOTES_BUSINESS_DAYS;
    checked("period 6B", note);
}

int main(void)
{
    dates();
    steps();
    texts();
    business_days();
    fractions();
    amounts();
    rollout();
    stream();
    accrued();
    listing();
    checks();
    return 0;
}
