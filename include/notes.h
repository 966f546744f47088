/*
 * The C face of Trelomavilk, a register of growers' notes. Link libc_face.a (rt lib, in crates/c_face); it is for x86-64.
 * The register comes under finql's licence, MIT OR Apache-2.0 at your choice; see NOTICE.
 *
 * Every function returns 0 for an answer, else the number of a refusal:
 *
 *    1  no such date, or a result outside the calendar (years 1 to 9999)
 *    2, 3, 4  a period's text: too short, its unit, its number
 *    5  a period that has no frequency: only 1, 3, 6 and 12 months and one year have one
 *    6, 7, 8  a coupon date: its text, day or month out of range, a day past the month's end
 *    9  30/360 or 30E/360 gives zero on two different dates
 *   10, 11  ICMA without a roll date, without a period
 *   12  business days without a holiday table; always so as a coupon period
 *   13  a holiday table unsorted, repeated, out of range or longer than 4,096 days
 *   14  a coupon period or an ICMA period below 1
 *   15  a number that is not finite or outside its limits
 *   16  fewer places than flows, or fewer bytes than text
 *   17  a currency malformed, or another one
 *   18  a packed record malformed, or an unknown code
 *   19  the start after the end
 *
 * What is lent is written only where 0 is returned. On a refusal all of it keeps its contents, and past what is written it keeps them too.
 * Where several refusals apply, the first in the order that a function names is returned; codes come before all else.
 *
 * A date is three numbers: year, month, day. A serial day is one: 1 is 0001-01-01, and 3652059 is 9999-12-31.
 * A period is a number and the code of its unit (NOTES_DAYS to NOTES_YEARS); a rule and an adjustment are codes too.
 * A currency is three bytes, each a capital; in a list it is one number, first * 65536 + second * 256 + third.
 * A slice is a pointer and how many elements stand there. No pointer may be null, not even where there are none,
 * and what is written may not overlap with anything else that is passed.
 * A holiday table is serial days, strictly ascending, at most 4,096.
 */
#ifndef NOTES_H
#define NOTES_H

#include <stddef.h>
#include <stdint.h>

#ifdef __cplusplus
extern "C" {
#endif

/* Units of a period. */
enum { NOTES_DAYS = 0, NOTES_BUSINESS_DAYS = 1, NOTES_WEEKS = 2, NOTES_MONTHS = 3, NOTES_YEARS = 4 };

/* Day-count rules. */
enum { NOTES_ACT_365 = 0, NOTES_ACT_360 = 1, NOTES_ACT_365_LEAP = 2, NOTES_30_360 = 3, NOTES_30E_360 = 4, NOTES_ICMA = 5 };

/* Adjustments of a date that is no business day. */
enum { NOTES_NONE = 0, NOTES_FOLLOWING = 1, NOTES_PRECEDING = 2, NOTES_MODIFIED = 3 };

/* ---- dates ---- */

/* The serial day of a date. Refused: 1. */
uint32_t notes_day_of(uint32_t year, uint32_t month, uint32_t day, uint32_t *serial);

/* The date of a serial day. Refused: 1. */
uint32_t notes_date_of(uint32_t serial, uint32_t *year, uint32_t *month, uint32_t *day);

/* The weekday of a serial day: Monday is 1 and Sunday 7. Refused: 1. */
uint32_t notes_weekday(uint32_t serial, uint32_t *weekday);

/* How many days it is from one serial day to another. Refused: 1 for either, 19. */
uint32_t notes_days_between(uint32_t from, uint32_t to, uint32_t *days);

/* ---- periods ---- */

/* A period from its text: a signed number and D, B, W, M or Y. Refused: 2, 3, 4. */
uint32_t notes_read_period(const uint8_t *text, size_t text_len, int32_t *num, uint32_t *unit);

/* Its text, and how many bytes of `out` it takes. Refused: 18 for the unit, 16. */
uint32_t notes_write_period(int32_t num, uint32_t unit, uint8_t *out, size_t out_len, size_t *length);

/* How many of a period make a year; its sign is ignored. Refused: 18 for the unit, 5. */
uint32_t notes_frequency(int32_t num, uint32_t unit, uint32_t *per_year);

/* The date a period on, and a period back, without a holiday table. Refused: 18 for the unit, 1 for the date, 4 (back, where the number
   has no negative), 12 for business days, 1 for the result. */
uint32_t notes_add_to(int32_t num, uint32_t unit, uint32_t year, uint32_t month, uint32_t day,
                      uint32_t *to_year, uint32_t *to_month, uint32_t *to_day);
uint32_t notes_sub_from(int32_t num, uint32_t unit, uint32_t year, uint32_t month, uint32_t day,
                        uint32_t *to_year, uint32_t *to_month, uint32_t *to_day);

/* The same over a holiday table, which is judged whatever the unit. Refused: 18 for the unit, 1 for the date, 4, 13, 1 for the result. */
uint32_t notes_add_to_with(int32_t num, uint32_t unit, uint32_t year, uint32_t month, uint32_t day,
                           const uint32_t *holidays, size_t holidays_len,
                           uint32_t *to_year, uint32_t *to_month, uint32_t *to_day);
uint32_t notes_sub_from_with(int32_t num, uint32_t unit, uint32_t year, uint32_t month, uint32_t day,
                             const uint32_t *holidays, size_t holidays_len,
                             uint32_t *to_year, uint32_t *to_month, uint32_t *to_day);

/* ---- coupon dates ---- */

/* Whether a day and a month make a coupon date. Refused: 7, 8. */
uint32_t notes_new_coupon_date(uint32_t day, uint32_t month);

/* A coupon date from dd.mm text. Refused: 6, 7, 8. */
uint32_t notes_read_coupon_date(const uint8_t *text, size_t text_len, uint32_t *day, uint32_t *month);

/* Its text, dd.mm, and how many bytes of `out` it takes. Refused: 16. */
uint32_t notes_write_coupon_date(uint32_t day, uint32_t month, uint8_t *out, size_t out_len, size_t *length);

/* ---- business days ---- */

/* Whether a serial day is a business day: 1 is yes and 0 is no. Refused: 1, 13. */
uint32_t notes_is_business_day(uint32_t serial, const uint32_t *holidays, size_t holidays_len, uint32_t *yes);

/* The serial day k business days on, and k back; with k = 0 it is the day itself. Refused: 1, 13, 1 for the result. */
uint32_t notes_bdays_later(uint32_t serial, uint32_t k, const uint32_t *holidays, size_t holidays_len, uint32_t *found);
uint32_t notes_bdays_earlier(uint32_t serial, uint32_t k, const uint32_t *holidays, size_t holidays_len, uint32_t *found);

/* The date that a date is adjusted to; a business day stays. Refused: 18 for the adjustment, 1, 13, 1 for the result. */
uint32_t notes_adjust_date(uint32_t adjustment, uint32_t year, uint32_t month, uint32_t day,
                           const uint32_t *holidays, size_t holidays_len,
                           uint32_t *to_year, uint32_t *to_month, uint32_t *to_day);

/* ---- year fractions ---- */

/* The year fraction from start to end, within 1 / 2^38 of the exact one. Refused: 18 for the rule, 1 for either date, 19, 10 (under ICMA,
   which asks for a roll date), 9. */
uint32_t notes_year_fraction(uint32_t rule, uint32_t start_year, uint32_t start_month, uint32_t start_day,
                             uint32_t end_year, uint32_t end_month, uint32_t end_day, double *fraction);

/* The same with a roll date and a period, which only ICMA looks at. Refused: 18 for the rule, 18 for the unit, 1 for a date (the roll date
   under ICMA only), 19, 5, 14, 1 for the walk, 9. */
uint32_t notes_year_fraction_rolled(uint32_t rule, uint32_t start_year, uint32_t start_month, uint32_t start_day,
                                    uint32_t end_year, uint32_t end_month, uint32_t end_day,
                                    uint32_t roll_year, uint32_t roll_month, uint32_t roll_day,
                                    int32_t num, uint32_t unit, double *fraction);

/* ---- amounts and text ---- */

/* An amount rounded to 0 to 4 digits, halves away from zero. Refused: 15. */
uint32_t notes_round2digits(double amount, int32_t digits, double *rounded);

/* An amount as text with four decimals, in at least 16 columns, and how many bytes of `out` it takes. Refused: 15, 16. */
uint32_t notes_write_decimal(double amount, uint8_t *out, size_t out_len, size_t *length);

/* A flow as text: its date, its amount and its currency. Refused: 15, 17, 1, 16. */
uint32_t notes_write_cash_flow(uint32_t year, uint32_t month, uint32_t day, uint8_t c1, uint8_t c2, uint8_t c3, double amount,
                               uint8_t *out, size_t out_len, size_t *length);

/* Whether two flows have one date and one currency, and amounts within a tolerance: 1 is yes and 0 is no. Nothing is refused. */
uint32_t notes_fuzzy_cash_flows_cmp_eq(uint32_t a_year, uint32_t a_month, uint32_t a_day, uint8_t a_c1, uint8_t a_c2, uint8_t a_c3, double a_amount,
                                       uint32_t b_year, uint32_t b_month, uint32_t b_day, uint8_t b_c1, uint8_t b_c2, uint8_t b_c3, double b_amount,
                                       double tolerance, uint32_t *equal);

/* ---- notes ---- */

/* A note is nineteen numbers. Its own number is how many digits (1 to 10) and the digits: 00417 is 5 and 417. The rate is in percent.
   The functions below take them one by one; `struct notes_note` and the functions `notes_of_..` at the end take them together. */
#define NOTES_NOTE_PARAMETERS \
    uint32_t number_count, uint64_t number_digits, \
    uint32_t issue_year, uint32_t issue_month, uint32_t issue_day, \
    uint32_t maturity_year, uint32_t maturity_month, uint32_t maturity_day, \
    uint32_t coupon_day, uint32_t coupon_month, \
    int32_t period_num, uint32_t period_unit, uint32_t rule, uint32_t adjustment, \
    uint32_t denomination, double rate, uint8_t c1, uint8_t c2, uint8_t c3

/* The checks of a note. Refused: 18 for the unit, the rule and the adjustment, then 18 for the number, 15, 17, 1 for issue and maturity,
   7, 8, 14, 12. */
uint32_t notes_check_note(NOTES_NOTE_PARAMETERS);

/* The serial days and the amounts of a note's flows, in front of `days` and `amounts`, and how many they are: coupons, then the nominal.
   Refused: the checks, with 15 for a position outside -1e9 to 1e9 and 13 for the table in their places; then flow by flow the next date,
   the fraction and the payment date; last 16. */
uint32_t notes_rollout_flows(NOTES_NOTE_PARAMETERS, double position, const uint32_t *holidays, size_t holidays_len,
                             uint32_t *days, size_t days_len, double *amounts, size_t amounts_len, size_t *count);

/* The interest accrued on one note; within 1 / 100,000 of a currency unit, for a denomination up to 1,000,000.
   Refused: the checks, 1 for the day, 1 for the walk, the fraction's refusals. */
uint32_t notes_accrued_interest(NOTES_NOTE_PARAMETERS, uint32_t year, uint32_t month, uint32_t day, double *amount);

/* A note and its holiday table as a packed record, and how many bytes of `out` it takes. Refused: 18 for a code, 18 for a period above
   4,095, the checks with 13 in its place, 16. */
uint32_t notes_write_note(NOTES_NOTE_PARAMETERS, const uint32_t *holidays, size_t holidays_len,
                          uint8_t *out, size_t out_len, size_t *length);

/* The listing of a packed record, a line for each flow or `refused N`, and how many bytes of `out` it takes, never more than 662,000.
   Refused: 16. A record that is refused is a listing that says so. */
uint32_t notes_list_note(const uint8_t *record, size_t record_len, uint8_t *out, size_t out_len, size_t *length);

/* ---- streams of flows, as lists of serial days, currencies and amounts ---- */

/* The flows strictly after a serial day, in front of the three lists that are lent, and how many they are. A flow is what stands at one
   place of each list, so that there are as many as the shortest has. Refused: 1 for the day or any flow's, 16. */
uint32_t notes_flows_after(uint32_t serial, const uint32_t *days, size_t days_len,
                           const uint32_t *currencies, size_t currencies_len, const double *amounts, size_t amounts_len,
                           uint32_t *out_days, size_t out_days_len, uint32_t *out_currencies, size_t out_currencies_len,
                           double *out_amounts, size_t out_amounts_len, size_t *count);

/* The factor 1 / (1 + rate x fraction) that discounts a payment to today; a rate of 5 percent is 0.05. Refused: 18 for the rule, 15 for the
   rate, the fraction's refusals. */
uint32_t notes_discount_factor(double rate, uint32_t rule, uint8_t c1, uint8_t c2, uint8_t c3,
                               uint32_t today_year, uint32_t today_month, uint32_t today_day,
                               uint32_t pay_year, uint32_t pay_month, uint32_t pay_day, double *factor);

/* What a stream is worth today, as many flows as there are amounts. Refused: 18 for the rule, 15 for the rate, then flow by flow 15, 17 and
   the fraction's refusals. */
uint32_t notes_discount_flows(double rate, uint32_t rule, uint8_t c1, uint8_t c2, uint8_t c3,
                              const uint32_t *days, size_t days_len, const uint32_t *currencies, size_t currencies_len,
                              const double *amounts, size_t amounts_len,
                              uint32_t today_year, uint32_t today_month, uint32_t today_day, double *amount);

/* ---- a note as one thing ---- */

struct notes_date {
    uint32_t year, month, day;
};

struct notes_note {
    uint32_t number_count;
    uint64_t number_digits;
    struct notes_date issue, maturity;
    uint32_t coupon_day, coupon_month;
    int32_t period_num;
    uint32_t period_unit, rule, adjustment, denomination;
    double rate;
    uint8_t currency[3];
};

#define NOTES_NOTE_ARGUMENTS(n) \
    (n)->number_count, (n)->number_digits, \
    (n)->issue.year, (n)->issue.month, (n)->issue.day, \
    (n)->maturity.year, (n)->maturity.month, (n)->maturity.day, \
    (n)->coupon_day, (n)->coupon_month, \
    (n)->period_num, (n)->period_unit, (n)->rule, (n)->adjustment, \
    (n)->denomination, (n)->rate, (n)->currency[0], (n)->currency[1], (n)->currency[2]

static inline uint32_t notes_of_check(const struct notes_note *n)
{
    return notes_check_note(NOTES_NOTE_ARGUMENTS(n));
}

static inline uint32_t notes_of_rollout(const struct notes_note *n, double position, const uint32_t *holidays, size_t holidays_len,
                                        uint32_t *days, size_t days_len, double *amounts, size_t amounts_len, size_t *count)
{
    return notes_rollout_flows(NOTES_NOTE_ARGUMENTS(n), position, holidays, holidays_len, days, days_len, amounts, amounts_len, count);
}

static inline uint32_t notes_of_accrued(const struct notes_note *n, struct notes_date today, double *amount)
{
    return notes_accrued_interest(NOTES_NOTE_ARGUMENTS(n), today.year, today.month, today.day, amount);
}

static inline uint32_t notes_of_write(const struct notes_note *n, const uint32_t *holidays, size_t holidays_len,
                                      uint8_t *out, size_t out_len, size_t *length)
{
    return notes_write_note(NOTES_NOTE_ARGUMENTS(n), holidays, holidays_len, out, out_len, length);
}

#ifdef __cplusplus
}
#endif

#endif
