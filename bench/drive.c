/* The register and finql in one process, on the same inputs.
     drive check                  asks both sides every input and compares: bits, dates, texts. Exit status 1 where they differ.
     drive time ROUNDS [NAME..]   `piece` or `growth`, NAME, nanoseconds a call of ours, of finql's, of the loop around them: the least of so many short rounds
     drive run TIMES [NAME..]     each loop once, so many times over its inputs, under callgrind, with a dump for each; prints NAME and the calls
   Inputs are made once, before anything is timed. */
#include <stdint.h>
#include <stdio.h>
#include <stdlib.h>
#include <string.h>
#include <time.h>
#include <valgrind/callgrind.h>

/* The C face of the register (crates/c_face). */
#define NOTE_ARGS \
    uint32_t, uint64_t, uint32_t, uint32_t, uint32_t, uint32_t, uint32_t, uint32_t, uint32_t, uint32_t, int32_t, uint32_t, uint32_t, uint32_t, \
        uint32_t, double, uint8_t, uint8_t, uint8_t
uint32_t notes_year_fraction(uint32_t, uint32_t, uint32_t, uint32_t, uint32_t, uint32_t, uint32_t, double *);
uint32_t notes_year_fraction_rolled(uint32_t, uint32_t, uint32_t, uint32_t, uint32_t, uint32_t, uint32_t, uint32_t, uint32_t, uint32_t, int32_t, uint32_t, double *);
uint32_t notes_add_to(int32_t, uint32_t, uint32_t, uint32_t, uint32_t, uint32_t *, uint32_t *, uint32_t *);
uint32_t notes_add_to_with(int32_t, uint32_t, uint32_t, uint32_t, uint32_t, const uint32_t *, size_t, uint32_t *, uint32_t *, uint32_t *);
uint32_t notes_adjust_date(uint32_t, uint32_t, uint32_t, uint32_t, const uint32_t *, size_t, uint32_t *, uint32_t *, uint32_t *);
uint32_t notes_round2digits(double, int32_t, double *);
uint32_t notes_rollout_flows(NOTE_ARGS, double, const uint32_t *, size_t, uint32_t *, size_t, double *, size_t, size_t *);
uint32_t notes_accrued_interest(NOTE_ARGS, uint32_t, uint32_t, uint32_t, double *);
uint32_t notes_write_note(NOTE_ARGS, const uint32_t *, size_t, uint8_t *, size_t, size_t *);
uint32_t notes_list_note(const uint8_t *, size_t, uint8_t *, size_t, size_t *);
uint32_t notes_flows_after(uint32_t, const uint32_t *, size_t, const uint32_t *, size_t, const double *, size_t, uint32_t *, size_t, uint32_t *, size_t, double *, size_t, size_t *);
uint32_t notes_discount_flows(double, uint32_t, uint8_t, uint8_t, uint8_t, const uint32_t *, size_t, const uint32_t *, size_t, const double *, size_t, uint32_t, uint32_t, uint32_t, double *);

/* finql behind C names (compare/finql/finql_c). */
typedef struct Period Period;
typedef struct Calendar Calendar;
typedef struct Bond Bond;
typedef struct Flows Flows;
typedef struct Rate Rate;
int32_t finql_serial(int32_t);
Period *finql_period(const char *, size_t);
Calendar *finql_calendar(const uint32_t *, size_t);
Bond *finql_bond(const char *, size_t);
Rate *finql_rate(double, uint32_t);
Flows *finql_flows(const uint32_t *, const double *, size_t);
double finql_fraction(uint32_t, int32_t, uint8_t, uint8_t, int32_t, uint8_t, uint8_t);
double finql_icma(const Period *, int32_t, uint8_t, uint8_t, int32_t, uint8_t, uint8_t, int32_t, uint8_t, uint8_t);
int32_t finql_add(const Period *, int32_t, uint8_t, uint8_t);
int32_t finql_add_with(const Period *, int32_t, uint8_t, uint8_t, const Calendar *);
int32_t finql_modified(int32_t, uint8_t, uint8_t, const Calendar *);
int32_t finql_rollout(const Bond *, double, const Calendar *, int32_t *, double *, size_t);
double finql_accrued(const Bond *, int32_t, uint8_t, uint8_t);
double finql_round2(double, int32_t);
double finql_simple(const Rate *, const Flows *, int32_t, uint8_t, uint8_t);
int32_t finql_after(const Flows *, int32_t, uint8_t, uint8_t, int32_t *, double *);
int32_t finql_listing(const Bond *, const Calendar *, uint8_t *, size_t);

/* So many inputs that the processor cannot learn their branches by heart; fewer where a call takes longer. */
enum { ASKED = 4096, FEWER = 1024, NOTES = 128, STREAMS = 32, FLOWS = 61, ROOM = 2000, TEXT = 20000 };
enum { ACT365, ACT360, ACT365L, D30_360, D30E360, ICMA };
enum { DAYS, BUSINESS_DAYS, WEEKS, MONTHS, YEARS };
enum { MODIFIED = 3 };

/* ---- inputs: dates, periods, tables and notes */

typedef struct { uint32_t year, month, day; } Date;
typedef struct { Date start, end; } Span;
typedef struct { int32_t num; uint32_t unit; Period *theirs; } Step;
typedef struct { uint32_t days[4096]; size_t count; Calendar *theirs; } Table;
typedef struct {
    uint64_t digits;
    Date issue, maturity;
    uint32_t coupon_day, coupon_month, rule, denomination;
    int32_t months;
    double rate, position;
    Table *table;
    Bond *theirs;
} Note;

static uint64_t seed = 88172645463325252u;

static uint64_t below(uint64_t n) {
    seed ^= seed << 13;
    seed ^= seed >> 7;
    seed ^= seed << 17;
    return (seed >> 11) % n;
}

static int leap(uint32_t y) { return y % 4 == 0 && (y % 100 != 0 || y % 400 == 0); }

static uint32_t month_length(uint32_t y, uint32_t m) {
    static const uint8_t lengths[] = {31, 28, 31, 30, 31, 30, 31, 31, 30, 31, 30, 31};
    return lengths[m - 1] + (m == 2 && leap(y));
}

static uint32_t serial(Date t) {
    uint32_t y = t.year - 1, n = 365 * y + y / 4 - y / 100 + y / 400 + t.day;
    for (uint32_t m = 1; m < t.month; m++) n += month_length(t.year, m);
    return n;
}

static Date date_on(uint32_t n) {
    Date t = {1 + n / 366, 1, 1};
    while (serial((Date){t.year + 1, 1, 1}) <= n) t.year++;
    while (t.month < 12 && serial((Date){t.year, t.month + 1, 1}) <= n) t.month++;
    t.day = 1 + n - serial(t);
    return t;
}

/* One date in four is a month's end. */
static Date any_date(uint32_t from, uint32_t years) {
    Date t = {from + below(years), 1 + below(12), 0};
    uint32_t last = month_length(t.year, t.month);
    t.day = below(4) == 0 ? last : 1 + below(last);
    return t;
}

static Date months_on(Date t, uint32_t months, uint32_t day) {
    uint32_t i = 12 * t.year + t.month - 1 + months;
    Date r = {i / 12, i % 12 + 1, day};
    uint32_t last = month_length(r.year, r.month);
    if (last < day) r.day = last;
    return r;
}

static Step step(int32_t num, uint32_t unit) {
    char text[16];
    int n = snprintf(text, sizeof text, "%d%c", num, "DBWMY"[unit]);
    return (Step){num, unit, finql_period(text, n)};
}

static int32_t signed_below(int32_t n) {
    int32_t k = 1 + below(n);
    return below(3) == 0 ? -k : k;
}

static Table *table(uint32_t from, uint32_t apart, size_t count) {
    Table *t = calloc(1, sizeof *t);
    t->count = count;
    for (size_t i = 0; i < count; i++) t->days[i] = from + apart * i + (apart > 1 ? below(apart) : 0);
    t->theirs = finql_calendar(t->days, count);
    return t;
}

static Note note(Date issue, uint32_t coupons, uint32_t months, uint32_t rule, Table *days) {
    static const char *const rules[] = {"act/365", "act/360", "act/365l", "30/360", "30E/360", "icma"};
    Date first = months_on(issue, months, issue.day);
    Date last = months_on(issue, months * coupons, issue.day);
    Note n = {below(100000), issue, last, first.day, first.month, rule, 100 * (1 + below(1000)), months, (1 + below(9999)) / 1000.0, 1 + below(500), days, NULL};
    char text[800];
    int length = snprintf(
        text, sizeof text,
        "{\"isin\":null,\"security_id\":null,\"prospect_url\":null,\"issuer\":null,\"bond_type\":\"bond\",\"currency\":\"EUR\","
        "\"coupon\":{\"coupon_type\":\"fixed\",\"rate\":%.3f,\"coupon_date\":\"%02u.%02u\",\"period\":\"%dM\",\"day_count_convention\":\"%s\"},"
        "\"business_day_rule\":\"modified\",\"calendar\":\"x\",\"issue_date\":\"%04u-%02u-%02u\",\"maturity\":\"%04u-%02u-%02u\",\"denomination\":%u,\"volume\":null}",
        n.rate, n.coupon_day, n.coupon_month, n.months, rules[rule], issue.year, issue.month, issue.day, last.year, last.month, last.day, n.denomination);
    n.theirs = finql_bond(text, length);
    return n;
}

static struct { Span act, thirty, icma; Date roll; Step icma_step; } fractions[ASKED];
static struct { Date from; Step by[5]; } steps[ASKED];
static struct { Date date; Table *table; } adjusted[ASKED];
static struct { Note *note; Date today; } accrued[FEWER];
static struct { double amount; int32_t digits; } amounts[ASKED];
static Note icma_notes[NOTES], thirty_notes[NOTES], accrued_notes[NOTES];
/* The first notes once more: packed, and as streams of their flows. */
static struct { uint8_t bytes[600]; size_t length; } records[STREAMS];
static struct { uint32_t days[FLOWS], currencies[FLOWS]; double amounts[FLOWS]; Flows *theirs; } streams[STREAMS];
static struct { Date today; uint32_t serial; uint32_t stream; } later[FEWER], discounted[FEWER];
static const double rate = 0.03;
static Rate *their_rate;
/* For the growth lines. */
static struct { Span span; Date roll[3]; } far[FEWER];
static Note long_notes[3], tabled_notes[2];
static Table *grown_tables[3];
static Date near_dates[FEWER];

/* Where the answers go. */
static uint32_t out_days[ROOM], out_currencies[ROOM];
static double out_amounts[ROOM];
static int32_t their_dates[ROOM];
static double their_amounts[ROOM];
static uint8_t out_text[TEXT], their_text[TEXT];

#define THREE(t) (t).year, (t).month, (t).day
#define NOTE(n) \
    10, (n)->digits, THREE((n)->issue), THREE((n)->maturity), (n)->coupon_day, (n)->coupon_month, (n)->months, MONTHS, (n)->rule, MODIFIED, \
        (n)->denomination, (n)->rate, 'E', 'U', 'R'
#define LIST(t) (t)->days, (t)->count
#define OUT out_days, ROOM, out_amounts, ROOM

static void stop(const char *name, long k) {
    printf("%s: the answers differ at input %ld\n", name, k);
    exit(1);
}

/* 30 years of half-years, in a table of 200 days that stand in those years. */
static Note long_note(uint32_t rule) {
    static const uint32_t ends[][2] = {{1, 31}, {3, 30}, {4, 30}, {6, 30}, {2, 28}};
    Date issue = {1900 + below(170), 1 + below(6), 1 + below(28)};
    if (below(3) == 0) {
        uint32_t i = below(5);
        issue.month = ends[i][0];
        issue.day = ends[i][1];
    }
    return note(issue, FLOWS - 1, 6, rule, table(serial(issue), 55, 200));
}

static void make_fractions(void) {
    static const int32_t months[] = {3, 6, 6, 12};
    for (int k = 0; k < ASKED; k++) {
        Date a = any_date(1900, 200), b = any_date(a.year, 1 + below(30));
        fractions[k].act = serial(a) <= serial(b) ? (Span){a, b} : (Span){b, a};
        /* finql is wrong where the month goes back (docs/DIFFERENCES.md), and refuses two days of one month on a fraction of 0. */
        do b = any_date(a.year, 30);
        while (b.month < a.month || (b.year == a.year && b.month == a.month));
        fractions[k].thirty = (Span){a, b};
        fractions[k].icma = (Span){a, date_on(serial(a) + 1 + below(730))};
        fractions[k].roll = any_date(a.year - 9, 19);
        fractions[k].icma_step = step(months[below(4)], MONTHS);
    }
}

static void make_steps(void) {
    for (int k = 0; k < ASKED; k++) {
        static const int32_t most[] = {1000, 10, 200, 600, 100};
        Date t = any_date(1900, 200);
        steps[k].from = t;
        for (uint32_t unit = 0; unit < 5; unit++) {
            int32_t num = signed_below(most[unit]);
            /* 29 February goes to leap years only. */
            while (unit == YEARS && t.month == 2 && t.day == 29 && !leap(t.year + num)) num = signed_below(most[unit]);
            steps[k].by[unit] = step(num, unit);
        }
    }
    /* The public holidays of one year, twelve of them; a date of the same year. */
    Table *tables[64];
    for (int i = 0; i < 64; i++) tables[i] = table(serial((Date){1900 + 3 * i, 1, 1}), 30, 12);
    for (int k = 0; k < ASKED; k++) {
        adjusted[k].table = tables[k % 64];
        adjusted[k].date = any_date(1900 + 3 * (k % 64), 1);
    }
}

static void make_notes(void) {
    static const uint32_t rules[] = {ICMA, ACT365, ICMA, ACT360, ICMA, ACT365L};
    static const uint32_t months[] = {3, 6, 6, 12};
    for (int i = 0; i < NOTES; i++) {
        icma_notes[i] = long_note(ICMA);
        thirty_notes[i] = long_note(D30E360);
        Date issue = any_date(1900, 170);
        uint32_t m = months[below(4)];
        /* The first coupon is then a period on. */
        while (12 < issue.month + m && m < 12) issue.month -= m;
        if (month_length(issue.year, issue.month) < issue.day) issue.day = 28;
        accrued_notes[i] = note(issue, 12 * (5 + below(26)) / m, m, rules[i % 6], table(serial(issue), 55, 200));
    }
    for (int k = 0; k < FEWER; k++) {
        accrued[k].note = &accrued_notes[k % NOTES];
        uint32_t issue = serial(accrued[k].note->issue);
        accrued[k].today = date_on(issue + below(serial(accrued[k].note->maturity) - issue));
    }
}

static void make_streams(void) {
    for (int i = 0; i < STREAMS; i++) {
        Note *n = &icma_notes[i];
        size_t count;
        if (notes_write_note(NOTE(n), LIST(n->table), records[i].bytes, sizeof records[i].bytes, &records[i].length)) stop("packing", i);
        if (notes_rollout_flows(NOTE(n), n->position, LIST(n->table), OUT, &count) || count != FLOWS) stop("streams", i);
        memcpy(streams[i].days, out_days, sizeof streams[i].days);
        memcpy(streams[i].amounts, out_amounts, sizeof streams[i].amounts);
        for (int j = 0; j < FLOWS; j++) streams[i].currencies[j] = 'E' << 16 | 'U' << 8 | 'R';
        streams[i].theirs = finql_flows(streams[i].days, streams[i].amounts, FLOWS);
    }
    their_rate = finql_rate(rate, ACT365);
    for (int k = 0; k < FEWER; k++) {
        uint32_t i = k % STREAMS, issue = serial(icma_notes[i].issue), maturity = serial(icma_notes[i].maturity);
        later[k].stream = discounted[k].stream = i;
        later[k].serial = below(4) == 0 ? streams[i].days[below(FLOWS)] : issue + below(maturity - issue);
        later[k].today = date_on(later[k].serial);
        /* Before the first flow, since the register refuses a flow that is past. */
        discounted[k].today = date_on(issue + below(150));
    }
}

/* Amounts of three or four decimals, one in four a multiple of 1/8, at which halves are exact; to 0 digits, then to 1, .. to 4. */
static void make_amounts(void) {
    static const double parts[] = {8, 1000, 10000, 10000};
    for (int k = 0; k < ASKED; k++) {
        amounts[k].digits = 5 * k / ASKED;
        amounts[k].amount = ((double)below(2000000000) - 1e9) / parts[below(4)];
    }
}

/* Monthly notes of 10, 100 and 1,000 flows; roll dates so many years before; tables of so many days around the dates. */
static void make_growth(void) {
    static const uint32_t years[] = {1, 10, 100}, coupons[] = {9, 99, 999};
    for (int k = 0; k < FEWER; k++) {
        Date a = any_date(2000, 20);
        far[k].span = (Span){a, date_on(serial(a) + 183 + below(183))};
        for (int j = 0; j < 3; j++) far[k].roll[j] = months_on((Date){a.year - years[j], a.month, 1}, below(6), 1 + below(31));
        near_dates[k] = any_date(2018, 10);
    }
    for (int j = 0; j < 3; j++) long_notes[j] = note((Date){1950, 1, 15}, coupons[j], 1, ICMA, table(1, 1, 0));
    grown_tables[0] = table(1, 1, 0);
    grown_tables[1] = table(serial((Date){2018, 1, 1}), 18, 200);
    grown_tables[2] = table(serial((Date){2010, 1, 1}), 2, 4096);
    tabled_notes[0] = note((Date){2000, 1, 15}, FLOWS - 1, 6, ICMA, grown_tables[0]);
    tabled_notes[1] = note((Date){2000, 1, 15}, FLOWS - 1, 6, ICMA, grown_tables[2]);
}

/* ---- the pieces of work: a loop of ours, of finql's, and one that only reads the inputs */

static uint64_t bits(double x) {
    uint64_t b;
    memcpy(&b, &x, 8);
    return b;
}

/* Reads a number and does nothing with it. */
static void use(uint64_t x) { __asm__ volatile("" ::"r"(x)); }

static void use_date(Date t) {
    use(t.year);
    use(t.month);
    use(t.day);
}

static void use_note(const Note *n) {
    use(n->digits);
    use_date(n->issue);
    use_date(n->maturity);
    use(n->coupon_day);
    use(n->coupon_month);
    use(n->months);
    use(n->rule);
    use(n->denomination);
    use(bits(n->rate));
}

/* One call of ours gives a sum of all that it answers, so that nothing of it can be left out; so does one of finql's. */
static uint64_t sum(uint32_t refused, Date t) { return refused + t.year + t.month + t.day; }

static uint64_t our_fraction(uint32_t rule, const Span *s) {
    double x = 0;
    uint32_t refused = notes_year_fraction(rule, THREE(s->start), THREE(s->end), &x);
    return refused + bits(x);
}
static uint64_t their_fraction(uint32_t rule, const Span *s) { return bits(finql_fraction(rule, THREE(s->start), THREE(s->end))); }
static void read_span(const Span *s) {
    use_date(s->start);
    use_date(s->end);
}

static uint64_t our_icma(const Span *s, Date roll, const Step *p) {
    double x = 0;
    uint32_t refused = notes_year_fraction_rolled(ICMA, THREE(s->start), THREE(s->end), THREE(roll), p->num, p->unit, &x);
    return refused + bits(x);
}
static uint64_t their_icma(const Span *s, Date roll, const Step *p) { return bits(finql_icma(p->theirs, THREE(s->start), THREE(s->end), THREE(roll))); }
static void read_icma(const Span *s, Date roll, const Step *p) {
    read_span(s);
    use_date(roll);
    use(p->num);
    use(p->unit);
}

static uint32_t our_date(const Step *p, Date from, Date *t) { return notes_add_to(p->num, p->unit, THREE(from), &t->year, &t->month, &t->day); }
static uint64_t our_add(const Step *p, Date from) {
    Date t = {0};
    uint32_t refused = our_date(p, from, &t);
    return sum(refused, t);
}
static uint64_t their_add(const Step *p, Date from) { return finql_add(p->theirs, THREE(from)); }
static void read_add(const Step *p, Date from) {
    use(p->num);
    use(p->unit);
    use_date(from);
}
static int same_date(uint32_t refused, Date t, int32_t theirs) { return !refused && (int32_t)serial(t) == finql_serial(theirs); }
static int same_add(const Step *p, Date from) {
    Date t = {0};
    uint32_t refused = our_date(p, from, &t);
    return same_date(refused, t, finql_add(p->theirs, THREE(from)));
}

static uint32_t our_date_with(const Step *p, Date from, const Table *h, Date *t) {
    return notes_add_to_with(p->num, p->unit, THREE(from), LIST(h), &t->year, &t->month, &t->day);
}
static uint64_t our_add_with(const Step *p, Date from, const Table *h) {
    Date t = {0};
    uint32_t refused = our_date_with(p, from, h, &t);
    return sum(refused, t);
}
static uint64_t their_add_with(const Step *p, Date from, const Table *h) { return finql_add_with(p->theirs, THREE(from), h->theirs); }
static void read_add_with(const Step *p, Date from, const Table *h) {
    read_add(p, from);
    use(h->count);
}
static int same_add_with(const Step *p, Date from, const Table *h) {
    Date t = {0};
    uint32_t refused = our_date_with(p, from, h, &t);
    return same_date(refused, t, finql_add_with(p->theirs, THREE(from), h->theirs));
}

static uint32_t our_moved(Date from, const Table *h, Date *t) { return notes_adjust_date(MODIFIED, THREE(from), LIST(h), &t->year, &t->month, &t->day); }
static uint64_t our_modified(Date from, const Table *h) {
    Date t = {0};
    uint32_t refused = our_moved(from, h, &t);
    return sum(refused, t);
}
static uint64_t their_modified(Date from, const Table *h) { return finql_modified(THREE(from), h->theirs); }
static void read_modified(Date from, const Table *h) {
    use_date(from);
    use(h->count);
}
static int same_modified(Date from, const Table *h) {
    Date t = {0};
    uint32_t refused = our_moved(from, h, &t);
    return same_date(refused, t, finql_modified(THREE(from), h->theirs));
}

static uint64_t our_rollout(const Note *n) {
    size_t count = 0;
    uint32_t refused = notes_rollout_flows(NOTE(n), n->position, LIST(n->table), OUT, &count);
    return refused + count;
}
static uint64_t their_rollout(const Note *n) { return finql_rollout(n->theirs, n->position, n->table->theirs, their_dates, their_amounts, ROOM); }
static void read_rollout(const Note *n) {
    use_note(n);
    use(bits(n->position));
    use(n->table->count);
}
/* What a coupon under 30E/360 pays, months subtracted signed as document 01 has it, or without sign as finql does. */
static double thirty_amount(const Note *n, Date a, Date b, int without_sign) {
    int32_t months = (int32_t)b.month - (int32_t)a.month, days = (int32_t)(b.day < 30 ? b.day : 30) - (int32_t)(a.day < 30 ? a.day : 30);
    double m = without_sign ? (double)(uint32_t)months : (double)months;
    double fraction = ((double)((int32_t)b.year - (int32_t)a.year) + m / 12.0) + days / 360.0;
    return n->position * n->denomination * n->rate / 100.0 * fraction;
}
static int same_rollout(const Note *n) {
    size_t count = 0;
    if (notes_rollout_flows(NOTE(n), n->position, LIST(n->table), OUT, &count)) return 0;
    if ((uint64_t)count != their_rollout(n)) return 0;
    Date start = n->issue, end = {start.year + (n->coupon_month <= start.month), n->coupon_month, n->coupon_day};
    for (size_t i = 0; i < count; i++) {
        if ((int32_t)out_days[i] != finql_serial(their_dates[i])) return 0;
        if (n->rule == D30E360 && i + 1 < count && end.month < start.month) {
            if (bits(out_amounts[i]) != bits(thirty_amount(n, start, end, 0))) return 0;
            if (bits(their_amounts[i]) != bits(thirty_amount(n, start, end, 1))) return 0;
        } else if (bits(out_amounts[i]) != bits(their_amounts[i]))
            return 0;
        start = end;
        end = months_on(start, n->months, start.day);
    }
    return 1;
}

static uint64_t our_accrued(const Note *n, Date today) {
    double x = 0;
    uint32_t refused = notes_accrued_interest(NOTE(n), THREE(today), &x);
    return refused + bits(x);
}
static uint64_t their_accrued(const Note *n, Date today) { return bits(finql_accrued(n->theirs, THREE(today))); }
static void read_accrued(const Note *n, Date today) {
    use_note(n);
    use_date(today);
}

static uint64_t our_round2(double amount, int32_t digits) {
    double x = 0;
    uint32_t refused = notes_round2digits(amount, digits, &x);
    return refused + bits(x);
}
static uint64_t their_round2(double amount, int32_t digits) { return bits(finql_round2(amount, digits)); }
static void read_round2(double amount, int32_t digits) {
    use(bits(amount));
    use(digits);
}

static uint64_t our_simple(uint32_t i, Date today) {
    double x = 0;
    uint32_t refused = notes_discount_flows(rate, ACT365, 'E', 'U', 'R', streams[i].days, FLOWS, streams[i].currencies, FLOWS, streams[i].amounts, FLOWS, THREE(today), &x);
    return refused + bits(x);
}
static uint64_t their_simple(uint32_t i, Date today) { return bits(finql_simple(their_rate, streams[i].theirs, THREE(today))); }
static void read_simple(uint32_t i, Date today) {
    use(i);
    use_date(today);
}

static uint64_t our_after(uint32_t i, uint32_t day) {
    size_t count = 0;
    uint32_t refused = notes_flows_after(
        day, streams[i].days, FLOWS, streams[i].currencies, FLOWS, streams[i].amounts, FLOWS, out_days, ROOM, out_currencies, ROOM, out_amounts, ROOM, &count);
    return refused + count;
}
static uint64_t their_after(uint32_t i, Date today) { return finql_after(streams[i].theirs, THREE(today), NULL, NULL); }
static int same_after(uint32_t i, uint32_t day, Date today) {
    memset(out_days, 0, sizeof out_days);
    uint64_t count = our_after(i, day);
    if (count != (uint64_t)finql_after(streams[i].theirs, THREE(today), their_dates, their_amounts)) return 0;
    for (uint64_t j = 0; j < count; j++)
        if ((int32_t)out_days[j] != finql_serial(their_dates[j]) || bits(out_amounts[j]) != bits(their_amounts[j]) || out_currencies[j] != streams[i].currencies[j]) return 0;
    return 1;
}

static uint64_t our_listing(uint32_t i) {
    size_t length = 0;
    uint32_t refused = notes_list_note(records[i].bytes, records[i].length, out_text, TEXT, &length);
    return refused + length;
}
static uint64_t their_listing(uint32_t i, uint8_t *out) { return finql_listing(icma_notes[i].theirs, icma_notes[i].table->theirs, out, TEXT); }
static int same_listing(uint32_t i) {
    memset(out_text, 0, sizeof out_text);
    uint64_t length = our_listing(i);
    return length <= TEXT && length == their_listing(i, their_text) && memcmp(out_text, their_text, length) == 0;
}

/* PIECE(name, how many inputs, one call of ours, one of finql's, the reading of the inputs, whether both sides agree), each at input k */
#define FRACTION(name, rule, span) \
    PIECE(name, ASKED, our_fraction(rule, &fractions[k].span), their_fraction(rule, &fractions[k].span), read_span(&fractions[k].span), ours == theirs)
#define ADD(name, unit) \
    PIECE(name, ASKED, our_add(&steps[k].by[unit], steps[k].from), their_add(&steps[k].by[unit], steps[k].from), read_add(&steps[k].by[unit], steps[k].from), \
          same_add(&steps[k].by[unit], steps[k].from))
#define ROLLOUT(name, inputs, notes) PIECE(name, inputs, our_rollout(&(notes)[k]), their_rollout(&(notes)[k]), read_rollout(&(notes)[k]), same_rollout(&(notes)[k]))
#define FAR(name, j) \
    PIECE(name, FEWER, our_icma(&far[k].span, far[k].roll[j], &half_year), their_icma(&far[k].span, far[k].roll[j], &half_year), \
          read_icma(&far[k].span, far[k].roll[j], &half_year), ours == theirs)
#define TABLED(name, j) \
    PIECE(name, FEWER, our_modified(near_dates[k], grown_tables[j]), their_modified(near_dates[k], grown_tables[j]), \
          read_modified(near_dates[k], grown_tables[j]), same_modified(near_dates[k], grown_tables[j]))

static Step half_year;

#define PIECES \
    FRACTION(act365, ACT365, act) \
    FRACTION(act360, ACT360, act) \
    FRACTION(act365l, ACT365L, act) \
    FRACTION(30360, D30_360, thirty) \
    FRACTION(30e360, D30E360, thirty) \
    PIECE(icma, FEWER, our_icma(&fractions[k].icma, fractions[k].roll, &fractions[k].icma_step), their_icma(&fractions[k].icma, fractions[k].roll, &fractions[k].icma_step), \
          read_icma(&fractions[k].icma, fractions[k].roll, &fractions[k].icma_step), ours == theirs) \
    ADD(add_D, DAYS) \
    ADD(add_W, WEEKS) \
    ADD(add_M, MONTHS) \
    ADD(add_Y, YEARS) \
    PIECE(add_B, ASKED, our_add_with(&steps[k].by[BUSINESS_DAYS], adjusted[k].date, adjusted[k].table), \
          their_add_with(&steps[k].by[BUSINESS_DAYS], adjusted[k].date, adjusted[k].table), \
          read_add_with(&steps[k].by[BUSINESS_DAYS], adjusted[k].date, adjusted[k].table), \
          same_add_with(&steps[k].by[BUSINESS_DAYS], adjusted[k].date, adjusted[k].table)) \
    PIECE(modified, ASKED, our_modified(adjusted[k].date, adjusted[k].table), their_modified(adjusted[k].date, adjusted[k].table), \
          read_modified(adjusted[k].date, adjusted[k].table), same_modified(adjusted[k].date, adjusted[k].table)) \
    ROLLOUT(rollout_30y_icma, NOTES, icma_notes) \
    ROLLOUT(rollout_30y_30e360, NOTES, thirty_notes) \
    PIECE(accrued, FEWER, our_accrued(accrued[k].note, accrued[k].today), their_accrued(accrued[k].note, accrued[k].today), \
          read_accrued(accrued[k].note, accrued[k].today), ours == theirs) \
    PIECE(round2, ASKED, our_round2(amounts[k].amount, amounts[k].digits), their_round2(amounts[k].amount, amounts[k].digits), \
          read_round2(amounts[k].amount, amounts[k].digits), ours == theirs) \
    PIECE(simple_61, FEWER, our_simple(discounted[k].stream, discounted[k].today), their_simple(discounted[k].stream, discounted[k].today), \
          read_simple(discounted[k].stream, discounted[k].today), ours == theirs) \
    PIECE(after_61, FEWER, our_after(later[k].stream, later[k].serial), their_after(later[k].stream, later[k].today), \
          read_simple(later[k].stream, later[k].today), same_after(later[k].stream, later[k].serial, later[k].today)) \
    PIECE(listing, STREAMS, our_listing(k), their_listing(k, NULL), use(k), same_listing(k))

#define GROWTH \
    ROLLOUT(rollout_of_10_flows, 1, long_notes) \
    ROLLOUT(rollout_of_100_flows, 1, long_notes + 1) \
    ROLLOUT(rollout_of_1000_flows, 1, long_notes + 2) \
    FAR(icma_roll_1_year_away, 0) \
    FAR(icma_roll_10_years_away, 1) \
    FAR(icma_roll_100_years_away, 2) \
    ROLLOUT(rollout_with_table_of_0, 1, tabled_notes) \
    ROLLOUT(rollout_with_table_of_4096, 1, tabled_notes + 1) \
    TABLED(modified_with_table_of_0, 0) \
    TABLED(modified_with_table_of_200, 1) \
    TABLED(modified_with_table_of_4096, 2)

#define NOINLINE static __attribute__((noinline))
#define PIECE(name, inputs, our_one, their_one, read_one, agree) \
    NOINLINE uint64_t ours_##name(unsigned long n) { \
        uint64_t z = 0; \
        for (unsigned long i = 0; i < n; i++) { \
            unsigned long k = i % (inputs); \
            (void)k; \
            z += our_one; \
        } \
        return z; \
    } \
    NOINLINE uint64_t rust_##name(unsigned long n) { \
        uint64_t z = 0; \
        for (unsigned long i = 0; i < n; i++) { \
            unsigned long k = i % (inputs); \
            (void)k; \
            z += their_one; \
        } \
        return z; \
    } \
    NOINLINE uint64_t loop_##name(unsigned long n) { \
        uint64_t z = 0; \
        for (unsigned long i = 0; i < n; i++) { \
            unsigned long k = i % (inputs); \
            (void)k; \
            read_one; \
            z += i; \
        } \
        return z; \
    } \
    static int same_on_##name(unsigned long k) { \
        (void)k; \
        uint64_t ours = our_one, theirs = their_one; \
        (void)ours; \
        (void)theirs; \
        return agree; \
    }
PIECES
GROWTH
#undef PIECE

typedef struct {
    const char *name;
    unsigned long inputs;
    uint64_t (*side[3])(unsigned long);
    int (*same)(unsigned long);
} Piece;

#define PIECE(name, inputs, our_one, their_one, read_one, agree) {#name, inputs, {ours_##name, rust_##name, loop_##name}, same_on_##name},
static const Piece pieces[] = {PIECES};
static const Piece growth[] = {GROWTH};
#undef PIECE
enum { LINES = sizeof pieces / sizeof *pieces, GROWN = sizeof growth / sizeof *growth };

static const Piece *piece(int i) { return i < LINES ? pieces + i : growth + (i - LINES); }

/* ---- the three commands */

static volatile uint64_t kept;

static double now(void) {
    struct timespec t;
    clock_gettime(CLOCK_PROCESS_CPUTIME_ID, &t);
    return t.tv_sec * 1e9 + t.tv_nsec;
}

static void check(void) {
    unsigned long asked = 0;
    for (int i = 0; i < LINES + GROWN; i++) {
        const Piece *p = piece(i);
        for (unsigned long k = 0; k < p->inputs; k++, asked++)
            if (!p->same(k)) stop(p->name, k);
    }
    printf("the same answers on all %lu inputs of %d pieces of work\n", asked, LINES + GROWN);
}

/* So many that both sides together take a tenth of a millisecond, and no input is left out. */
static unsigned long calls_a_round(const Piece *p) {
    unsigned long n = p->inputs;
    for (;;) {
        double t = now();
        kept = p->side[1](n);
        kept = p->side[0](n);
        if (1e5 < now() - t) return n;
        n *= 2;
    }
}

/* The least so far of each piece and side. */
static double least[LINES + GROWN][3];

static void time_it(const Piece *p, double *best, long rounds) {
    unsigned long n = calls_a_round(p);
    for (long r = 0; r < rounds; r++)
        for (int w = 0; w < 3; w++) {
            double t = now();
            kept = p->side[w](n);
            t = (now() - t) / n;
            if (best[w] == 0 || t < best[w]) best[w] = t;
        }
}

static int wanted(int i, int argc, char **argv) {
    for (int j = 3; j < argc; j++)
        if (!strcmp(argv[j], piece(i)->name)) return 1;
    return argc == 3;
}

/* Piece by piece, and all over again, so that a busy minute of the machine does not fall on one piece alone. */
static void time_all(long rounds, int argc, char **argv) {
    enum { SWEEPS = 20 };
    for (int s = 0; s < SWEEPS; s++)
        for (int i = 0; i < LINES + GROWN; i++)
            if (wanted(i, argc, argv)) time_it(piece(i), least[i], (rounds + SWEEPS - 1) / SWEEPS);
    for (int i = 0; i < LINES + GROWN; i++)
        if (wanted(i, argc, argv)) printf("%s %s %.3f %.3f %.3f\n", i < LINES ? "piece" : "growth", piece(i)->name, least[i][0], least[i][1], least[i][2]);
}

static void run_it(const Piece *p, unsigned long times) {
    unsigned long n = times * (p->inputs < 64 ? 64 : p->inputs);
    for (int w = 0; w < 3; w++) {
        char label[64];
        snprintf(label, sizeof label, "%s-%s", (const char *[]){"ours", "rust", "loop"}[w], p->name);
        CALLGRIND_ZERO_STATS;
        kept = p->side[w](n);
        CALLGRIND_DUMP_STATS_AT(label);
    }
    printf("%s %lu\n", p->name, n);
}

static void run_all(unsigned long times, int argc, char **argv) {
    CALLGRIND_DUMP_STATS_AT("inputs");
    for (int i = 0; i < LINES + GROWN; i++)
        if (wanted(i, argc, argv)) run_it(piece(i), times);
}

int main(int argc, char **argv) {
    half_year = step(6, MONTHS);
    make_fractions();
    make_steps();
    make_notes();
    make_streams();
    make_amounts();
    make_growth();
    if (argc == 2 && !strcmp(argv[1], "check"))
        check();
    else if (3 <= argc && !strcmp(argv[1], "time"))
        time_all(atol(argv[2]), argc, argv);
    else if (3 <= argc && !strcmp(argv[1], "run"))
        run_all(atol(argv[2]), argc, argv);
    else
        return 2;
    return 0;
}
