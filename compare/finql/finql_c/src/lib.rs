//! finql behind C names, for bench/: it is timed beside the register in one process. A date comes as year, month and day and
//! is made and checked, as every caller of finql has to; one that goes back is handed over as `time` holds it, so that
//! no conversion is charged. Handles (period, calendar, rate, bond, flows) are made once, outside the timed part. An error is a NaN or i32::MIN.
use cal_calc::{Calendar, CalendarError, CalendarProvider};
use finql::bond::Bond;
use finql::datatypes::cash_flow::{round2digits, CashFlow};
use finql::datatypes::currency::Currency;
use finql::day_adjust::DayAdjust;
use finql::day_count_conv::DayCountConv;
use finql::fixed_income::{get_cash_flows_after, FixedIncome};
use finql::rates::{Compounding, Discounter, FlatRate};
use finql::time_period::TimePeriod;
use std::fmt::Write;
use std::str::FromStr;
use time::{Date, Month};

/// The serial day of document 01, less the Julian day of `time`.
const EPOCH: i32 = 1_721_425;

/// The conventions and adjustments in the order of their packed codes.
const CONVENTIONS: [DayCountConv; 6] = [
    DayCountConv::Act365,
    DayCountConv::Act360,
    DayCountConv::Act365l,
    DayCountConv::D30_360,
    DayCountConv::D30E360,
    DayCountConv::ActActICMA,
];

fn date(y: i32, m: u8, d: u8) -> Option<Date> {
    Date::from_calendar_date(y, Month::try_from(m).ok()?, d).ok()
}

/// A date as `time` holds it: its year, and its day within the year in the last nine bits.
fn held(d: Date) -> i32 {
    d.year() << 9 | d.ordinal() as i32
}

unsafe fn text<'a>(p: *const u8, n: usize) -> &'a str {
    std::str::from_utf8(std::slice::from_raw_parts(p, n)).unwrap()
}

fn lasting<T>(x: T) -> *mut T {
    Box::into_raw(Box::new(x))
}

/// The serial day of a date that `held` made; outside the timed part.
#[no_mangle]
pub extern "C" fn finql_serial(held: i32) -> i32 {
    Date::from_ordinal_date(held >> 9, (held & 511) as u16).map_or(i32::MIN, |d| d.to_julian_day() - EPOCH)
}

#[no_mangle]
pub unsafe extern "C" fn finql_period(p: *const u8, n: usize) -> *mut TimePeriod {
    lasting(TimePeriod::from_str(text(p, n)).unwrap())
}

pub struct One(Calendar);

impl CalendarProvider for One {
    fn get_calendar(&self, _: &str) -> Result<&Calendar, CalendarError> {
        Ok(&self.0)
    }
}

/// A calendar of serial days (of the stand-in crate: its speed is not the real one's).
#[no_mangle]
pub unsafe extern "C" fn finql_calendar(p: *const u32, n: usize) -> *mut One {
    let days = std::slice::from_raw_parts(p, n);
    lasting(One(Calendar::from_days(days.iter().map(|s| Date::from_julian_day(*s as i32 + EPOCH).unwrap()))))
}

/// The bond from JSON, as a user of the crate makes it.
#[no_mangle]
pub unsafe extern "C" fn finql_bond(p: *const u8, n: usize) -> *mut Bond {
    lasting(serde_json::from_str(text(p, n)).unwrap())
}

#[no_mangle]
pub extern "C" fn finql_rate(rate: f64, convention: u32) -> *mut FlatRate {
    let eur = Currency::from_str("EUR").unwrap();
    lasting(FlatRate::new(rate, CONVENTIONS[convention as usize], Compounding::Simple, eur))
}

/// A stream of flows in EUR.
#[no_mangle]
pub unsafe extern "C" fn finql_flows(days: *const u32, amounts: *const f64, n: usize) -> *mut Vec<CashFlow> {
    let eur = Currency::from_str("EUR").unwrap();
    let flow = |i| CashFlow::new(*amounts.add(i), eur, Date::from_julian_day(*days.add(i) as i32 + EPOCH).unwrap());
    lasting((0..n).map(flow).collect())
}

#[no_mangle]
pub extern "C" fn finql_fraction(convention: u32, y1: i32, m1: u8, d1: u8, y2: i32, m2: u8, d2: u8) -> f64 {
    match (date(y1, m1, d1), date(y2, m2, d2)) {
        (Some(a), Some(b)) => CONVENTIONS[convention as usize].year_fraction(a, b, None, None).unwrap_or(f64::NAN),
        _ => f64::NAN,
    }
}

#[no_mangle]
pub unsafe extern "C" fn finql_icma(p: *const TimePeriod, y1: i32, m1: u8, d1: u8, y2: i32, m2: u8, d2: u8, y3: i32, m3: u8, d3: u8) -> f64 {
    match (date(y1, m1, d1), date(y2, m2, d2), date(y3, m3, d3)) {
        (Some(a), Some(b), Some(r)) => DayCountConv::ActActICMA.year_fraction(a, b, Some(r), Some(*p)).unwrap_or(f64::NAN),
        _ => f64::NAN,
    }
}

#[no_mangle]
pub unsafe extern "C" fn finql_add(p: *const TimePeriod, y: i32, m: u8, d: u8) -> i32 {
    date(y, m, d).and_then(|a| (*p).add_to(a, None).ok()).map_or(i32::MIN, held)
}

#[no_mangle]
pub unsafe extern "C" fn finql_add_with(p: *const TimePeriod, y: i32, m: u8, d: u8, cal: *const One) -> i32 {
    date(y, m, d).and_then(|a| (*p).add_to(a, Some(&(*cal).0)).ok()).map_or(i32::MIN, held)
}

#[no_mangle]
pub unsafe extern "C" fn finql_modified(y: i32, m: u8, d: u8, cal: *const One) -> i32 {
    date(y, m, d).and_then(|a| DayAdjust::Modified.adjust_date(a, &(*cal).0).ok()).map_or(i32::MIN, held)
}

/// The number of flows; their dates and amounts go to the two arrays, as far as they reach.
#[no_mangle]
pub unsafe extern "C" fn finql_rollout(b: *const Bond, position: f64, cal: *const One, dates: *mut i32, amounts: *mut f64, room: usize) -> i32 {
    match (*b).rollout_cash_flows(position, &*cal) {
        Ok(flows) => {
            for (i, flow) in flows.iter().take(room).enumerate() {
                *dates.add(i) = held(flow.date);
                *amounts.add(i) = flow.amount.amount;
            }
            flows.len() as i32
        }
        Err(_) => i32::MIN,
    }
}

#[no_mangle]
pub unsafe extern "C" fn finql_accrued(b: *const Bond, y: i32, m: u8, d: u8) -> f64 {
    date(y, m, d).and_then(|a| (*b).accrued_interest(a).ok()).unwrap_or(f64::NAN)
}

#[no_mangle]
pub extern "C" fn finql_round2(x: f64, digits: i32) -> f64 {
    round2digits(x, digits)
}

#[no_mangle]
pub unsafe extern "C" fn finql_simple(rate: *const FlatRate, flows: *const Vec<CashFlow>, y: i32, m: u8, d: u8) -> f64 {
    date(y, m, d).and_then(|a| (*rate).discount_cash_flow_stream(&*flows, a).ok()).map_or(f64::NAN, |x| x.amount)
}

/// How many flows are later; where `dates` is given, they go to the two arrays.
#[no_mangle]
pub unsafe extern "C" fn finql_after(flows: *const Vec<CashFlow>, y: i32, m: u8, d: u8, dates: *mut i32, amounts: *mut f64) -> i32 {
    let Some(a) = date(y, m, d) else { return i32::MIN };
    let later = get_cash_flows_after(&*flows, a);
    if !dates.is_null() {
        for (i, flow) in later.iter().enumerate() {
            *dates.add(i) = held(flow.date);
            *amounts.add(i) = flow.amount.amount;
        }
    }
    later.len() as i32
}

/// The length of the listing: each flow as `Display` writes it, and a line feed. Where `out` is given, the text goes there.
#[no_mangle]
pub unsafe extern "C" fn finql_listing(b: *const Bond, cal: *const One, out: *mut u8, room: usize) -> i32 {
    let Ok(flows) = (*b).rollout_cash_flows(1.0, &*cal) else { return i32::MIN };
    let mut s = String::new();
    for flow in &flows {
        let _ = writeln!(s, "{flow}");
    }
    if !out.is_null() {
        std::ptr::copy_nonoverlapping(s.as_ptr(), out, s.len().min(room));
    }
    s.len() as i32
}
