//! Line protocol over finql bond modules: one query a line, one answer a line. See compare/README.md.
use std::io::{BufRead, BufWriter, Read, Write};
use std::panic::{catch_unwind, AssertUnwindSafe};
use std::process::{Command, Stdio};
use std::str::FromStr;
use std::time::{Duration, Instant};

use cal_calc::{Calendar, CalendarError, CalendarProvider};
use finql::bond::Bond;
use finql::coupon_date::CouponDate;
use finql::datatypes::cash_flow::{round2digits, CashFlow};
use finql::datatypes::currency::Currency;
use finql::day_adjust::DayAdjust;
use finql::day_count_conv::DayCountConv;
use finql::fixed_income::{get_cash_flows_after, FixedIncome};
use finql::rates::{Compounding, Discounter, FlatRate};
use finql::time_period::TimePeriod;
use serde_json::{json, Number, Value};
use time::{Date, Month};

type Answer = Result<String, String>;

fn bad(what: &str) -> String {
    format!("bad {what}")
}

fn err(e: impl std::fmt::Debug) -> String {
    format!("err {}", format!("{e:?}").replace(' ', ""))
}

/// `Y-M-D` (the year may be signed), or `#N` for the serial day N of document 01.
fn date(s: &str) -> Result<Date, String> {
    if let Some(n) = s.strip_prefix('#') {
        let n: i32 = n.parse().map_err(|_| bad("date"))?;
        return Date::from_julian_day(n + 1_721_425).map_err(|_| bad("date"));
    }
    let (rest, d) = s.rsplit_once('-').ok_or_else(|| bad("date"))?;
    let (y, m) = rest.rsplit_once('-').ok_or_else(|| bad("date"))?;
    let m: u8 = m.parse().map_err(|_| bad("date"))?;
    Date::from_calendar_date(
        y.parse().map_err(|_| bad("date"))?,
        Month::try_from(m).map_err(|_| bad("date"))?,
        d.parse().map_err(|_| bad("date"))?,
    )
    .map_err(|_| bad("date"))
}

/// Sixteen hex digits are the bits of an f64; anything else is read as a decimal.
fn num(s: &str) -> Result<f64, String> {
    if s.len() == 16 && s.bytes().all(|b| b.is_ascii_hexdigit()) {
        return Ok(f64::from_bits(u64::from_str_radix(s, 16).unwrap()));
    }
    s.parse().map_err(|_| bad("number"))
}

fn bits(x: f64) -> String {
    format!("{:016x}", x.to_bits())
}

/// `-` no calendar at all; `none` a calendar without holidays; else days separated by commas.
fn cal(s: &str) -> Result<Option<Calendar>, String> {
    match s {
        "-" => Ok(None),
        "none" => Ok(Some(Calendar::from_days([]))),
        _ => Ok(Some(Calendar::from_days(
            s.split(',').map(date).collect::<Result<Vec<_>, _>>()?,
        ))),
    }
}

fn table(s: &str) -> Result<Calendar, String> {
    cal(s)?.ok_or_else(|| bad("table"))
}

struct One(Calendar);

impl CalendarProvider for One {
    fn get_calendar(&self, _: &str) -> Result<&Calendar, CalendarError> {
        Ok(&self.0)
    }
}

fn conv_name(s: &str) -> Result<&'static str, String> {
    Ok(match s {
        "act365" => "act/365",
        "act360" => "act/360",
        "act365l" => "act/365l",
        "30360" => "30/360",
        "30e360" => "30E/360",
        "icma" => "icma",
        _ => return Err(bad("convention")),
    })
}

fn conv(s: &str) -> Result<DayCountConv, String> {
    serde_json::from_value(Value::from(conv_name(s)?)).map_err(|_| bad("convention"))
}

fn rule_name(s: &str) -> Result<&str, String> {
    match s {
        "none" | "following" | "preceding" | "modified" => Ok(s),
        _ => Err(bad("rule")),
    }
}

fn period(s: &str) -> Result<TimePeriod, String> {
    TimePeriod::from_str(s).map_err(err)
}

fn currency(s: &str) -> Result<Currency, String> {
    Currency::from_str(s).map_err(err)
}

fn unhex(s: &str) -> Result<String, String> {
    if s.len() % 2 != 0 || !s.is_ascii() {
        return Err(bad("hex"));
    }
    let bytes = (0..s.len() / 2)
        .map(|i| u8::from_str_radix(&s[2 * i..2 * i + 2], 16).map_err(|_| bad("hex")))
        .collect::<Result<Vec<u8>, _>>()?;
    String::from_utf8(bytes).map_err(|_| bad("utf8"))
}

/// ISSUE MATURITY COUPON PERIOD CONV RULE DENOM RATE CCY, by the public way: Deserialize. The rate
/// goes over as a serde_json Number, so its bits are kept (a NaN or infinity cannot be passed).
fn bond(w: &[&str]) -> Result<Bond, String> {
    CouponDate::from_str(w[2]).map_err(err)?;
    period(w[3])?;
    currency(w[8])?;
    let denomination: u32 = w[6].parse().map_err(|_| bad("denomination"))?;
    let rate = Number::from_f64(num(w[7])?).ok_or_else(|| bad("rate"))?;
    let issue = serde_json::to_value(date(w[0])?).map_err(|_| bad("date"))?;
    let maturity = serde_json::to_value(date(w[1])?).map_err(|_| bad("date"))?;
    let v = json!({
        "isin": null, "security_id": null, "prospect_url": null, "issuer": null,
        "bond_type": "bond", "currency": w[8],
        "coupon": {
            "coupon_type": "fixed", "rate": Value::Number(rate), "coupon_date": w[2],
            "period": w[3], "day_count_convention": conv_name(w[4])?,
        },
        "business_day_rule": rule_name(w[5])?, "calendar": "x",
        "issue_date": issue, "maturity": maturity,
        "denomination": denomination, "volume": null,
    });
    serde_json::from_value(v).map_err(|e| format!("err Deserialize:{}", e.to_string().replace(' ', "_")))
}

/// DATE:CCY:AMOUNT, separated by commas; `none` for no flow.
fn flows(s: &str) -> Result<Vec<CashFlow>, String> {
    if s == "none" {
        return Ok(vec![]);
    }
    s.split(',')
        .map(|f| {
            let w: Vec<&str> = f.split(':').collect();
            if w.len() != 3 {
                return Err(bad("flow"));
            }
            Ok(CashFlow::new(num(w[2])?, currency(w[1])?, date(w[0])?))
        })
        .collect()
}

fn list(cfs: &[CashFlow]) -> String {
    let mut s = format!("ok {}", cfs.len());
    for cf in cfs {
        s += &format!(" {}:{}:{}", cf.date, cf.amount.currency, bits(cf.amount.amount));
    }
    s
}

fn flat(w: &[&str]) -> Result<FlatRate, String> {
    Ok(FlatRate::new(num(w[0])?, conv(w[1])?, Compounding::Simple, currency(w[2])?))
}

fn answer(line: &str) -> Answer {
    let (verb, rest) = line.split_once(' ').unwrap_or((line, ""));
    // these take the rest of the line, blanks and all
    match verb {
        "period" | "periodhex" => {
            let t = if verb == "period" { rest.to_string() } else { unhex(rest)? };
            return Ok(format!("ok {}", period(&t)?));
        }
        "coupon" | "couponhex" => {
            let t = if verb == "coupon" { rest.to_string() } else { unhex(rest)? };
            let c = CouponDate::from_str(&t).map_err(err)?;
            return Ok(format!("ok {} {}", c.day(), c.month()));
        }
        _ => {}
    }
    let w: Vec<&str> = rest.split_ascii_whitespace().collect();
    let want = |n: usize| if w.len() == n { Ok(()) } else { Err(bad("count of words")) };
    Ok(match verb {
        // yf CONV START END ROLL|- PERIOD|-
        "yf" => {
            want(5)?;
            let roll = if w[3] == "-" { None } else { Some(date(w[3])?) };
            let per = if w[4] == "-" { None } else { Some(period(w[4])?) };
            bits(conv(w[0])?.year_fraction(date(w[1])?, date(w[2])?, roll, per).map_err(err)?)
        }
        // add|sub DATE PERIOD TABLE
        "add" => {
            want(3)?;
            let c = cal(w[2])?;
            format!("{}", period(w[1])?.add_to(date(w[0])?, c.as_ref()).map_err(err)?)
        }
        "sub" => {
            want(3)?;
            let c = cal(w[2])?;
            format!("{}", period(w[1])?.sub_from(date(w[0])?, c.as_ref()).map_err(err)?)
        }
        "freq" => {
            want(1)?;
            format!("{}", period(w[0])?.frequency().map_err(err)?)
        }
        // adjust RULE DATE TABLE
        "adjust" => {
            want(3)?;
            let r: DayAdjust = serde_json::from_value(Value::from(rule_name(w[0])?)).map_err(|_| bad("rule"))?;
            format!("{}", r.adjust_date(date(w[1])?, &table(w[2])?).map_err(err)?)
        }
        // rollout ISSUE MATURITY COUPON PERIOD CONV RULE DENOM RATE CCY POSITION TABLE
        "rollout" => {
            want(11)?;
            let b = bond(&w)?;
            list(&b.rollout_cash_flows(num(w[9])?, &One(table(w[10])?)).map_err(err)?)
        }
        // listing: the same words; each flow as Display writes it, joined by |
        "listing" => {
            want(11)?;
            let b = bond(&w)?;
            let cfs = b.rollout_cash_flows(num(w[9])?, &One(table(w[10])?)).map_err(err)?;
            cfs.iter().map(|c| c.to_string()).collect::<Vec<_>>().join("|")
        }
        // accrued ISSUE MATURITY COUPON PERIOD CONV RULE DENOM RATE CCY TODAY
        "accrued" => {
            want(10)?;
            bits(bond(&w)?.accrued_interest(date(w[9])?).map_err(err)?)
        }
        // round2 X DIGITS
        "round2" => {
            want(2)?;
            bits(round2digits(num(w[0])?, w[1].parse().map_err(|_| bad("digits"))?))
        }
        // fuzzy FLOW FLOW TOL
        "fuzzy" => {
            want(3)?;
            let (a, b) = (flows(w[0])?, flows(w[1])?);
            if a.len() != 1 || b.len() != 1 {
                return Err(bad("flow"));
            }
            if a[0].fuzzy_cash_flows_cmp_eq(&b[0], num(w[2])?) { "yes" } else { "no" }.to_string()
        }
        // show FLOW; showdate DATE; showfix X
        "show" => {
            want(1)?;
            let a = flows(w[0])?;
            if a.len() != 1 {
                return Err(bad("flow"));
            }
            format!("{}", a[0])
        }
        "showdate" => {
            want(1)?;
            format!("{}", date(w[0])?)
        }
        "showfix" => {
            want(1)?;
            format!("{:16.4}", num(w[0])?)
        }
        // simple RATE CONV CCY TODAY FLOWS; simple1 the same with one flow, not summed
        "simple" => {
            want(5)?;
            bits(flat(&w)?.discount_cash_flow_stream(&flows(w[4])?, date(w[3])?).map_err(err)?.amount)
        }
        "simple1" => {
            want(5)?;
            let a = flows(w[4])?;
            if a.len() != 1 {
                return Err(bad("flow"));
            }
            bits(flat(&w)?.discount_cash_flow(&a[0], date(w[3])?).map_err(err)?.amount)
        }
        // after DATE FLOWS
        "after" => {
            want(2)?;
            list(&get_cash_flows_after(&flows(w[1])?, date(w[0])?))
        }
        // what `time` itself says: serial DATE; weekday DATE (Monday 1 to Sunday 7); days START END
        "serial" => {
            want(1)?;
            format!("{}", date(w[0])?.to_julian_day() - 1_721_425)
        }
        "weekday" => {
            want(1)?;
            format!("{}", date(w[0])?.weekday().number_from_monday())
        }
        "days" => {
            want(2)?;
            format!("{}", (date(w[1])? - date(w[0])?).whole_days())
        }
        _ => return Err(bad("verb")),
    })
}

/// May finql roll for ever on this query? Only where a rollout or an accrual has a period of
/// number 0: every other step moves, and leaves the range in the end (icma refuses 0 by itself).
/// Such a query is asked of a second process, with a time limit.
fn may_hang(line: &str) -> bool {
    let w: Vec<&str> = line.split_ascii_whitespace().collect();
    let p = match w.first().copied() {
        Some("rollout") | Some("listing") | Some("accrued") => w.get(4),
        _ => None,
    };
    match p {
        Some(p) if p.len() > 1 && p.is_char_boundary(p.len() - 1) => p[..p.len() - 1].parse::<i32>() == Ok(0),
        _ => false,
    }
}

fn apart(line: &str) -> String {
    let exe = std::env::current_exe().unwrap();
    let mut child = Command::new(exe)
        .args(["--one", line])
        .stdin(Stdio::null())
        .stdout(Stdio::piped())
        .stderr(Stdio::null())
        .spawn()
        .unwrap();
    let from = Instant::now();
    loop {
        if let Some(status) = child.try_wait().unwrap() {
            let mut s = String::new();
            child.stdout.take().unwrap().read_to_string(&mut s).unwrap();
            return if status.success() { s.trim_end().to_string() } else { "died".to_string() };
        }
        if from.elapsed() > Duration::from_millis(300) {
            let _ = child.kill();
            let _ = child.wait();
            return "hang".to_string();
        }
        std::thread::sleep(Duration::from_millis(1));
    }
}

fn guarded(line: &str) -> String {
    match catch_unwind(AssertUnwindSafe(|| answer(line))) {
        Ok(Ok(s)) | Ok(Err(s)) => s,
        Err(_) => "panic".to_string(),
    }
}

fn main() {
    std::panic::set_hook(Box::new(|_| {}));
    let args: Vec<String> = std::env::args().collect();
    if args.len() == 3 && args[1] == "--one" {
        println!("{}", guarded(&args[2]));
        return;
    }
    // --flush: each answer at once, for a partner that waits for it
    let flush = args.iter().any(|a| a == "--flush");
    let stdin = std::io::stdin();
    let mut out = BufWriter::new(std::io::stdout());
    let mut line = Vec::new();
    let mut input = stdin.lock();
    loop {
        line.clear();
        if input.read_until(b'\n', &mut line).unwrap() == 0 {
            break;
        }
        if line.last() == Some(&b'\n') {
            line.pop();
        }
        let text = String::from_utf8_lossy(&line);
        // an empty line or a comment is answered by itself, so that lines stay in step
        let a = if text.is_empty() || text.starts_with('#') {
            text.to_string()
        } else if may_hang(&text) {
            apart(&text)
        } else {
            guarded(&text)
        };
        writeln!(out, "{a}").unwrap();
        if flush {
            out.flush().unwrap();
        }
    }
    out.flush().unwrap();
}
