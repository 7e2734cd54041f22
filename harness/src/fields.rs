//! Accounts made from named fields. Prices, rates and amounts are in ten-thousandths of a euro.
use crate::accounts::{amount_words, Account};

fn word(kind: u32, payload: u32) -> u32 {
    kind << 29 | payload
}

pub const FUTURE: u32 = 1;
pub const CALL: u32 = 2;
pub const PUT: u32 = 3;
pub const EQUITY: u32 = 4;
pub const EXPIRED_FUTURE: u32 = 8;

/// All types of a series: futures, calls, puts, equities, warrants, rights, expired futures.
pub const TYPES: [u32; 7] = [FUTURE, CALL, PUT, EQUITY, 5, 6, EXPIRED_FUTURE];

#[derive(Clone, Copy, Default)]
pub struct Class {
    pub group: u32,
    pub number: u32,
    pub underlying: u32,
    pub spot_rate: u32,
    pub non_spot_rate: u32,
    pub option_rate: u32,
    pub future_rate: u32,
    pub equity_rate: u32,
    pub warrant_rate: u32,
    pub rights_rate: u32,
    /// In hundredths of a percent.
    pub offset: u32,
    pub projected: [u32; 10],
}

#[derive(Clone, Copy, Default)]
pub struct Series {
    pub class_number: u32,
    pub series_type: u32,
    pub expiry: u32,
    pub serial: u32,
    pub multiplier: u32,
    pub strike: u32,
    pub closing: u32,
    pub adjustment: u32,
    pub theoretical: [u32; 10],
}

#[derive(Clone, Copy, Default)]
pub struct Record {
    pub series: u32,
    pub exercised: bool,
    pub fail: bool,
    pub long: u32,
    pub short: u32,
    pub dvp: i64,
}

/// Months since January 2000.
pub fn expiry(year: u32, month: u32) -> u32 {
    12 * (year - 2000) + month - 1
}

fn class_words(c: &Class) -> Vec<u32> {
    let rates =
        [c.underlying, c.spot_rate, c.non_spot_rate, c.option_rate, c.future_rate, c.equity_rate, c.warrant_rate, c.rights_rate];
    let mut out = vec![word(2, c.group | c.number << 5)];
    out.extend(rates.map(|p| word(3, p)));
    out.push(word(4, c.offset));
    out.extend(c.projected.map(|p| word(3, p)));
    out
}

fn series_words(s: &Series) -> Vec<u32> {
    let key = s.serial | s.expiry << 7 | s.series_type << 19 | s.class_number << 23;
    let mut out = vec![word(2, key), word(4, s.multiplier), word(3, s.strike), word(3, s.closing), word(3, s.adjustment)];
    out.extend(s.theoretical.map(|p| word(3, p)));
    out
}

pub fn record_words(r: &Record) -> Vec<u32> {
    let key = r.series | u32::from(r.exercised) << 8 | u32::from(r.fail) << 9;
    let mut out = vec![word(2, key), word(4, r.long), word(4, r.short)];
    out.extend(amount_words(r.dvp < 0, r.dvp.unsigned_abs()));
    out
}

pub fn account(classes: &[Class], series: &[Series], records: &[Record]) -> Account {
    let mut day = vec![word(1, classes.len() as u32 | (series.len() as u32) << 7)];
    classes.iter().for_each(|c| day.extend(class_words(c)));
    series.iter().for_each(|s| day.extend(series_words(s)));
    let mut batch = vec![word(1, records.len() as u32)];
    records.iter().for_each(|r| batch.extend(record_words(r)));
    Account { day, batch }
}
