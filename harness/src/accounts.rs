//! Random accounts, and accounts damaged so that each row of the table refuses some of them.
use crate::fields::{self, Class, Record, Series, EQUITY, EXPIRED_FUTURE, TYPES};
use crate::layout::{class_at, counts, series_at, CLASS_WORDS, LONGEST_BATCH, OFFSET, PROJECTED, SERIES_WORDS, WHOLE_OFFSET};
use crate::reckoner::{is_option, is_security, reckon};
use crate::rng::Rng;

#[derive(Clone, Debug)]
pub struct Account {
    pub day: Vec<u32>,
    pub batch: Vec<u32>,
}

pub(crate) fn word(kind: u32, payload: u32) -> u32 {
    kind << 29 | payload
}

/// How large an account may get.
#[derive(Clone, Copy)]
pub struct Size {
    pub classes: u64,
    pub series: u64,
    pub records: u64,
}

pub const SMALL: Size = Size { classes: 4, series: 12, records: 16 };
pub const TYPICAL: Size = Size { classes: 8, series: 40, records: 40 };
pub const LARGEST: Size = Size { classes: 64, series: 256, records: 256 };

/// The size of account i of a run: of forty, one is the largest, six are typical and the rest small.
pub fn mixed(i: usize) -> Size {
    match i % 40 {
        0 => LARGEST,
        1..=6 => TYPICAL,
        _ => SMALL,
    }
}

pub(crate) fn price(rng: &mut Rng) -> u32 {
    let limit = rng.pick(&[0, 100, 50_000, 5_000_000, 500_000_000]);
    if rng.once_in(12) {
        limit as u32
    } else {
        rng.below(limit + 1) as u32
    }
}

/// A price near another, as theoretical and projected prices are.
pub(crate) fn near(rng: &mut Rng, base: u32) -> u32 {
    if rng.once_in(10) {
        return price(rng);
    }
    let span = u64::from(base) / 4 + 10;
    let moved = u64::from(base) + rng.below(2 * span + 1);
    moved.saturating_sub(span).min(500_000_000) as u32
}

/// Ten projected prices put in order: sorted, those of the downside at most the underlying price, those of the upside at least it.
pub fn in_order(underlying: u32, mut prices: [u32; 10]) -> [u32; 10] {
    prices.sort_unstable();
    let (downside, upside) = prices.split_at_mut(5);
    downside.iter_mut().for_each(|p| *p = underlying.min(*p));
    upside.iter_mut().for_each(|p| *p = underlying.max(*p));
    prices
}

/// Projected prices in order, five on each side of the underlying price; in half of the classes one of them becomes another or the
/// underlying price.
fn projected(rng: &mut Rng, underlying: u32) -> [u32; 10] {
    let mut prices = [0; 10];
    for (k, p) in prices.iter_mut().enumerate() {
        let distance = near(rng, underlying).abs_diff(underlying);
        *p = if k < 5 { underlying.saturating_sub(distance) } else { HIGHEST_PRICE.min(underlying + distance) };
    }
    match rng.below(4) {
        0 => prices[rng.below(10) as usize] = rng.pick(&prices),
        1 => prices[rng.below(10) as usize] = underlying,
        _ => {}
    }
    in_order(underlying, prices)
}

/// A short option adjustment: none, near the closing price as the theoretical prices are, or any price.
fn adjustment(rng: &mut Rng, closing: u32) -> u32 {
    match rng.below(4) {
        0 => 0,
        1 => price(rng),
        _ => near(rng, closing),
    }
}

/// Has a strike, or as an expired future a delivery price in its place.
fn has_strike(t: u32) -> bool {
    is_option(t) || t == EXPIRED_FUTURE
}

/// A series with this key and strike.
pub(crate) fn series_record(rng: &mut Rng, key: u32, strike: u32) -> Vec<u32> {
    let closing = price(rng);
    let mut out = vec![word(2, key), word(4, rng.pick(&[1, 1, 5, 100, 1000, 10_000])), word(3, strike), word(3, closing)];
    out.push(word(3, if is_option(key >> 19 & 15) { adjustment(rng, closing) } else { 0 }));
    out.extend((0..10).map(|_| word(3, near(rng, closing))));
    out
}

/// A day file: `classes` and `series` are exact counts (fewer series where keys clash).
pub fn day_file(rng: &mut Rng, classes: usize, series: usize) -> Vec<u32> {
    let mut numbers: Vec<u32> = (0..64).collect();
    while numbers.len() > classes {
        let i = rng.below(numbers.len() as u64) as usize;
        numbers.remove(i);
    }
    let groups = rng.within(1, 29);
    let whole = u64::from(WHOLE_OFFSET);
    let offsets: Vec<u64> = (0..29).map(|_| if rng.once_in(4) { whole * rng.below(2) } else { rng.below(whole + 1) }).collect();
    let mut class_words = Vec::new();
    let mut underlyings = Vec::new();
    for &n in &numbers {
        let group = if rng.once_in(12) { 28 } else { rng.below(groups) as u32 };
        let underlying = price(rng);
        underlyings.push(underlying);
        class_words.push(word(2, group | n << 5));
        class_words.push(word(3, underlying));
        for _ in 0..7 {
            class_words.push(word(3, price(rng)));
        }
        class_words.push(word(4, offsets[group as usize] as u32));
        class_words.extend(projected(rng, underlying).map(|p| word(3, p)));
    }
    let mut keys = Vec::new();
    if classes > 0 {
        for _ in 0..series {
            let n = rng.pick(&numbers);
            let t = rng.pick(&TYPES);
            let expiry = if is_security(t) { 0 } else { rng.pick(&[0, 3, 6, 9, 12, 300, 4095]) + rng.below(3) as u32 };
            let serial = if is_security(t) { rng.below(128) as u32 } else { 0 };
            let strike = if has_strike(t) { price(rng) } else { 0 };
            keys.push((serial | (expiry & 4095) << 7 | t << 19 | n << 23, strike));
        }
        keys.sort_unstable();
        keys.dedup();
    }
    let mut out = vec![word(1, classes as u32 | (keys.len() as u32) << 7)];
    out.extend(class_words);
    keys.iter().for_each(|&(key, strike)| out.extend(series_record(rng, key, strike)));
    out
}

/// Word i of series s.
fn series_word(day: &[u32], s: usize, i: usize) -> u32 {
    day[series_at(counts(day).0, s) + i]
}

pub fn type_of(day: &[u32], s: usize) -> u32 {
    series_word(day, s, 0) >> 19 & 15
}

/// The day file with every adjustment 0, where its length follows from its header.
pub fn without_adjustments(day: &[u32]) -> Vec<u32> {
    let mut out = day.to_vec();
    let (c, s) = counts(day);
    if day.len() == series_at(c, s) {
        (0..s).for_each(|s| out[series_at(c, s) + 4] = word(3, 0));
    }
    out
}

/// The day file with every offset rounded down to a whole percent, where its length follows from its header.
pub fn without_decimals(day: &[u32]) -> Vec<u32> {
    let mut out = day.to_vec();
    let (c, s) = counts(day);
    if day.len() == series_at(c, s) {
        (0..c).map(|c| class_at(c) + OFFSET).for_each(|at| out[at] -= (out[at] & 0x1fff_ffff) % 100);
    }
    out
}

pub fn amount_words(negative: bool, size: u64) -> [u32; 3] {
    [
        word(5, u32::from(negative) << 28 | (size >> 58) as u32),
        word(6, (size >> 29 & 0x1fff_ffff) as u32),
        word(6, (size & 0x1fff_ffff) as u32),
    ]
}

/// A record of series s that fits the day file.
pub(crate) fn record(rng: &mut Rng, day: &[u32], s: usize) -> [u32; 6] {
    let t = type_of(day, s);
    let multiplier = u64::from(series_word(day, s, 1) & 0x1fff_ffff);
    let exercised = is_option(t) && rng.once_in(3);
    let security = is_security(t);
    let fail = security && rng.once_in(3);
    let most = 10_000_000 / multiplier;
    let size = rng.pick(&[0, 3, most / 200 + 1, most / 200 + 1, most]);
    let (long, short) = match rng.below(4) {
        0 => (rng.below(size + 1), 0),
        1 => (0, rng.below(size + 1)),
        2 => (size, size),
        _ => (rng.below(size / 2 + 1), rng.below(size / 2 + 1)),
    };
    let dvp = if security && !rng.once_in(3) {
        let limit = rng.pick(&[10, 1_000_000, 90_000_000_000, 5_000_000_000_000_000]);
        if rng.once_in(8) {
            limit
        } else {
            rng.below(limit + 1)
        }
    } else {
        0
    };
    let key = s as u32 | u32::from(exercised) << 8 | u32::from(fail) << 9;
    let [high, middle, low] = amount_words(dvp > 0 && rng.once_in(2), dvp);
    [word(2, key), word(4, long as u32), word(4, short as u32), high, middle, low]
}

/// Records that fit the day file. Positions repeat; nets stay small, or grow to the limit of row 30.
pub fn batch(rng: &mut Rng, day: &[u32], records: usize) -> Vec<u32> {
    let series = counts(day).1 as u64;
    let records = if series == 0 { 0 } else { records };
    let mut out = vec![word(1, records as u32)];
    for _ in 0..records {
        let s = rng.below(series) as usize;
        out.extend(record(rng, day, s));
    }
    out
}

pub fn account(rng: &mut Rng, size: Size) -> Account {
    let least = u64::from(!rng.once_in(40));
    let classes = rng.within(least, size.classes) as usize;
    let series = rng.below(size.series + 1) as usize;
    let day = day_file(rng, classes, series);
    let records = rng.below(size.records + 1) as usize;
    let batch = batch(rng, &day, records);
    Account { day, batch }
}

/// An account with exactly these counts, where the keys allow it.
pub fn full_account(rng: &mut Rng, size: Size) -> Account {
    let day = day_file(rng, size.classes as usize, size.series as usize);
    let batch = batch(rng, &day, size.records as usize);
    Account { day, batch }
}

/// An accepted account with exactly these counts.
pub fn accepted(rng: &mut Rng, size: Size) -> Account {
    loop {
        let day = day_file(rng, size.classes as usize, size.series as usize);
        if counts(&day).1 as u64 != size.series {
            continue;
        }
        for _ in 0..100 {
            let batch = batch(rng, &day, size.records as usize);
            if reckon(&day, &batch).is_ok() {
                return Account { day, batch };
            }
        }
    }
}

/// The longest report: every group has a line in both books.
pub fn all_lines() -> Account {
    let class = |group| Class { group, number: 2 * group, equity_rate: 100 + group, offset: 301 * group, ..Class::default() };
    let series = |group: u32| Series {
        class_number: 2 * group,
        series_type: EQUITY,
        serial: group,
        multiplier: 1 + group,
        closing: 10_000 + group,
        theoretical: [9_000, 9_200, 9_400, 9_600, 9_800, 10_200, 10_400, 10_600, 10_800, 11_000],
        ..Series::default()
    };
    let record =
        |i: u32| Record { series: 28 - i / 2, fail: i % 2 == 1, long: i, short: 40, dvp: i64::from(i), ..Record::default() };
    let classes: Vec<Class> = (0..29).map(class).collect();
    let series: Vec<Series> = (0..29).map(series).collect();
    let records: Vec<Record> = (0..58).map(record).collect();
    fields::account(&classes, &series, &records)
}

const HIGHEST_PRICE: u32 = 500_000_000;

/// Up to 256 positions at the limits: prices and rates 0 or the highest, nets and DVP amounts as large as the rows allow.
pub fn extreme(rng: &mut Rng) -> Account {
    let classes = rng.pick(&[1, 2, 16, 64]);
    let groups = rng.pick(&[1, 2, 29]);
    let offset = rng.pick(&[0, 1, 8_275, WHOLE_OFFSET - 1, WHOLE_OFFSET]);
    let only = rng.below(12) as u32;
    let down = rng.once_in(3);
    let high = |rng: &mut Rng| HIGHEST_PRICE * u32::from(!rng.once_in(4));
    let class = |rng: &mut Rng, number: u32| {
        let underlying = high(rng);
        Class {
            group: number % groups,
            number,
            underlying,
            spot_rate: high(rng),
            non_spot_rate: high(rng),
            option_rate: high(rng),
            future_rate: high(rng),
            equity_rate: high(rng),
            warrant_rate: high(rng),
            rights_rate: high(rng),
            offset,
            projected: in_order(underlying, [0; 10].map(|_| high(rng))),
        }
    };
    let classes: Vec<Class> = (0..classes).map(|number| class(rng, number)).collect();
    let mut series: Vec<Series> = (0..256u32)
        .map(|i| {
            let series_type = if TYPES.contains(&only) { only } else { TYPES[i as usize / 2 % TYPES.len()] };
            Series {
                class_number: i % classes.len() as u32,
                series_type,
                expiry: if is_security(series_type) { 0 } else { i },
                serial: if is_security(series_type) { i / 2 } else { 0 },
                multiplier: rng.pick(&[1, 1, 1, 10_000]),
                strike: if has_strike(series_type) { high(rng) } else { 0 },
                closing: high(rng),
                adjustment: if is_option(series_type) { high(rng) } else { 0 },
                theoretical: [0; 10].map(|_| high(rng)),
            }
        })
        .collect();
    let place = |s: &Series| (s.class_number, s.series_type, s.expiry, s.serial);
    series.sort_by_key(place);
    series.dedup_by_key(|s| place(s));
    let mut records = Vec::new();
    for (i, s) in series.iter().enumerate() {
        let size = 10_000_000 / s.multiplier;
        let (long, short) = if down || rng.once_in(3) { (size, 0) } else { (0, size) };
        let dvp = if is_security(s.series_type) { 5_000_000_000_000_000 * if short > 0 { -1 } else { 1 } } else { 0 };
        let exercised = is_option(s.series_type) && rng.once_in(2);
        let fail = is_security(s.series_type) && groups > 1 && rng.once_in(2);
        records.push(Record { series: i as u32, exercised, fail, long, short, dvp });
    }
    fields::account(&classes, &series, &records)
}

/// 256 shares with these prices and this multiplier, of two classes, and these records.
pub fn shares(class: Class, share: Series, records: &[Record]) -> Account {
    let series = |i: u32| Series { class_number: i / 128, series_type: EQUITY, serial: i % 128, ..share };
    let series: Vec<Series> = (0..256).map(series).collect();
    fields::account(&[class, Class { number: 1, ..class }], &series, records)
}

/// The shares closing at this price, the highest at every point, a record each.
fn highest(class: Class, closing: u32, record: impl Fn(u32) -> Record) -> Account {
    let share = Series { multiplier: 1, closing, theoretical: [HIGHEST_PRICE; 10], ..Series::default() };
    let records: Vec<Record> = (0..256).map(|series| Record { series, ..record(series) }).collect();
    shares(class, share, &records)
}

/// 256 shares sold at the highest price, rate and DVP amount: a margin of 256 × 1.5·10^16.
pub fn utmost() -> Account {
    let class = Class { equity_rate: HIGHEST_PRICE, ..Class::default() };
    highest(class, HIGHEST_PRICE, |_| Record { short: 10_000_000, dvp: -5_000_000_000_000_000, ..Record::default() })
}

/// 128 shares sold and 128 of the other class of the group bought: at each point a debit and, before this offset, a credit of 6.4·10^17.
pub fn opposed(offset: u32) -> Account {
    let record = |i| {
        let (long, short) = if i < 128 { (0, 10_000_000) } else { (10_000_000, 0) };
        Record { long, short, ..Record::default() }
    };
    highest(Class { offset, ..Class::default() }, 0, record)
}

/// Damages an account in one of many ways; each row of the table is reached by some of them.
pub fn damage(rng: &mut Rng, a: &mut Account) {
    if !whole(a) {
        flip(rng, &mut a.day);
        flip(rng, &mut a.batch);
        return;
    }
    let (c, s) = counts(&a.day);
    let p = (a.batch.len() - 1) / 6;
    let class = |rng: &mut Rng| class_at(rng.below(c.max(1) as u64) as usize);
    let series = |rng: &mut Rng| series_at(c, rng.below(s.max(1) as u64) as usize);
    let record = |rng: &mut Rng| 1 + 6 * rng.below(p.max(1) as u64) as usize;
    match rng.below(34) {
        // any word, any bit
        0 => flip(rng, &mut a.day),
        1 => flip(rng, &mut a.batch),
        // headers and lengths
        2 => a.day[0] = rng.pick(&[0, 1 << 29 | 65, 1 << 29 | 257 << 7, 1 << 29 | 1 << 16, 2 << 29, u32::MAX]),
        3 => a.batch[0] = rng.pick(&[0, 1 << 29 | 257, 1 << 29 | 1 << 28, 4 << 29, u32::MAX]),
        4 => cut(rng, &mut a.day),
        5 => cut(rng, &mut a.batch),
        6 => a.day.push(rng.next() as u32),
        7 => a.batch.push(rng.next() as u32),
        // classes
        8 if c > 0 => a.day[class(rng)] |= rng.pick(&[1 << 11, 1 << 28, 29, 31]),
        9 if c > 0 => a.day[class(rng) + OFFSET] = word(4, rng.pick(&[WHOLE_OFFSET, WHOLE_OFFSET + 1, 0, 536_870_911])),
        10 if c > 1 => {
            let at = class_at(rng.within(1, c as u64 - 1) as usize);
            a.day[at] = a.day[at] & !(63 << 5) | a.day[at - CLASS_WORDS] & 63 << 5;
        }
        11 if c > 0 => a.day[class(rng) + rng.within(1, 8) as usize] = word(3, rng.pick(&[500_000_000, 500_000_001])),
        // series
        12 if s > 0 => a.day[series(rng)] ^= 1 << rng.within(23, 28),
        13 if s > 1 => {
            let at = series_at(c, rng.within(1, s as u64 - 1) as usize);
            a.day.copy_within(at - SERIES_WORDS..at, at);
        }
        14 if s > 0 => a.day[series(rng)] ^= 1 << rng.within(19, 22),
        15 if s > 0 => a.day[series(rng) + 2] = word(3, rng.below(3) as u32),
        16 if s > 0 => a.day[series(rng)] ^= 1 << rng.below(19),
        17 if s > 0 => a.day[series(rng) + 1] = word(4, rng.pick(&[0, 1, 10_000, 10_001])),
        18 if s > 0 => {
            let at = series_at(c, s - 1);
            a.day[at] = word(2, (a.day[at] & 0x7f_ffff) & !(15 << 19) | rng.pick(&[0, 7, 8, 9, 15]) << 19 | a.day[at] & 63 << 23);
        }
        // an adjustment: on an option any price, on another series refused
        30 if s > 0 => a.day[series(rng) + 4] = word(3, rng.pick(&[0, 1, 500_000_000, 500_000_001])),
        // records
        19 if p > 0 => a.batch[record(rng)] ^= 1 << rng.within(0, 7),
        20 if p > 0 => a.batch[record(rng)] ^= 1 << 8,
        21 if p > 0 => a.batch[record(rng)] ^= 1 << 9,
        way @ 22..=26 if p > 0 => damage_word(rng, &mut a.batch, way - 22),
        27 if c + s > 0 => {
            let (at, kind) = (1 + rng.below(a.day.len() as u64 - 1) as usize, rng.below(8) as u32);
            a.day[at] = a.day[at] & 0x1fff_ffff | kind << 29;
        }
        // a hundredth of a percent, which alone makes a group's offsets differ
        31 if c > 0 => a.day[class(rng) + OFFSET] ^= 1,
        // projected prices and the underlying price
        32 | 33 if c > 0 => out_of_order(rng, &mut a.day, 1),
        // empty files
        28 if rng.once_in(6) => a.day.clear(),
        29 if rng.once_in(6) => a.batch.clear(),
        _ => flip(rng, &mut a.batch),
    }
}

/// The eleven places of a class at which row 18 compares two words, of which the first may not be above the second: each projected price and
/// the next, downside 1 and the underlying price, that and upside 1.
pub const ORDER: [(usize, usize); 11] =
    [(10, 11), (11, 12), (12, 13), (13, 14), (14, 15), (15, 16), (16, 17), (17, 18), (18, 19), (14, 1), (1, 15)];

/// Damages a class's prices at one of these places: the first word a unit above the second, both exchanged, or both equal, which offends only
/// where downside 1 becomes upside 1. Or exchanges a downside price and the upside price of its number.
fn damage_order(rng: &mut Rng, class: &mut [u32]) {
    let (first, second) = rng.pick(&ORDER);
    match rng.below(4) {
        0 => class[first] = class[second].wrapping_add(1),
        1 => class.swap(first, second),
        2 => class[first] = class[second],
        _ => {
            let k = rng.below(5) as usize;
            class.swap(PROJECTED + k, PROJECTED + 9 - k);
        }
    }
}

/// The same in some class of a day file of its own length, so many times.
pub fn out_of_order(rng: &mut Rng, day: &mut [u32], times: usize) {
    let classes = counts(day).0 as u64;
    if classes > 0 {
        for _ in 0..times {
            let at = class_at(rng.below(classes) as usize);
            damage_order(rng, &mut day[at..at + CLASS_WORDS]);
        }
    }
}

/// The ways of `damage_word`.
pub const WORD_WAYS: u64 = 5;

/// Damages a word of some record, or an amount, in one of the ways that rows 22, 27 and 28 look for; some stay within the limits.
pub fn damage_word(rng: &mut Rng, batch: &mut [u32], way: u64) {
    let record = 1 + 6 * rng.below((batch.len() as u64 - 1) / 6) as usize;
    match way {
        0 => batch[record] |= 1 << rng.within(10, 28),
        1 => batch[record + rng.within(1, 2) as usize] = word(4, rng.pick(&[10_000_000, 10_000_001])),
        2 => {
            let (negative, size) =
                rng.pick(&[(true, 0), (false, 5_000_000_000_000_001), (true, 5_000_000_000_000_000), (false, 7)]);
            batch[record + 3..record + 6].copy_from_slice(&amount_words(negative, size));
        }
        3 => batch[record + 3] |= 1 << rng.within(5, 27),
        _ => {
            let (at, kind) = (record + rng.below(6) as usize, rng.below(8) as u32);
            batch[at] = batch[at] & 0x1fff_ffff | kind << 29;
        }
    }
}

/// Both lengths follow from their headers.
fn whole(a: &Account) -> bool {
    let (c, s) = counts(&a.day);
    let p = a.batch.first().map_or(0, |header| u64::from(header & 0x1fff_ffff));
    a.day.len() == series_at(c, s) && a.batch.len() as u64 == 1 + 6 * p
}

/// The length of a memory for a batch, of which so many words are needed: mostly enough, else about these or any other.
pub(crate) fn room_about(rng: &mut Rng, needed: usize) -> usize {
    match rng.below(12) {
        0 => needed,
        1 => needed - 1,
        2 => needed + 6,
        3 => rng.below(needed as u64 + 9) as usize,
        _ => LONGEST_BATCH,
    }
}

pub(crate) fn flip(rng: &mut Rng, words: &mut [u32]) {
    if !words.is_empty() {
        let at = rng.below(words.len() as u64) as usize;
        words[at] ^= 1 << rng.below(32);
    }
}

pub(crate) fn cut(rng: &mut Rng, words: &mut Vec<u32>) {
    let keep = rng.below(words.len() as u64 + 1) as usize;
    words.truncate(keep);
}
