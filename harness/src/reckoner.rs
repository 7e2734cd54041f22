//! The scope as plain Rust: records and maps, 128-bit amounts, nothing shared with the unit.
use crate::layout::{
    class_at, series_at, CLASS_WORDS, LONGEST_BATCH, LONGEST_DAY, MOST_RECORDS, OFFSET, SERIES_WORDS, WHOLE_OFFSET,
};
use std::cmp::Reverse;
use std::collections::BTreeMap;

/// A refusal: its number and place.
#[derive(Clone, Copy, Debug, PartialEq, Eq)]
pub struct Refusal {
    pub number: u32,
    pub place: usize,
}

pub(crate) fn refuse<T>(number: u32, place: usize) -> Result<T, Refusal> {
    Err(Refusal { number, place })
}

fn kind(w: u32) -> u32 {
    w >> 29
}

fn payload(w: u32) -> u32 {
    w & 0x1fff_ffff
}

#[derive(Clone, Debug)]
pub struct Class {
    pub group: u32,
    pub number: u32,
    pub underlying: i128,
    pub spot_rate: i128,
    pub non_spot_rate: i128,
    pub option_rate: i128,
    pub future_rate: i128,
    pub equity_rate: i128,
    pub warrant_rate: i128,
    pub rights_rate: i128,
    pub offset: i128,
    pub projected: [i128; 10],
}

#[derive(Clone, Debug)]
pub struct Series {
    pub key: u32,
    pub serial: u32,
    pub expiry: u32,
    pub series_type: u32,
    pub class_number: u32,
    pub multiplier: i128,
    pub strike: i128,
    pub closing: i128,
    pub adjustment: i128,
    pub theoretical: [i128; 10],
}

#[derive(Clone, Debug)]
pub struct DayFile {
    pub classes: Vec<Class>,
    pub series: Vec<Series>,
}

#[derive(Clone, Debug)]
pub struct Record {
    pub place: usize,
    pub exercised: bool,
    pub fail: bool,
    pub long: i128,
    pub short: i128,
    pub dvp: i128,
}

#[derive(Clone, Debug)]
pub struct Deposit {
    pub class_number: u32,
    pub shares: i128,
}

fn is_open_future(t: u32) -> bool {
    t == 1
}

pub(crate) fn is_expired_future(t: u32) -> bool {
    t == 8
}

pub fn is_future(t: u32) -> bool {
    is_open_future(t) || is_expired_future(t)
}

pub fn is_option(t: u32) -> bool {
    t == 2 || t == 3
}

pub fn is_security(t: u32) -> bool {
    (4..=6).contains(&t)
}

const PRICE: u32 = 500_000_000;

/// The largest magnitude of a DVP amount.
pub const MOST_DVP: i128 = 5_000_000_000_000_000;

fn class_record(w: &[u32]) -> Option<Class> {
    if kind(w[0]) != 2 || payload(w[0]) >> 11 != 0 || payload(w[0]) & 31 > 28 {
        return None;
    }
    for (i, &x) in w.iter().enumerate().skip(1) {
        let (right, limit) = if i == OFFSET { (4, WHOLE_OFFSET) } else { (3, PRICE) };
        let fine = kind(x) == right && payload(x) <= limit;
        if !fine {
            return None;
        }
    }
    let p = |i: usize| payload(w[i]) as i128;
    let mut projected = [0; 10];
    for (k, slot) in projected.iter_mut().enumerate() {
        *slot = p(10 + k);
    }
    Some(Class {
        group: payload(w[0]) & 31,
        number: payload(w[0]) >> 5 & 63,
        underlying: p(1),
        spot_rate: p(2),
        non_spot_rate: p(3),
        option_rate: p(4),
        future_rate: p(5),
        equity_rate: p(6),
        warrant_rate: p(7),
        rights_rate: p(8),
        offset: p(OFFSET),
        projected,
    })
}

fn series_record(w: &[u32]) -> Option<Series> {
    if kind(w[0]) != 2 || kind(w[1]) != 4 || !(1..=10_000).contains(&payload(w[1])) {
        return None;
    }
    if w[2..].iter().any(|&x| kind(x) != 3 || payload(x) > PRICE) {
        return None;
    }
    let key = payload(w[0]);
    let mut theoretical = [0; 10];
    for (k, slot) in theoretical.iter_mut().enumerate() {
        *slot = payload(w[5 + k]) as i128;
    }
    Some(Series {
        key,
        serial: key & 127,
        expiry: key >> 7 & 4095,
        series_type: key >> 19 & 15,
        class_number: key >> 23,
        multiplier: payload(w[1]) as i128,
        strike: payload(w[2]) as i128,
        closing: payload(w[3]) as i128,
        adjustment: payload(w[4]) as i128,
        theoretical,
    })
}

/// Rows 10 to 18.
pub fn read_day(day: &[u32]) -> Result<DayFile, Refusal> {
    let Some(&header) = day.first() else { return refuse(10, 0) };
    let c = (payload(header) & 127) as usize;
    let s = (payload(header) >> 7 & 511) as usize;
    if kind(header) != 1 || payload(header) >> 16 != 0 || c > 64 || s > 256 {
        return refuse(10, 0);
    }
    if day.len() != series_at(c, s) {
        return refuse(11, 0);
    }
    let mut classes = Vec::new();
    for (i, w) in day[1..class_at(c)].chunks(CLASS_WORDS).enumerate() {
        match class_record(w) {
            Some(class) => classes.push(class),
            None => return refuse(12, i),
        }
    }
    let mut series = Vec::new();
    for (i, w) in day[class_at(c)..].chunks(SERIES_WORDS).enumerate() {
        match series_record(w) {
            Some(one) => series.push(one),
            None => return refuse(12, c + i),
        }
    }
    for i in 1..c {
        if classes[i].number <= classes[i - 1].number {
            return refuse(13, i);
        }
    }
    for i in 0..c {
        if (0..i).any(|j| classes[j].group == classes[i].group && classes[j].offset != classes[i].offset) {
            return refuse(14, i);
        }
    }
    for (i, class) in classes.iter().enumerate() {
        let prices = &class.projected;
        let falls = (1..10).any(|k| prices[k] < prices[k - 1]);
        let (downside_1, upside_1) = (prices[4], prices[5]);
        if falls || class.underlying < downside_1 || class.underlying > upside_1 {
            return refuse(18, i);
        }
    }
    for (i, one) in series.iter().enumerate() {
        if !classes.iter().any(|class| class.number == one.class_number) {
            return refuse(15, i);
        }
    }
    for i in 1..s {
        if (series[i].key, series[i].strike) <= (series[i - 1].key, series[i - 1].strike) {
            return refuse(16, i);
        }
    }
    for (i, one) in series.iter().enumerate() {
        let bad = match one.series_type {
            1 => one.serial != 0 || one.strike != 0,
            2 | 3 | 8 => one.serial != 0,
            4..=6 => one.strike != 0 || one.expiry != 0,
            _ => true,
        };
        if bad || (one.adjustment != 0 && !is_option(one.series_type)) {
            return refuse(17, i);
        }
    }
    Ok(DayFile { classes, series })
}

impl DayFile {
    /// The places of a class's series of some types.
    fn series_of(&self, class_number: u32, of_type: impl Fn(u32) -> bool) -> Vec<usize> {
        let is_own = |s: &usize| self.series[*s].class_number == class_number && of_type(self.series[*s].series_type);
        (0..self.series.len()).filter(is_own).collect()
    }
}

/// The sign bit and the magnitude of a record's DVP amount.
fn dvp(w: &[u32]) -> (bool, i128) {
    let first = payload(w[3]);
    (first >> 28 == 1, ((first & 31) as i128) << 58 | (payload(w[4]) as i128) << 29 | payload(w[5]) as i128)
}

/// Rows 22, 27 and 28, each over all words behind the header; the place is the word's index in the batch.
pub(crate) fn check_words(batch: &[u32]) -> Result<(), Refusal> {
    let kinds = [2, 4, 4, 5, 6, 6];
    if let Some(i) = (1..batch.len()).find(|&i| kind(batch[i]) != kinds[(i - 1) % 6]) {
        return refuse(22, i);
    }
    let records = || batch[1..].chunks(6).zip((1..).step_by(6));
    for (w, at) in records() {
        let spare = payload(w[3]) >> 5 & 0x7f_ffff != 0;
        let key = payload(w[0]) >> 10 != 0;
        let [long, short] = [w[1], w[2]].map(|q| payload(q) > 10_000_000);
        let amount = spare || dvp(w).1 > MOST_DVP;
        if let Some(j) = [key, long, short, amount].iter().position(|&bad| bad) {
            return refuse(27, at + j);
        }
    }
    match records().find(|(w, _)| dvp(w) == (true, 0)) {
        Some((_, at)) => refuse(28, at + 3),
        None => Ok(()),
    }
}

/// The first record with a word that one of them refuses: each record by itself, behind a header of its own.
pub fn first_bad_record(batch: &[u32]) -> Option<usize> {
    batch.get(1..)?.chunks_exact(6).position(|w| check_words(&[&[1 << 29 | 1], w].concat()).is_err())
}

fn batch_record(w: &[u32]) -> Record {
    let key = payload(w[0]);
    let (negative, size) = dvp(w);
    Record {
        place: (key & 255) as usize,
        exercised: key >> 8 & 1 == 1,
        fail: key >> 9 == 1,
        long: payload(w[1]) as i128,
        short: payload(w[2]) as i128,
        dvp: if negative { -size } else { size },
    }
}

/// Rows 20 and 21.
pub(crate) fn check_length(batch: &[u32]) -> Result<(), Refusal> {
    let Some(&header) = batch.first() else { return refuse(20, 0) };
    let p = payload(header) as usize;
    if kind(header) != 1 || p > MOST_RECORDS {
        return refuse(20, 0);
    }
    if batch.len() != 1 + 6 * p {
        return refuse(21, 0);
    }
    Ok(())
}

/// Rows 22 to 28 over the records behind the header, which is not looked at.
pub(crate) fn read_records(day: &DayFile, batch: &[u32]) -> Result<Vec<Record>, Refusal> {
    check_words(batch)?;
    let records: Vec<Record> = batch[1..].chunks(6).map(batch_record).collect();
    if let Some(i) = records.iter().position(|r| r.place >= day.series.len()) {
        return refuse(23, i);
    }
    let type_of = |r: &Record| day.series[r.place].series_type;
    if let Some(i) = records.iter().position(|r| r.exercised && !is_option(type_of(r))) {
        return refuse(24, i);
    }
    if let Some(i) = records.iter().position(|r| r.fail && !is_security(type_of(r))) {
        return refuse(25, i);
    }
    if let Some(i) = records.iter().position(|r| r.dvp != 0 && !is_security(type_of(r))) {
        return refuse(26, i);
    }
    Ok(records)
}

/// Which position: (series place, exercised or assigned, fail).
pub(crate) type Key = (usize, bool, bool);

impl Record {
    pub(crate) fn key(&self) -> Key {
        (self.place, self.exercised, self.fail)
    }
}

#[derive(Clone, Copy, Debug, Default)]
pub(crate) struct Position {
    pub net: i128,
    pub dvp: i128,
}

impl Position {
    pub(crate) fn is_held(&self) -> bool {
        self.net != 0 || self.dvp != 0
    }
}

/// Step 1, and row 30.
pub(crate) fn net(day: &DayFile, records: &[Record]) -> Result<BTreeMap<Key, Position>, Refusal> {
    let mut positions: BTreeMap<Key, Position> = BTreeMap::new();
    for r in records {
        let position = positions.entry(r.key()).or_default();
        position.net += r.short - r.long;
        position.dvp += r.dvp;
    }
    let above = |r: &Record| positions[&r.key()].net.abs() * day.series[r.place].multiplier > 10_000_000;
    match records.iter().position(above) {
        Some(i) => refuse(30, i),
        None => Ok(positions),
    }
}

/// Rows 50 and 51.
pub fn read_deposits(day: &DayFile, words: &[u32]) -> Result<Vec<Deposit>, Refusal> {
    if words.len() % 2 != 0 {
        return refuse(50, 0);
    }
    let mut deposits: Vec<Deposit> = Vec::new();
    for (i, w) in words.chunks(2).enumerate() {
        let known = day.classes.iter().any(|class| class.number == w[0]);
        let named = deposits.iter().any(|d| d.class_number == w[0]);
        if !known || named || w[1] > 10_000_000 {
            return refuse(50, i);
        }
        deposits.push(Deposit { class_number: w[0], shares: w[1] as i128 });
    }
    let multiplier = |s: usize| day.series[s].multiplier;
    let futures = |d: &Deposit| day.series_of(d.class_number, is_future);
    let unlike = |d: &Deposit| futures(d).windows(2).any(|w| multiplier(w[0]) != multiplier(w[1]));
    match deposits.iter().position(unlike) {
        Some(i) => refuse(51, i),
        None => Ok(deposits),
    }
}

/// The positions with each deposit's contracts taken from its class's net short futures, open and expired, in the ordinary book: from the
/// largest net on, among equals from the further expiry, of the same expiry from the open one, then from the lower place; each used up before
/// the next.
fn covered(day: &DayFile, positions: &BTreeMap<Key, Position>, deposits: &[Deposit]) -> BTreeMap<Key, Position> {
    let mut out = positions.clone();
    for deposit in deposits {
        let futures = day.series_of(deposit.class_number, is_future);
        let net_of = |s: usize| positions.get(&(s, false, false)).map_or(0, |p| p.net);
        let mut shorts: Vec<usize> = futures.into_iter().filter(|&s| net_of(s) > 0).collect();
        shorts.sort_by_key(|&s| {
            let one = &day.series[s];
            (Reverse(net_of(s)), Reverse(one.expiry), is_expired_future(one.series_type), s)
        });
        let mut shares = deposit.shares;
        for s in shorts {
            let multiplier = day.series[s].multiplier;
            let contracts = net_of(s).min(shares / multiplier);
            shares -= contracts * multiplier;
            out.entry((s, false, false)).or_default().net -= contracts;
        }
    }
    out
}

/// One line: the six amounts of a group in a book.
#[derive(Clone, Debug, PartialEq, Eq)]
pub struct Line {
    pub fail: bool,
    pub group: u32,
    pub amounts: [i128; 6],
}

#[derive(Clone, Debug, PartialEq, Eq)]
pub struct Report {
    pub lines: Vec<Line>,
    pub totals: [i128; 3],
}

/// The ten prices of an open position: the theoretical ones, of which the adjustment may replace one for a short option.
fn open_prices(one: &Series, net: i128) -> [i128; 10] {
    let mut prices = one.theoretical;
    match (one.series_type, net.signum()) {
        (2, 1) => prices[9] = prices[9].max(one.adjustment),
        (3, 1) => prices[0] = prices[0].max(one.adjustment),
        _ => {}
    }
    prices
}

/// How far the price of an open position moves at the ten points: that of an expired future as the underlying price does.
fn moves(class: &Class, one: &Series, net: i128) -> [i128; 10] {
    if is_expired_future(one.series_type) {
        return class.projected.map(|price| price - class.underlying);
    }
    open_prices(one, net).map(|price| price - one.closing)
}

/// The spread margin of a class's open futures, given in order of expiry, and what is left of each net.
fn spread(nets: &[i128], class: &Class) -> (i128, Vec<i128>) {
    let short: i128 = nets.iter().filter(|n| **n > 0).sum();
    let long: i128 = -nets.iter().filter(|n| **n < 0).sum::<i128>();
    let quantity = short.min(long);
    let spot = nets.iter().find(|n| **n != 0).map_or(0, |n| n.abs()).min(quantity);
    let margin = spot * class.spot_rate + (2 * quantity - spot) * class.non_spot_rate;
    let (mut short_left, mut long_left) = (quantity, quantity);
    let rest = nets
        .iter()
        .map(|&n| {
            let side = if n > 0 { &mut short_left } else { &mut long_left };
            let taken = n.abs().min(*side);
            *side -= taken;
            n - taken * n.signum()
        })
        .collect();
    (margin, rest)
}

fn line(day: &DayFile, positions: &BTreeMap<Key, Position>, fail: bool, group: u32) -> [i128; 6] {
    let at = |s: usize, exercised: bool| positions.get(&(s, exercised, fail)).copied().unwrap_or_default();
    let (mut spreads, mut mtm, mut premium, mut minimum) = (0, 0, 0, 0);
    let mut points = [0i128; 10];
    for class in day.classes.iter().filter(|c| c.group == group) {
        let own = day.series_of(class.number, |_| true);
        let mut futures = day.series_of(class.number, is_open_future);
        futures.sort_by_key(|&s| day.series[s].expiry);
        let nets: Vec<i128> = futures.iter().map(|&s| at(s, false).net).collect();
        let (margin, rest) = spread(&nets, class);
        spreads += margin;
        let left: BTreeMap<usize, i128> = futures.iter().copied().zip(rest).collect();
        let mut class_points = [0i128; 10];
        for &s in &own {
            let one = &day.series[s];
            let open = at(s, false);
            let done = at(s, true);
            let sign = if one.series_type == 2 { 1 } else { -1 };
            if is_security(one.series_type) {
                mtm += open.net * one.multiplier * one.closing - open.dvp;
            }
            if is_expired_future(one.series_type) {
                mtm += open.net * one.multiplier * (class.underlying - one.strike);
            }
            if is_option(one.series_type) {
                premium += open.net * one.multiplier * one.closing;
                premium += done.net * one.multiplier * sign * (class.underlying - one.strike);
            }
            let counted = left.get(&s).copied().unwrap_or(open.net);
            let moves = moves(class, one, counted);
            for (k, point) in class_points.iter_mut().enumerate() {
                *point += counted * one.multiplier * moves[k];
                if is_option(one.series_type) {
                    *point += done.net * one.multiplier * sign * (class.projected[k] - class.underlying);
                }
            }
        }
        for k in 0..10 {
            let z = class_points[k];
            points[k] += if z < 0 { z * class.offset / i128::from(WHOLE_OFFSET) } else { z };
        }
        let rates =
            [class.future_rate, class.option_rate, class.option_rate, class.equity_rate, class.warrant_rate, class.rights_rate];
        for (t, rate) in rates.iter().enumerate() {
            let sum: i128 = own.iter().filter(|&&s| day.series[s].series_type == t as u32 + 1).map(|&s| at(s, false).net).sum();
            minimum += sum.abs() * rate;
        }
    }
    let additional = points.iter().copied().max().unwrap_or(0).max(0);
    let requirement = additional.max(minimum);
    let sum = spreads + mtm + premium + requirement;
    [spreads, mtm, premium, requirement, sum.max(0), (-sum).max(0)]
}

/// The report of two files without deposits, or the row that refuses them (all rows but 40).
pub fn reckon(day: &[u32], batch: &[u32]) -> Result<Report, Refusal> {
    reckon_with(day, batch, &[])
}

/// The report of two files with these deposits, or the row that refuses them (all rows but 40).
pub fn reckon_with(day: &[u32], batch: &[u32], deposits: &[u32]) -> Result<Report, Refusal> {
    let day = read_day(day)?;
    check_length(batch)?;
    let positions = net(&day, &read_records(&day, batch)?)?;
    let covered = covered(&day, &positions, &read_deposits(&day, deposits)?);
    let mut lines = Vec::new();
    let mut totals = [0i128; 3];
    for (book, fail) in [(0, false), (1, true)] {
        for group in 0..29 {
            let held = positions.iter().any(|(&(s, _, f), p)| {
                let number = day.series[s].class_number;
                f == fail && p.is_held() && day.classes.iter().any(|c| c.number == number && c.group == group)
            });
            if held {
                let amounts = line(&day, &covered, fail, group);
                totals[book] += amounts[4];
                lines.push(Line { fail, group, amounts });
            }
        }
    }
    totals[2] = totals[0] + totals[1];
    Ok(Report { lines, totals })
}

pub(crate) fn push_amount(words: &mut Vec<u32>, z: i128) {
    let size = z.unsigned_abs();
    assert!(size < 1 << 63);
    words.push(5 << 29 | u32::from(z < 0) << 28 | (size >> 58) as u32);
    words.push(6 << 29 | (size >> 29 & 0x1fff_ffff) as u32);
    words.push(6 << 29 | (size & 0x1fff_ffff) as u32);
}

/// The report's words.
pub fn words(report: &Report) -> Vec<u32> {
    let mut maps = [0u32; 2];
    for l in &report.lines {
        maps[usize::from(l.fail)] |= 1 << l.group;
    }
    let mut out = vec![1 << 29 | report.lines.len() as u32, 4 << 29 | maps[0], 4 << 29 | maps[1]];
    for l in &report.lines {
        out.push(2 << 29 | u32::from(l.fail) << 5 | l.group);
        l.amounts.iter().for_each(|&z| push_amount(&mut out, z));
    }
    out.push(7 << 29);
    report.totals.iter().for_each(|&z| push_amount(&mut out, z));
    out
}

/// What the program prints.
pub fn text(result: &Result<Report, Refusal>) -> String {
    match result {
        Err(r) => format!("REFUSED {} {}\n", r.number, r.place),
        Ok(report) => {
            let mut out = format!("MARGIN {}\n", report.lines.len());
            for l in &report.lines {
                let amounts: Vec<String> = l.amounts.iter().map(i128::to_string).collect();
                out += &format!("{} {} {}\n", if l.fail { 'F' } else { 'O' }, l.group, amounts.join(" "));
            }
            let totals: Vec<String> = report.totals.iter().map(i128::to_string).collect();
            out + &format!("TOTAL {}\n", totals.join(" "))
        }
    }
}

/// Row 40, and the words at the memory's front.
pub(crate) fn write(words: &[u32], memory: &mut [u32]) -> Result<usize, Refusal> {
    if words.len() > memory.len() {
        return refuse(40, words.len());
    }
    memory[..words.len()].copy_from_slice(words);
    Ok(words.len())
}

/// The call over words: the answer, and the memory written where it is a report.
pub fn call_words(day: &[u32], batch: &[u32], deposits: &[u32], memory: &mut [u32]) -> Result<usize, Refusal> {
    write(&words(&reckon_with(day, batch, deposits)?), memory)
}

pub fn to_words(bytes: &[u8]) -> Vec<u32> {
    bytes.chunks_exact(4).map(|b| u32::from_le_bytes([b[0], b[1], b[2], b[3]])).collect()
}

pub fn to_bytes(words: &[u32]) -> Vec<u8> {
    words.iter().flat_map(|w| w.to_le_bytes()).collect()
}

/// The byte call: rows 1 and 2 first.
pub fn call_bytes(day: &[u8], batch: &[u8], memory: &mut [u8]) -> Result<usize, Refusal> {
    if day.len() % 4 != 0 || day.len() > 4 * LONGEST_DAY {
        return refuse(1, 0);
    }
    if batch.len() % 4 != 0 || batch.len() > 4 * LONGEST_BATCH {
        return refuse(2, 0);
    }
    let mut words = to_words(memory);
    let n = call_words(&to_words(day), &to_words(batch), &[], &mut words)?;
    memory[..4 * n].copy_from_slice(&to_bytes(&words[..n]));
    Ok(n)
}
