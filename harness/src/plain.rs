//! The same work in straight 64-bit Rust: the baseline of the benchmark. Its answers are held to the reckoner's in the tests.
//! The checks and the line that its calls share are marked to be inlined into each: compiled once for all they cost the report some hundredths
//! more.
use crate::layout::{
    class_at, series_at, CLASS_WORDS, LONGEST_BATCH, LONGEST_DAY, MOST_RECORDS, OFFSET, PROJECTED, SERIES_WORDS, UNDERLYING,
    WHOLE_OFFSET,
};

pub mod cents;
pub mod rewriting;
pub mod worst_moment;

/// Entries of a table of nets, one a position.
pub const NETS: usize = 1024;

const MOST_DVP: i64 = 5_000_000_000_000_000;

fn kind(w: u32) -> u32 {
    w >> 29
}

fn payload(w: u32) -> u32 {
    w & 0x1fff_ffff
}

/// A refusal's number and place.
type Refused = (u64, usize);

fn answer(number: u64, value: usize) -> u64 {
    number << 32 | value as u64
}

fn packed(result: Result<usize, Refused>) -> u64 {
    match result {
        Ok(value) => answer(0, value),
        Err((number, place)) => answer(number, place),
    }
}

fn pass(refused: Option<Refused>) -> Result<(), Refused> {
    refused.map_or(Ok(()), Err)
}

fn bad(w: u32, k: u32, limit: u32) -> bool {
    kind(w) != k || payload(w) > limit
}

struct Day<'a> {
    words: &'a [u32],
    classes: usize,
    series: usize,
}

impl Day<'_> {
    fn class(&self, c: usize, i: usize) -> u32 {
        payload(self.words[class_at(c) + i])
    }

    fn one(&self, s: usize, i: usize) -> u32 {
        payload(self.words[series_at(self.classes, s) + i])
    }

    fn series_type(&self, s: usize) -> u32 {
        self.one(s, 0) >> 19 & 15
    }

    fn number(&self, c: usize) -> u32 {
        self.class(c, 0) >> 5 & 63
    }

    /// The class with this number; the numbers ascend.
    fn class_of(&self, number: u32) -> Option<usize> {
        let (mut c, mut end) = (0, self.classes);
        while c < end {
            let middle = (c + end) / 2;
            if self.number(middle) < number {
                c = middle + 1;
            } else {
                end = middle;
            }
        }
        (c < self.classes && self.number(c) == number).then_some(c)
    }

    /// The futures of the class with this number: the open ones, then the expired ones.
    fn futures<'a>(&'a self, starts: &Starts, number: u32) -> impl Iterator<Item = usize> + 'a {
        let series = self.class_of(number).map_or(0..0, |c| starts[c]..starts[c + 1]);
        series.filter(|&s| matches!(self.series_type(s), 1 | 8))
    }

    #[inline]
    fn check(&self) -> Option<Refused> {
        const PRICE: u32 = 500_000_000;
        for c in 0..self.classes {
            let w = &self.words[class_at(c)..][..CLASS_WORDS];
            let mut prices = (1..OFFSET).chain(OFFSET + 1..CLASS_WORDS);
            let wrong =
                bad(w[0], 2, 2047) || w[0] & 31 > 28 || bad(w[OFFSET], 4, WHOLE_OFFSET) || prices.any(|i| bad(w[i], 3, PRICE));
            if wrong {
                return Some((12, c));
            }
        }
        for s in 0..self.series {
            let w = &self.words[series_at(self.classes, s)..][..SERIES_WORDS];
            if kind(w[0]) != 2 || bad(w[1], 4, 10_000) || payload(w[1]) == 0 || w[2..].iter().any(|&x| bad(x, 3, PRICE)) {
                return Some((12, self.classes + s));
            }
        }
        for c in 1..self.classes {
            if self.number(c) <= self.number(c - 1) {
                return Some((13, c));
            }
        }
        let mut offsets = [u32::MAX; 32];
        for c in 0..self.classes {
            let slot = &mut offsets[(self.class(c, 0) & 31) as usize];
            if *slot == u32::MAX {
                *slot = self.class(c, OFFSET);
            } else if *slot != self.class(c, OFFSET) {
                return Some((14, c));
            }
        }
        for c in 0..self.classes {
            // words of one kind stand as their payloads do; none of the comparisons branches
            let w = &self.words[class_at(c)..][..CLASS_WORDS];
            let falls = (PROJECTED..CLASS_WORDS - 1).fold(false, |falls, i| falls | (w[i] > w[i + 1]));
            if falls | (w[PROJECTED + 4] > w[UNDERLYING]) | (w[UNDERLYING] > w[PROJECTED + 5]) {
                return Some((18, c));
            }
        }
        let mut present = [false; 64];
        (0..self.classes).for_each(|c| present[self.number(c) as usize] = true);
        if let Some(s) = (0..self.series).find(|&s| !present[(self.one(s, 0) >> 23) as usize]) {
            return Some((15, s));
        }
        for s in 1..self.series {
            if (self.one(s, 0), self.one(s, 2)) <= (self.one(s - 1, 0), self.one(s - 1, 2)) {
                return Some((16, s));
            }
        }
        for s in 0..self.series {
            let (key, strike) = (self.one(s, 0), self.one(s, 2));
            let wrong = match self.series_type(s) {
                1 => key & 127 != 0 || strike != 0 || self.one(s, 4) != 0,
                2 | 3 => key & 127 != 0,
                4..=6 => strike != 0 || key >> 7 & 4095 != 0 || self.one(s, 4) != 0,
                8 => key & 127 != 0 || self.one(s, 4) != 0,
                _ => true,
            };
            if wrong {
                return Some((17, s));
            }
        }
        None
    }
}

fn amount(u: u32, v: u32, w: u32) -> i64 {
    let size = (u64::from(u & 31) << 58 | u64::from(payload(v)) << 29 | u64::from(payload(w))) as i64;
    if u >> 28 & 1 == 1 {
        -size
    } else {
        size
    }
}

/// A word of the record is refused by row 22, 27 or 28.
fn bad_record(w: &[u32]) -> bool {
    bad(w[0], 2, 1023)
        || bad(w[1], 4, 10_000_000)
        || bad(w[2], 4, 10_000_000)
        || kind(w[3]) != 5
        || kind(w[4]) != 6
        || kind(w[5]) != 6
        || bad_dvp(w)
        || minus_zero(w)
}

fn dvp(w: &[u32]) -> i64 {
    amount(w[3], w[4], w[5])
}

fn bad_dvp(w: &[u32]) -> bool {
    payload(w[3]) >> 5 & 0x7f_ffff != 0 || dvp(w).abs() > MOST_DVP
}

fn minus_zero(w: &[u32]) -> bool {
    w[3] >> 28 & 1 == 1 && dvp(w) == 0
}

/// Rows 22, 27 and 28, from the first record that one of them refuses on.
fn check_words(batch: &[u32], records: usize) -> Option<Refused> {
    let record = |r: usize| &batch[1 + 6 * r..7 + 6 * r];
    let word = |r: usize, j: usize| 1 + 6 * r + j;
    let first = (0..records).find(|&r| bad_record(record(r)))?;
    for r in first..records {
        if let Some(j) = record(r).iter().zip([2, 4, 4, 5, 6, 6]).position(|(&w, k)| kind(w) != k) {
            return Some((22, word(r, j)));
        }
    }
    for r in first..records {
        let w = record(r);
        let out = [payload(w[0]) > 1023, payload(w[1]) > 10_000_000, payload(w[2]) > 10_000_000, bad_dvp(w)];
        if let Some(j) = out.iter().position(|&b| b) {
            return Some((27, word(r, j)));
        }
    }
    (first..records).find(|&r| minus_zero(record(r))).map(|r| (28, word(r, 3)))
}

/// Rows 22 to 28.
#[inline]
fn check_batch(day: &Day, batch: &[u32], records: usize) -> Option<Refused> {
    let record = |r: usize| &batch[1 + 6 * r..7 + 6 * r];
    if let Some(refused) = check_words(batch, records) {
        return Some(refused);
    }
    let place = |r: usize| (record(r)[0] & 255) as usize;
    if let Some(r) = (0..records).find(|&r| place(r) >= day.series) {
        return Some((23, r));
    }
    let security = |r: usize| (4..=6).contains(&day.series_type(place(r)));
    let option = |r: usize| (2..=3).contains(&day.series_type(place(r)));
    if let Some(r) = (0..records).find(|&r| record(r)[0] >> 8 & 1 == 1 && !option(r)) {
        return Some((24, r));
    }
    if let Some(r) = (0..records).find(|&r| record(r)[0] >> 9 & 1 == 1 && !security(r)) {
        return Some((25, r));
    }
    (0..records).find(|&r| dvp(record(r)) != 0 && !security(r)).map(|r| (26, r))
}

/// The position of a record, and what it adds to the position's net and DVP.
fn added(record: &[u32]) -> (usize, i64, i64) {
    let net = i64::from(payload(record[2])) - i64::from(payload(record[1]));
    ((record[0] & 1023) as usize, net, amount(record[3], record[4], record[5]))
}

/// Step 1 over a batch that passed its checks: one pass into two tables of 1,024 entries.
pub fn net(batch: &[u32], nets: &mut [i64; NETS], dvps: &mut [i64; NETS]) {
    for record in batch[1..].chunks_exact(6) {
        let (k, net, dvp) = added(record);
        nets[k] += net;
        dvps[k] += dvp;
    }
}

/// The same into one table, net and DVP of a position beside each other.
pub fn net_pairs(batch: &[u32], table: &mut [[i64; 2]; NETS]) {
    for record in batch[1..].chunks_exact(6) {
        let (k, net, dvp) = added(record);
        table[k][0] += net;
        table[k][1] += dvp;
    }
}

/// Where the series of each class begin, and where all end.
type Starts = [usize; 65];

#[inline]
fn starts_of(day: &Day) -> Starts {
    let mut starts: Starts = [day.series; 65];
    let mut s = 0;
    for c in 0..day.classes {
        while s < day.series && day.one(s, 0) >> 23 < day.number(c) {
            s += 1;
        }
        starts[c] = s;
    }
    starts
}

/// Rows 50 and 51.
fn check_deposits(day: &Day, starts: &Starts, deposits: &[u32]) -> Option<Refused> {
    if deposits.len() % 2 != 0 {
        return Some((50, 0));
    }
    let mut named = 0u64;
    for (i, d) in deposits.chunks_exact(2).enumerate() {
        if day.class_of(d[0]).is_none() || named >> d[0] & 1 == 1 || d[1] > 10_000_000 {
            return Some((50, i));
        }
        named |= 1 << d[0];
    }
    for (i, d) in deposits.chunks_exact(2).enumerate() {
        let mut futures = day.futures(starts, d[0]);
        if let Some(first) = futures.next() {
            if futures.any(|s| day.one(s, 1) != day.one(first, 1)) {
                return Some((51, i));
            }
        }
    }
    None
}

/// The contracts that deposits cover taken from the net shorts of the ordinary book.
fn cover(day: &Day, starts: &Starts, deposits: &[u32], nets: &mut [i64; NETS]) {
    if deposits.is_empty() {
        return;
    }
    // net, expiry and 255 less the place of each in one number; an expired future stands behind the open ones
    let mut shorts = [0; 256];
    for d in deposits.chunks_exact(2) {
        let mut count = 0;
        for s in day.futures(starts, d[0]).filter(|&s| nets[s] > 0) {
            shorts[count] = nets[s] << 20 | i64::from(day.one(s, 0) >> 7 & 4095) << 8 | (255 - s as i64);
            count += 1;
        }
        if count == 0 {
            continue;
        }
        let shorts = &mut shorts[..count];
        shorts.sort_unstable();
        let place = |short: i64| 255 - (short & 255) as usize;
        let mut left = i64::from(d[1] / day.one(place(shorts[0]), 1));
        for &short in shorts.iter().rev() {
            let taken = left.min(short >> 20);
            nets[place(short)] -= taken;
            left -= taken;
        }
    }
}

#[derive(Default)]
struct Sums {
    spread: i64,
    mtm: i64,
    premium: i64,
    minimum: i64,
    points: [i64; 10],
}

#[inline]
fn class_sums(day: &Day, nets: &[i64; NETS], dvps: &[i64; NETS], book: usize, c: usize, range: std::ops::Range<usize>) -> Sums {
    let price = |i: usize| i64::from(day.class(c, i));
    let net = |s: usize| nets[s + 512 * book];
    let (mut short, mut long, mut spot) = (0, 0, 0);
    for s in range.clone().filter(|&s| day.series_type(s) == 1) {
        let n = net(s);
        if spot == 0 {
            spot = n.abs();
        }
        short += n.max(0);
        long += (-n).max(0);
    }
    let quantity = short.min(long);
    let spot = spot.min(quantity);
    let mut sums = Sums { spread: spot * price(2) + (2 * quantity - spot) * price(3), ..Sums::default() };
    let (mut short_left, mut long_left) = (quantity, quantity);
    let mut types = [0i64; 9];
    let mut points = [0i64; 10];
    for s in range {
        let t = day.series_type(s);
        let n = net(s);
        let mut done = nets[s + 256 + 512 * book];
        let m = i64::from(day.one(s, 1));
        let closing = i64::from(day.one(s, 3));
        types[t as usize] += n;
        let mut counted = n;
        if t == 1 {
            let left = if n > 0 { &mut short_left } else { &mut long_left };
            let taken = n.abs().min(*left);
            *left -= taken;
            counted = n - taken * n.signum();
        }
        let mut sign = if t == 2 { 1 } else { -1 };
        if t == 8 {
            sums.mtm += n * m * (price(1) - i64::from(day.one(s, 2)));
            // moves with the underlying price, as an exercised call does
            (counted, done, sign) = (0, n, 1);
        } else if t >= 4 {
            sums.mtm += n * m * closing - dvps[s + 512 * book];
        } else if t >= 2 {
            sums.premium += n * m * closing + done * m * sign * (price(1) - i64::from(day.one(s, 2)));
        }
        if counted != 0 {
            for (k, point) in points.iter_mut().enumerate() {
                *point += counted * m * (i64::from(day.one(s, 5 + k)) - closing);
            }
            if counted > 0 && (t == 2 || t == 3) {
                let k = if t == 2 { 9 } else { 0 };
                let more = day.one(s, 4).saturating_sub(day.one(s, 5 + k));
                points[k] += counted * m * i64::from(more);
            }
        }
        if done != 0 {
            for (k, point) in points.iter_mut().enumerate() {
                *point += done * m * sign * (price(10 + k) - price(1));
            }
        }
    }
    const WHOLE: i64 = WHOLE_OFFSET as i64;
    let offset = price(OFFSET);
    for k in 0..10 {
        let z = points[k];
        sums.points[k] = if z < 0 { z / WHOLE * offset + z % WHOLE * offset / WHOLE } else { z };
    }
    for (t, i) in [(1, 5), (2, 4), (3, 4), (4, 6), (5, 7), (6, 8)] {
        sums.minimum += types[t].abs() * price(i);
    }
    sums
}

/// The six amounts of a group's line in a book.
#[inline]
fn line(day: &Day, starts: &Starts, nets: &[i64; NETS], dvps: &[i64; NETS], book: usize, group: u32) -> [i64; 6] {
    let mut sums = Sums::default();
    for c in (0..day.classes).filter(|&c| day.class(c, 0) & 31 == group) {
        let more = class_sums(day, nets, dvps, book, c, starts[c]..starts[c + 1]);
        sums.spread += more.spread;
        sums.mtm += more.mtm;
        sums.premium += more.premium;
        sums.minimum += more.minimum;
        (0..10).for_each(|k| sums.points[k] += more.points[k]);
    }
    let additional = sums.points.iter().copied().fold(0, i64::max);
    let requirement = additional.max(sums.minimum);
    let sum = sums.spread + sums.mtm + sums.premium + requirement;
    [sums.spread, sums.mtm, sums.premium, requirement, sum.max(0), (-sum).max(0)]
}

fn put_amount(out: &mut [u32], z: i64) {
    let size = z.unsigned_abs();
    out[0] = 5 << 29 | u32::from(z < 0) << 28 | (size >> 58) as u32;
    out[1] = 6 << 29 | (size >> 29 & 0x1fff_ffff) as u32;
    out[2] = 6 << 29 | (size & 0x1fff_ffff) as u32;
}

/// Rows 10 to 18.
#[inline]
fn read_day(words: &[u32]) -> Result<Day<'_>, Refused> {
    let header = words.first().copied().unwrap_or(0);
    let (classes, series) = ((header & 127) as usize, (header >> 7 & 511) as usize);
    if kind(header) != 1 || payload(header) >> 16 != 0 || classes > 64 || series > 256 {
        return Err((10, 0));
    }
    if words.len() != series_at(classes, series) {
        return Err((11, 0));
    }
    let day = Day { words, classes, series };
    pass(day.check())?;
    Ok(day)
}

/// Rows 20 and 21: the number of records.
fn record_count(batch: &[u32]) -> Result<usize, Refused> {
    records_by_header(batch.first().copied().unwrap_or(0), batch.len())
}

/// The same of a batch of so many words, by its header; 0 where it has no words.
fn records_by_header(header: u32, length: usize) -> Result<usize, Refused> {
    let records = payload(header) as usize;
    if kind(header) != 1 || records > MOST_RECORDS {
        return Err((20, 0));
    }
    if length != 1 + 6 * records {
        return Err((21, 0));
    }
    Ok(records)
}

/// Row 30 of a position with this net.
fn too_large(day: &Day, k: usize, net: i64) -> bool {
    net.abs() * i64::from(day.one(k & 255, 1)) > 10_000_000
}

/// Rows 22 to 30 over so many records; the tables, zeros before, get the nets and DVPs.
#[inline]
fn check_and_net(
    day: &Day,
    batch: &[u32],
    records: usize,
    nets: &mut [i64; NETS],
    dvps: &mut [i64; NETS],
) -> Result<(), Refused> {
    pass(check_batch(day, batch, records))?;
    net(batch, nets, dvps);
    for r in 0..records {
        let k = (batch[1 + 6 * r] & 1023) as usize;
        if too_large(day, k, nets[k]) {
            return Err((30, r));
        }
    }
    Ok(())
}

/// The report's length, or the refusal.
fn report(day: &[u32], batch: &[u32], deposits: &[u32], memory: &mut [u32]) -> Result<usize, Refused> {
    let day = read_day(day)?;
    let classes = day.classes;
    let records = record_count(batch)?;
    let (mut nets, mut dvps) = ([0i64; NETS], [0i64; NETS]);
    check_and_net(&day, batch, records, &mut nets, &mut dvps)?;
    let starts = starts_of(&day);
    pass(check_deposits(&day, &starts, deposits))?;
    let mut maps = [0u32; 2];
    for (book, map) in maps.iter_mut().enumerate() {
        for c in 0..classes {
            let held = (starts[c]..starts[c + 1]).any(|s| {
                let k = s + 512 * book;
                nets[k] != 0 || dvps[k] != 0 || nets[k + 256] != 0 || dvps[k + 256] != 0
            });
            if held {
                *map |= 1 << (day.class(c, 0) & 31);
            }
        }
    }
    let lines = (maps[0].count_ones() + maps[1].count_ones()) as usize;
    let needed = 13 + 19 * lines;
    if memory.len() < needed {
        return Err((40, needed));
    }
    cover(&day, &starts, deposits, &mut nets);
    memory[0] = 1 << 29 | lines as u32;
    memory[1] = 4 << 29 | maps[0];
    memory[2] = 4 << 29 | maps[1];
    let mut at = 3;
    let mut totals = [0i64; 3];
    for (book, map) in maps.iter().enumerate() {
        for g in (0..29).filter(|g| map >> g & 1 == 1) {
            let amounts = line(&day, &starts, &nets, &dvps, book, g);
            memory[at] = 2 << 29 | (book as u32) << 5 | g;
            for (i, z) in amounts.into_iter().enumerate() {
                put_amount(&mut memory[at + 1 + 3 * i..], z);
            }
            totals[book] += amounts[4];
            at += 19;
        }
    }
    totals[2] = totals[0] + totals[1];
    memory[at] = 7 << 29;
    for (i, z) in totals.into_iter().enumerate() {
        put_amount(&mut memory[at + 1 + 3 * i..], z);
    }
    Ok(needed)
}

/// The call over words: number × 2^32 + value.
pub fn call_words(day: &[u32], batch: &[u32], deposits: &[u32], memory: &mut [u32]) -> u64 {
    packed(report(day, batch, deposits, memory))
}

/// The byte call, words low byte first.
pub fn call(day: &[u8], batch: &[u8], memory: &mut [u8]) -> u64 {
    if day.len() % 4 != 0 || day.len() > 4 * LONGEST_DAY {
        return answer(1, 0);
    }
    if batch.len() % 4 != 0 || batch.len() > 4 * LONGEST_BATCH {
        return answer(2, 0);
    }
    let mut day_words = [0u32; LONGEST_DAY];
    let mut batch_words = [0u32; LONGEST_BATCH];
    let mut report = [0u32; 1115];
    let decode = |bytes: &[u8], words: &mut [u32]| {
        for (w, b) in words.iter_mut().zip(bytes.chunks_exact(4)) {
            *w = u32::from_le_bytes([b[0], b[1], b[2], b[3]]);
        }
    };
    decode(day, &mut day_words);
    decode(batch, &mut batch_words);
    let room = (memory.len() / 4).min(1115);
    let r = call_words(&day_words[..day.len() / 4], &batch_words[..batch.len() / 4], &[], &mut report[..room]);
    if r >> 32 == 0 {
        for (w, b) in report[..r as usize].iter().zip(memory.chunks_exact_mut(4)) {
            b.copy_from_slice(&w.to_le_bytes());
        }
    }
    r
}
