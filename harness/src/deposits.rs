//! Accounts of futures, deposits for their classes, and deposits damaged so that row 50 refuses them.
use crate::accounts::{
    account, amount_words, batch, damage, day_file, mixed, near, price, series_record, word, Account, Size, LARGEST, SMALL,
    TYPICAL,
};
use crate::fields::{self, Class, Record, Series, EXPIRED_FUTURE, FUTURE};
use crate::layout::{class_at, counts, CLASS_WORDS, SERIES_WORDS};
use crate::reckoner::is_future;
use crate::rng::Rng;
use std::collections::BTreeMap;

/// Shares that a deposit may have.
pub const MOST_SHARES: u32 = 10_000_000;

/// The class numbers of a day file with their groups.
pub fn classes(day: &[u32]) -> BTreeMap<u32, u32> {
    let records = day[1..class_at(counts(day).0)].chunks(CLASS_WORDS);
    records.map(|w| (w[0] >> 5 & 63, w[0] & 31)).collect()
}

/// A future, open or expired, at its place in a day file.
pub struct Future {
    pub place: usize,
    pub class: u32,
    pub expired: bool,
    pub expiry: u32,
    pub multiplier: u64,
}

/// All futures of a day file.
pub fn futures(day: &[u32]) -> Vec<Future> {
    let all = day[class_at(counts(day).0)..].chunks(SERIES_WORDS).enumerate();
    let future = |(place, w): (usize, &[u32])| Future {
        place,
        class: w[0] >> 23 & 63,
        expired: w[0] >> 19 & 15 == EXPIRED_FUTURE,
        expiry: w[0] >> 7 & 4095,
        multiplier: u64::from(w[1] & 0x1fff_ffff),
    };
    all.filter(|(_, w)| is_future(w[0] >> 19 & 15)).map(future).collect()
}

/// A day file of up to so many futures, and some other series. A class has open futures, expired ones or both, several of an expiry, and mostly
/// one multiplier for all of them.
fn futures_day(rng: &mut Rng, size: Size) -> Vec<u32> {
    let classes_count = rng.within(1, size.classes) as usize;
    let others = rng.below(size.series / 4 + 1) as usize;
    let mut day = day_file(rng, classes_count, others);
    let numbers: Vec<u32> = classes(&day).into_keys().collect();
    // by class, the types of the futures of an expiry
    let types: [&[u32]; 4] =
        [&[FUTURE], &[EXPIRED_FUTURE; 2], &[FUTURE, EXPIRED_FUTURE], &[FUTURE, EXPIRED_FUTURE, EXPIRED_FUTURE]];
    let types: Vec<(u32, &[u32])> = numbers.iter().map(|&n| (n, rng.pick(&types))).collect();
    let mut series: Vec<Vec<u32>> = day.split_off(class_at(classes_count)).chunks(SERIES_WORDS).map(<[u32]>::to_vec).collect();
    let count = rng.within(series.len() as u64 + 1, size.series) as usize;
    while series.len() < count {
        let ((n, types), expiry) = (rng.pick(&types), rng.below(size.series + 4) as u32);
        for &t in types {
            if rng.once_in(4) {
                continue;
            }
            let strike = if t == EXPIRED_FUTURE { price(rng) } else { 0 };
            series.push(series_record(rng, expiry << 7 | t << 19 | n << 23, strike));
        }
    }
    series.truncate(count);
    series.sort_by_key(|w| (w[0], w[2]));
    series.dedup_by_key(|w| (w[0], w[2]));
    for n in numbers {
        let [one, other] = [(); 2].map(|_| rng.pick(&[1, 5, 100, 100, 1000, 10_000]));
        let multipliers = match rng.below(12) {
            0 => continue,
            1 => [one, other],
            _ => [one; 2],
        };
        for (t, multiplier) in [FUTURE, EXPIRED_FUTURE].into_iter().zip(multipliers) {
            series.iter_mut().filter(|w| w[0] >> 19 & 1023 == t | n << 4).for_each(|w| w[1] = word(4, multiplier));
        }
    }
    day[0] = word(1, classes_count as u32 | (series.len() as u32) << 7);
    day.extend(series.concat());
    day
}

/// Records for most futures, whose nets in a class often agree, behind some of any series.
fn futures_batch(rng: &mut Rng, day: &[u32]) -> Vec<u32> {
    let futures = futures(day);
    let others = rng.below((257 - futures.len() as u64).min(6)) as usize;
    let mut out = batch(rng, day, others);
    let mut sizes = BTreeMap::new();
    for f in futures {
        let most = 10_000_000 / f.multiplier;
        let size = *sizes.entry(f.class).or_insert_with(|| rng.pick(&[1, 2, 5, 5, 40, most / 4, most / 2]));
        let (long, short) = match rng.below(9) {
            0 => continue,
            1 => (size, 0),
            2 => (rng.below(2 * size + 1), 0),
            3 => (0, rng.below(size + 1)),
            4 => (size, 2 * size + 1),
            _ => (0, size),
        };
        out.extend([word(2, f.place as u32), word(4, long as u32), word(4, short as u32)]);
        out.extend(amount_words(false, 0));
    }
    out[0] = word(1, (out.len() as u32 - 1) / 6);
    out
}

/// An account of futures with several net shorts in a class, among them equal ones.
pub fn futures_account(rng: &mut Rng, size: Size) -> Account {
    let day = futures_day(rng, size);
    let batch = futures_batch(rng, &day);
    Account { day, batch }
}

/// So many classes of so many futures, of which each has a position and most a net short, and a deposit for each class that covers half of
/// its net shorts.
pub fn half_covered(rng: &mut Rng, classes: u32, futures: u32) -> (Account, Vec<u32>) {
    let class =
        |number| Class { number, group: number % 29, spot_rate: 300, non_spot_rate: 200, future_rate: 100, ..Class::default() };
    let (mut series, mut records) = (Vec::new(), Vec::new());
    for place in 0..classes * futures {
        let closing = rng.within(90_000, 110_000) as u32;
        let theoretical = [0; 10].map(|_| near(rng, closing));
        let (class_number, expiry) = (place / futures, place % futures);
        series.push(Series {
            class_number,
            series_type: FUTURE,
            expiry,
            multiplier: 100,
            closing,
            theoretical,
            ..Series::default()
        });
        let (net, long) = (rng.within(1, 50) as u32, rng.once_in(4));
        let (long, short) = if long { (net, 0) } else { (0, net) };
        records.push(Record { series: place, long, short, ..Record::default() });
    }
    let a = fields::account(&(0..classes).map(class).collect::<Vec<_>>(), &series, &records);
    let deposits = (0..classes).flat_map(|c| [c, whole_cover(&a, c).0 as u32 / 2]).collect();
    (a, deposits)
}

/// The size of futures account i of a run: of forty, one is the largest, one is of one class, four are typical and the rest small.
pub fn mixed_futures(i: usize) -> Size {
    match i % 40 {
        0 => LARGEST,
        1 => Size { classes: 1, ..LARGEST },
        2..=5 => TYPICAL,
        _ => SMALL,
    }
}

/// A class's futures with a net short in the ordinary book, each behind that net.
pub fn shorts(a: &Account, class: u32) -> Vec<(u64, Future)> {
    let mut nets: BTreeMap<usize, i64> = BTreeMap::new();
    for w in a.batch[1..].chunks(6) {
        *nets.entry((w[0] & 1023) as usize).or_default() += i64::from(w[2] & 0x1fff_ffff) - i64::from(w[1] & 0x1fff_ffff);
    }
    let own = futures(&a.day).into_iter().filter(|f| f.class == class);
    own.map(|f| (nets.get(&f.place).map_or(0, |&n| n.max(0) as u64), f)).filter(|(net, _)| *net > 0).collect()
}

/// The shares that cover all net shorts of a class's futures, and its multiplier.
fn whole_cover(a: &Account, class: u32) -> (u64, u64) {
    let shorts = shorts(a, class);
    let multiplier = shorts.first().map_or(1, |(_, f)| f.multiplier);
    (shorts.iter().map(|(net, _)| net * multiplier).sum(), multiplier)
}

/// A deposit for one class: mostly fewer shares than cover all its net shorts.
pub fn deposit(rng: &mut Rng, a: &Account, class: u32) -> [u32; 2] {
    let (whole, multiplier) = whole_cover(a, class);
    let shares = match rng.below(10) {
        0 => 0,
        1 => u64::from(MOST_SHARES),
        2 => rng.below(u64::from(MOST_SHARES) + 1),
        3 => whole,
        4 => whole.saturating_sub(1),
        _ => rng.below(whole + multiplier),
    };
    [class, shares.min(u64::from(MOST_SHARES)) as u32]
}

/// Deposits for some classes of an account, in any order.
pub fn deposits(rng: &mut Rng, a: &Account) -> Vec<[u32; 2]> {
    let share = rng.within(1, 4);
    let mut named: Vec<u32> = classes(&a.day).into_keys().filter(|_| rng.below(4) < share).collect();
    rng.shuffle(&mut named);
    named.into_iter().map(|class| deposit(rng, a, class)).collect()
}

/// One change of the words of deposits: mostly one that row 50 refuses.
pub fn damage_deposits(rng: &mut Rng, words: &mut Vec<u32>) {
    let at = 2 * rng.below(words.len() as u64 / 2 + 1) as usize;
    let some = words.len() >= 2;
    let some_at = if some { 2 * rng.below(words.len() as u64 / 2) as usize } else { 0 };
    match rng.below(9) {
        // an odd number of words
        0 => words.push(rng.next() as u32),
        1 if some => drop(words.remove(some_at)),
        // an unknown class, with stray high bits or never a class number
        2 if some => words[some_at] |= 1 << rng.within(6, 31),
        3 => drop(words.splice(at..at, [rng.below(70) as u32, rng.below(2000) as u32])),
        // a class named twice
        4 if some => drop(words.splice(at..at, [words[some_at], rng.below(2000) as u32])),
        // shares at the limit and above it
        5 if some => words[some_at + 1] = rng.pick(&[MOST_SHARES, MOST_SHARES + 1, MOST_SHARES | 1 << 31, u32::MAX]),
        6 if some => words.swap(some_at, some_at + 1),
        7 if some && rng.once_in(8) => *words = words.repeat(5000),
        _ if some => words[some_at + rng.below(2) as usize] ^= 1 << rng.below(32),
        _ => words.push(0),
    }
}

/// An account of a run and the words of its deposits, some of both damaged; of four, one is no account of futures.
pub fn mixed_case(rng: &mut Rng, i: usize) -> (Account, Vec<u32>) {
    let mut a = if i % 4 == 3 { account(rng, mixed(i / 4)) } else { futures_account(rng, mixed_futures(i)) };
    let mut words = deposits(rng, &a).concat();
    for _ in 0..[0, 0, 0, 0, 1, 1, 2][i % 7] {
        damage_deposits(rng, &mut words);
    }
    if i % 11 == 0 {
        damage(rng, &mut a);
    }
    (a, words)
}
