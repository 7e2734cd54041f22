//! Accounts made by their positions: many records of a few, or as many positions as a batch has records.
use crate::accounts::{day_file, record, type_of, word, Account, Size};
use crate::layout::counts;
use crate::reckoner::{is_option, is_security, MOST_DVP};
use crate::records::{batch_of, dvp, is_held, set_dvp};
use crate::rng::Rng;

/// The key word of every position that the day file allows.
pub(crate) fn keys(day: &[u32]) -> Vec<u32> {
    let of_series = |s: usize| {
        let open = word(2, s as u32);
        match type_of(day, s) {
            t if is_option(t) => vec![open, open | 1 << 8],
            t if is_security(t) => vec![open, open | 1 << 9],
            _ => vec![open],
        }
    };
    (0..counts(day).1).flat_map(of_series).collect()
}

/// A record with this key.
fn record_of(rng: &mut Rng, day: &[u32], key: u32) -> [u32; 6] {
    let mut out = record(rng, day, (key & 255) as usize);
    out[0] = key;
    out
}

/// A record with this key behind those given. Half of them close an earlier one, with its DVP amount or another; of a security, some bring
/// the DVP sum to its limit or a unit above it.
pub(crate) fn next_record(rng: &mut Rng, day: &[u32], before: &[[u32; 6]], key: u32) -> [u32; 6] {
    let own: Vec<[u32; 6]> = before.iter().filter(|r| r[0] == key).copied().collect();
    let mut out = record_of(rng, day, key);
    if !own.is_empty() && rng.once_in(2) {
        let closed = rng.pick(&own);
        (out[1], out[2]) = (closed[2], closed[1]);
        if rng.once_in(2) {
            set_dvp(&mut out, -dvp(&closed));
        }
    }
    if is_security(type_of(day, (key & 255) as usize)) && rng.once_in(12) {
        let sum: i128 = own.iter().map(dvp).sum();
        let z = rng.pick(&[1, -1]) * (MOST_DVP + i128::from(rng.below(2))) - sum;
        if z.abs() <= MOST_DVP {
            set_dvp(&mut out, z);
        }
    }
    out
}

/// An account of up to so many records, of few positions.
pub fn traded(rng: &mut Rng, size: Size) -> Account {
    let classes = rng.within(1, size.classes) as usize;
    let series = rng.within(1, size.series) as usize;
    let day = day_file(rng, classes, series);
    let mut keys = keys(&day);
    rng.shuffle(&mut keys);
    keys.truncate(rng.within(1, size.records / 3) as usize);
    let mut records = Vec::new();
    for _ in 0..rng.within(1, size.records) {
        let key = rng.pick(&keys);
        records.push(next_record(rng, &day, &records, key));
    }
    Account { day, batch: batch_of(&records) }
}

/// An account of so many positions and records, all held but those that a later record closes; its day file is of this size.
pub fn with_positions(rng: &mut Rng, size: Size, positions: usize, records: usize) -> Account {
    let (mut day, mut keys) = (Vec::new(), Vec::new());
    while keys.len() < positions {
        day = day_file(rng, size.classes as usize, size.series as usize);
        keys = self::keys(&day);
    }
    rng.shuffle(&mut keys);
    keys.truncate(positions);
    let held = |key: &u32| loop {
        let r = record_of(rng, &day, *key);
        if is_held(&r) {
            return r;
        }
    };
    let mut out: Vec<[u32; 6]> = keys.iter().map(held).collect();
    while out.len() < records {
        let key = rng.pick(&keys);
        out.push(next_record(rng, &day, &out, key));
    }
    Account { day, batch: batch_of(&out) }
}
