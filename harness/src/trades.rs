//! Days to try: openings and their trades, some of which are left out, and lists that row 62 refuses.
use crate::accounts::{damage, type_of, word, Account};
use crate::additions::{damage_record, mixed_positions, record_behind, RECORD_WAYS};
use crate::layout::MOST_TRADES;
use crate::positions::keys;
use crate::reckoner::is_security;
use crate::records::{dvp, records_of, set_dvp};
use crate::rng::Rng;

/// The record that takes another one back.
pub fn reverse(record: &[u32; 6]) -> [u32; 6] {
    let mut out = *record;
    out.swap(1, 2);
    set_dvp(&mut out, -dvp(record));
    out
}

/// So many trades behind an account's records. Some are damaged; some take the last one back, and of these half are followed by it once more.
pub fn trades(rng: &mut Rng, a: &Account, count: usize) -> Vec<[u32; 6]> {
    let (mut before, keys) = (records_of(&a.batch), keys(&a.day));
    let mut out: Vec<[u32; 6]> = Vec::new();
    while out.len() < count {
        let last = before.last().copied();
        let more = match (rng.below(8), last) {
            (0, _) => {
                let mut record = record_behind(rng, &a.day, &before, &keys);
                let way = rng.below(RECORD_WAYS);
                damage_record(rng, &mut record, way);
                out.push(record);
                continue;
            }
            (1, Some(last)) => vec![reverse(&last)],
            (2, Some(last)) => vec![reverse(&last), last],
            _ => vec![record_behind(rng, &a.day, &before, &keys)],
        };
        before.extend(&more);
        out.extend(more);
    }
    out.truncate(count);
    out
}

/// So many small trades of an account's positions; of ten, one is exercised and a fail, which rows 24 and 25 refuse.
pub fn small_trades(rng: &mut Rng, a: &Account, count: usize) -> Vec<[u32; 6]> {
    let records = records_of(&a.batch);
    let trade = |i: usize| {
        let mut out = rng.pick(&records);
        (out[1], out[2]) = (word(4, rng.below(4) as u32), word(4, rng.below(4) as u32));
        let moved = if is_security(type_of(&a.day, (out[0] & 255) as usize)) { rng.below(2001) as i128 - 1000 } else { 0 };
        set_dvp(&mut out, moved);
        out[0] |= if i % 10 == 9 { 3 << 8 } else { 0 };
        out
    };
    (0..count).map(trade).collect()
}

/// A list that is cut anywhere, has some words more, or is longer than it may be.
fn damage_list(rng: &mut Rng, trades: &mut Vec<u32>) {
    match rng.below(8) {
        0..=3 => trades.truncate(rng.below(trades.len() as u64 + 1) as usize),
        4..=6 => trades.extend(vec![7; rng.within(1, 6) as usize]),
        _ => {
            let longer = 6 * (MOST_TRADES + rng.within(1, 3) as usize);
            *trades = trades.iter().copied().chain([7]).cycle().take(longer).collect();
        }
    }
}

/// An account of a run and trades of its day, some of both damaged.
pub fn mixed_day(rng: &mut Rng, i: usize) -> (Account, Vec<u32>) {
    let mut a = mixed_positions(rng, i);
    let count = rng.below(if i % 8 < 4 { 10 } else { 24 }) as usize;
    let mut list = trades(rng, &a, count).concat();
    for _ in 0..[0, 0, 0, 0, 1, 1, 2][i % 7] {
        damage(rng, &mut a);
    }
    if i % 11 == 10 {
        damage_list(rng, &mut list);
    }
    (a, list)
}
