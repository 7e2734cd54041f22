//! A batch as its records of six words, and what a record adds to its position.
use crate::accounts::amount_words;
use crate::reading::amount;
use std::collections::BTreeMap;

pub fn records_of(batch: &[u32]) -> Vec<[u32; 6]> {
    batch[1..].chunks(6).map(|w| w.try_into().expect("six words")).collect()
}

pub fn batch_of(records: &[[u32; 6]]) -> Vec<u32> {
    let mut out = vec![1 << 29 | records.len() as u32];
    out.extend(records.iter().flatten());
    out
}

pub fn net(record: &[u32; 6]) -> i128 {
    let quantity = |w: u32| i128::from(w & 0x1fff_ffff);
    quantity(record[2]) - quantity(record[1])
}

pub fn dvp(record: &[u32; 6]) -> i128 {
    amount(&record[3..]).expect("an amount")
}

pub fn set_dvp(record: &mut [u32; 6], z: i128) {
    record[3..].copy_from_slice(&amount_words(z < 0, z.unsigned_abs() as u64));
}

/// Net and DVP sum of each position that is held, in the order of request U7: series place, open before exercised, ordinary before fail.
pub fn sums(records: &[[u32; 6]]) -> Vec<((u32, u32, u32), i128, i128)> {
    let mut out: BTreeMap<(u32, u32, u32), (i128, i128)> = BTreeMap::new();
    for r in records {
        let sum = out.entry((r[0] & 255, r[0] >> 8 & 1, r[0] >> 9 & 1)).or_default();
        *sum = (sum.0 + net(r), sum.1 + dvp(r));
    }
    out.into_iter().filter(|(_, sum)| *sum != (0, 0)).map(|(key, (net, dvp))| (key, net, dvp)).collect()
}

/// A position of this record alone is held.
pub fn is_held(record: &[u32; 6]) -> bool {
    net(record) != 0 || dvp(record) != 0
}
