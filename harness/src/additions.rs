//! Records to add to an account's batch, and records damaged so that a row refuses them.
use crate::accounts::{
    account, amount_words, damage, damage_word, mixed, word, Account, Size, LARGEST, SMALL, TYPICAL, WORD_WAYS,
};
use crate::layout::MOST_RECORDS;
use crate::positions::{keys, next_record, traded, with_positions};
use crate::records::records_of;
use crate::rng::Rng;

/// A record behind those given: of a position that they have, or of any of these keys; without keys one that row 23 refuses.
pub(crate) fn record_behind(rng: &mut Rng, day: &[u32], before: &[[u32; 6]], keys: &[u32]) -> [u32; 6] {
    if keys.is_empty() {
        let [high, middle, low] = amount_words(false, 0);
        return [word(2, 0), word(4, 0), word(4, 0), high, middle, low];
    }
    let key = if !before.is_empty() && rng.once_in(2) { rng.pick(before)[0] } else { rng.pick(keys) };
    next_record(rng, day, before, key)
}

/// A record to add: of a position that the batch has, or of any.
pub fn addition(rng: &mut Rng, a: &Account) -> Vec<u32> {
    record_behind(rng, &a.day, &records_of(&a.batch), &keys(&a.day)).to_vec()
}

/// The ways of `damage_record`.
pub(crate) const RECORD_WAYS: u64 = 2 + WORD_WAYS;

/// One change of a record: its position, or a word as in a batch.
pub(crate) fn damage_record(rng: &mut Rng, record: &mut [u32], way: u64) {
    match way {
        0 => record[0] ^= 1 << rng.below(8),
        1 => record[0] ^= 1 << rng.within(8, 9),
        way => {
            let mut batch = [&[word(1, 1)], &record[..]].concat();
            damage_word(rng, &mut batch, way - 2);
            record.copy_from_slice(&batch[1..]);
        }
    }
}

/// One change of a record to add: its length, or as of any record.
fn damage_addition(rng: &mut Rng, record: &mut Vec<u32>) {
    match rng.below(2 + RECORD_WAYS) {
        0 => record.truncate(rng.below(6) as usize),
        1 => record.extend(vec![7; rng.within(1, 6) as usize]),
        way => damage_record(rng, record, way - 2),
    }
}

/// An account of a run: of eight, two are any account, one holds as many positions as a batch has records or a few less, and the others have
/// many records of few positions.
pub(crate) fn mixed_positions(rng: &mut Rng, i: usize) -> Account {
    match i % 8 {
        0 | 1 => account(rng, mixed(i / 8)),
        2 => {
            let size = Size { classes: rng.within(1, LARGEST.classes), ..LARGEST };
            with_positions(rng, size, MOST_RECORDS - i / 8 % 4, MOST_RECORDS - i / 8 % 2)
        }
        3 => traded(rng, if i % 5 == 0 { LARGEST } else { TYPICAL }),
        _ => traded(rng, SMALL),
    }
}

/// Such an account and a record to add to it, some of both damaged.
pub fn mixed_addition(rng: &mut Rng, i: usize) -> (Account, Vec<u32>) {
    let mut a = mixed_positions(rng, i);
    let mut record = addition(rng, &a);
    for _ in 0..[0, 0, 0, 1, 1, 2][i % 6] {
        damage(rng, &mut a);
    }
    if i % 5 == 4 {
        damage_addition(rng, &mut record);
    }
    (a, record)
}
