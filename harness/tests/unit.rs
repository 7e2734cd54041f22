//! The byte call against the reckoner: number, place and every byte of the memory.
use harness::accounts::{
    accepted, account, all_lines, damage, damage_word, extreme, mixed, out_of_order, type_of, utmost, without_adjustments,
    without_decimals, Account, ORDER, SMALL, TYPICAL, WORD_WAYS,
};
use harness::fields::{EXPIRED_FUTURE, TYPES};
use harness::layout::{counts, series_at, CLASS_WORDS, LONGEST_BATCH, LONGEST_DAY};
use harness::reading::read_report;
use harness::reckoner::{call_bytes, first_bad_record, reckon, text, to_bytes, to_words, words, Refusal};
use harness::rng::Rng;
use harness::unit;
use harness::vectors::vectors;
use std::collections::{BTreeMap, BTreeSet};

const GUARD: usize = 32;

/// Bytes at an address that may be unaligned: the bytes begin at the returned place.
fn shifted(bytes: &[u8], shift: usize) -> Vec<u8> {
    let mut out = vec![0x5a; shift];
    out.extend(bytes);
    out
}

/// Both calls on the same inputs and equal memories; the bytes around the memory and the inputs must stay.
fn compare(day: &[u8], batch: &[u8], room: usize, fill: &mut Rng, case: &str) -> Result<usize, Refusal> {
    let shift = fill.below(4) as usize;
    let (day_at, batch_at) = (shifted(day, shift), shifted(batch, shift ^ 3));
    let mut around: Vec<u8> = (0..2 * GUARD + shift + room).map(|_| fill.next() as u8).collect();
    let mut expected = around.clone();
    let memory = GUARD + shift..GUARD + shift + room;
    let theirs = call_bytes(day, batch, &mut expected[memory.clone()]);
    let ours = unit::call(&day_at[shift..], &batch_at[shift ^ 3..], &mut around[memory]);
    assert_eq!(ours, theirs, "{case}");
    assert!(around == expected, "memory: {case}");
    assert!(day_at[shift..] == *day && batch_at[shift ^ 3..] == *batch, "inputs: {case}");
    ours
}

/// A memory's length: mostly enough, else about the length needed or any other.
fn room(rng: &mut Rng, a: &Account) -> usize {
    let needed = reckon(&a.day, &a.batch).map_or(13, |report| words(&report).len()) * 4;
    match rng.below(10) {
        0..=3 => 4460,
        4 => needed,
        5 => needed + rng.within(1, 9) as usize,
        6 => needed - rng.within(1, 9) as usize,
        7 => rng.below(4460) as usize,
        8 => rng.below(8) as usize,
        _ => 4460 + rng.below(200) as usize,
    }
}

/// Changes that only files of bytes can have: a ragged length, nothing at all, more than the longest form.
fn damage_bytes(rng: &mut Rng, day: &mut Vec<u8>, batch: &mut Vec<u8>) {
    let longest = [4 * LONGEST_DAY, 4 * LONGEST_BATCH];
    let which = rng.below(2) as usize;
    let file = if which == 0 { day } else { batch };
    match rng.below(6) {
        0 => file.truncate(rng.below(file.len() as u64 + 1) as usize),
        1 => file.extend(vec![7; rng.within(1, 3) as usize]),
        2 => file.clear(),
        3 => file.resize(longest[which], 0),
        4 => file.resize(longest[which] + 4, 0),
        _ => file.resize(longest[which] + rng.within(1, 4000) as usize, 0),
    }
}

#[test]
fn random_and_damaged_accounts() {
    let mut rng = Rng::new(4711);
    let mut fill = Rng::new(4712);
    let mut numbers: BTreeMap<u32, usize> = BTreeMap::new();
    let mut types: BTreeSet<(u32, bool, bool)> = BTreeSet::new();
    // answers that are others without the adjustments, by number
    let mut adjusted: BTreeMap<u32, usize> = BTreeMap::new();
    // .. and without the decimals of the offsets
    let mut decimals: BTreeMap<u32, usize> = BTreeMap::new();
    // refusals by row 17 and the type of the series; of expired futures by serial and adjustment, and by rows 24 to 26
    let mut refused_types: BTreeMap<u32, usize> = BTreeMap::new();
    let (mut expired, mut expired_records) = ([0; 2], BTreeMap::new());
    let mut longest = 0;
    for i in 0..60_000 {
        let mut a = account(&mut rng, mixed(i));
        let damages = [0, 0, 0, 1, 1, 2][i % 6];
        for _ in 0..damages {
            damage(&mut rng, &mut a);
        }
        let (mut day, mut batch) = (to_bytes(&a.day), to_bytes(&a.batch));
        let room = room(&mut rng, &a);
        if i % 11 == 0 {
            damage_bytes(&mut rng, &mut day, &mut batch);
            if rng.once_in(3) {
                damage_bytes(&mut rng, &mut day, &mut batch);
            }
        }
        let result = compare(&day, &batch, room, &mut fill, &format!("case {i}"));
        let number = result.err().map_or(0, |r| r.number);
        *numbers.entry(number).or_default() += 1;
        if matches!(number, 0 | 12 | 17) && reckon(&a.day, &a.batch) != reckon(&without_adjustments(&a.day), &a.batch) {
            *adjusted.entry(number).or_default() += 1;
        }
        if matches!(number, 0 | 12 | 14) && reckon(&a.day, &a.batch) != reckon(&without_decimals(&a.day), &a.batch) {
            *decimals.entry(number).or_default() += 1;
        }
        // as the bytes have them: a damage of those may mend one of the words
        let (day, batch) = (to_words(&day), to_words(&batch));
        match result {
            Ok(n) => {
                longest = longest.max(n);
                for record in batch[1..].chunks(6) {
                    let t = type_of(&day, (record[0] & 255) as usize);
                    types.insert((t, record[0] >> 8 & 1 == 1, record[0] >> 9 & 1 == 1));
                }
            }
            Err(Refusal { number: 17, place }) => {
                let (t, series) = (type_of(&day, place), series_at(counts(&day).0, place));
                *refused_types.entry(t).or_default() += 1;
                let reasons = [day[series] & 127 != 0, day[series + 4] != 3 << 29];
                expired.iter_mut().zip(reasons).for_each(|(n, holds)| *n += usize::from(t == EXPIRED_FUTURE && holds));
            }
            Err(Refusal { number: number @ 24..=26, place }) => {
                if type_of(&day, (batch[1 + 6 * place] & 255) as usize) == EXPIRED_FUTURE {
                    *expired_records.entry(number).or_insert(0) += 1;
                }
            }
            Err(_) => {}
        }
    }
    println!("answers by number: {numbers:?}, by the adjustments: {adjusted:?}, by the offsets' decimals: {decimals:?}");
    println!("17 by type: {refused_types:?}; expired futures by 17 for serial, adjustment: {expired:?}, by 24 to 26: {expired_records:?}");
    println!("longest report: {longest} words");
    let reached: Vec<u32> = numbers.keys().copied().collect();
    let table = [0, 1, 2, 10, 11, 12, 13, 14, 15, 16, 17, 18, 20, 21, 22, 23, 24, 25, 26, 27, 28, 30, 40];
    assert_eq!(reached, table);
    assert!(numbers[&0] >= 20_000 && numbers[&18] >= 1000);
    assert!(adjusted[&0] >= 500 && adjusted[&12] >= 50 && adjusted[&17] >= 50);
    assert!(decimals[&0] >= 500 && decimals[&12] >= 50 && decimals[&14] >= 50);
    assert!([0, 7, 9, 15].iter().all(|t| refused_types[t] >= 30) && expired.iter().all(|&n| n >= 50));
    assert!((24..=26).all(|row| expired_records[&row] >= 30));
    // every type open and in the ordinary book, options exercised, securities as fails
    let open = TYPES.into_iter().map(|t| (t, false, false));
    let all: BTreeSet<_> = open.chain([(2, true, false), (3, true, false)]).chain((4..=6).map(|t| (t, false, true))).collect();
    assert_eq!(types, all);
}

/// Some words of an accepted account's batch damaged. Rows 22 and 27 often name a word behind the first bad record, and 28 never does.
#[test]
fn bad_words_of_a_batch() {
    let mut rng = Rng::new(4713);
    let mut fill = Rng::new(4714);
    let mut numbers: BTreeMap<u32, [usize; 2]> = BTreeMap::new();
    for i in 0..600 {
        let a = accepted(&mut rng, if i % 10 == 0 { TYPICAL } else { SMALL });
        for n in 0..20 {
            let mut batch = a.batch.clone();
            for _ in 0..1 + n % 4 {
                let way = rng.below(WORD_WAYS);
                damage_word(&mut rng, &mut batch, way);
            }
            let result = compare(&to_bytes(&a.day), &to_bytes(&batch), 4460, &mut fill, &format!("account {i}, batch {n}"));
            if let Err(r @ Refusal { number: 22 | 27 | 28, .. }) = result {
                let first = first_bad_record(&batch).expect("a bad record");
                numbers.entry(r.number).or_default()[usize::from((r.place - 1) / 6 > first)] += 1;
            }
        }
    }
    println!("by number, in the first bad record and behind it: {numbers:?}");
    let [kind, range, zero] = [22, 27, 28].map(|row| numbers[&row]);
    assert!(kind.iter().chain(&range).all(|&n| n >= 200) && zero[0] >= 200 && zero[1] == 0);
}

/// Prices of an accepted account's classes out of order at one of the eleven places of row 18, or equal there.
#[test]
fn prices_out_of_order() {
    let mut rng = Rng::new(4715);
    let mut fill = Rng::new(4716);
    // by the place: above, by one unit, and equal in an accepted account
    let mut places = [[0; 3]; 11];
    let mut behind = 0;
    for i in 0..600 {
        let a = accepted(&mut rng, if i % 10 == 0 { TYPICAL } else { SMALL });
        for n in 0..20 {
            let mut day = a.day.clone();
            out_of_order(&mut rng, &mut day, 1 + n % 2);
            let case = format!("account {i}, day file {n}");
            let (told, refused) = match compare(&to_bytes(&day), &to_bytes(&a.batch), 4460, &mut fill, &case) {
                Ok(_) => (counts(&day).0, None),
                Err(Refusal { number: 18, place }) => (place + 1, Some(place)),
                Err(_) => continue,
            };
            for (class, w) in day[1..].chunks(CLASS_WORDS).enumerate().take(told) {
                assert_eq!(ORDER.iter().any(|&(first, second)| w[first] > w[second]), refused == Some(class), "{case}");
                for ((first, second), [above, by_one, equal]) in ORDER.into_iter().zip(&mut places) {
                    *above += usize::from(w[first] > w[second]);
                    *by_one += usize::from(w[first] == w[second] + 1);
                    *equal += usize::from(refused.is_none() && w[first] == w[second]);
                }
            }
            behind += usize::from(refused.is_some_and(|class| class > 0));
        }
    }
    println!("above, by one unit, equal, by the place: {places:?}; {behind} refused behind the first class");
    assert!(places.as_flattened().iter().all(|&n| n >= 100) && behind >= 1000);
}

#[test]
fn longest_report() {
    let a = all_lines();
    let mut fill = Rng::new(21);
    let (day, batch) = (to_bytes(&a.day), to_bytes(&a.batch));
    assert_eq!(compare(&day, &batch, 4460, &mut fill, "58 lines"), Ok(1115));
    assert_eq!(compare(&day, &batch, 4459, &mut fill, "58 lines"), Err(Refusal { number: 40, place: 1115 }));
}

/// Amounts at the limits of the rows.
#[test]
fn extreme_amounts() {
    let mut rng = Rng::new(22);
    let mut fill = Rng::new(23);
    let mut highest = 0;
    for i in 0..1000 {
        let a = extreme(&mut rng);
        compare(&to_bytes(&a.day), &to_bytes(&a.batch), 4460, &mut fill, &format!("case {i}")).expect("accepted");
        highest = highest.max(reckon(&a.day, &a.batch).unwrap().totals[2]);
    }
    println!("highest account total: {highest}");
    assert!(highest > 1_000_000_000_000_000_000);
    let a = utmost();
    compare(&to_bytes(&a.day), &to_bytes(&a.batch), 4460, &mut fill, "utmost").expect("accepted");
    assert_eq!(reckon(&a.day, &a.batch).unwrap().totals[2], 256 * 15_000_000_000_000_000);
}

#[test]
fn every_length_of_memory() {
    let mut rng = Rng::new(31);
    let mut fill = Rng::new(32);
    for size in [SMALL, TYPICAL] {
        let a = accepted(&mut rng, size);
        let (day, batch) = (to_bytes(&a.day), to_bytes(&a.batch));
        let needed = words(&reckon(&a.day, &a.batch).unwrap()).len();
        for room in 0..4 * needed + 9 {
            let result = compare(&day, &batch, room, &mut fill, &format!("room {room}"));
            let expected = if room / 4 < needed { Err(Refusal { number: 40, place: needed }) } else { Ok(needed) };
            assert_eq!(result, expected);
        }
    }
}

/// Compares with one of the two files changed, in each of the ways from 0 on.
fn change_each(a: &Account, ways: impl Fn(usize) -> usize, change: impl Fn(&mut Vec<u8>, usize), fill: &mut Rng) {
    let files = [to_bytes(&a.day), to_bytes(&a.batch)];
    for which in 0..2 {
        for n in 0..ways(files[which].len()) {
            let mut changed = files.clone();
            change(&mut changed[which], n);
            compare(&changed[0], &changed[1], 4460, fill, &format!("file {which}, change {n}")).ok();
        }
    }
}

#[test]
fn every_length_of_files() {
    let mut rng = Rng::new(41);
    let mut fill = Rng::new(42);
    let a = accepted(&mut rng, SMALL);
    change_each(&a, |len| len + 9, |file, n| file.resize(n, 0), &mut fill);
    let (day, batch) = (to_bytes(&a.day), to_bytes(&a.batch));
    assert_eq!(compare(&[], &[], 0, &mut fill, "nothing"), Err(Refusal { number: 10, place: 0 }));
    assert_eq!(compare(&day, &[], 0, &mut fill, "no batch"), Err(Refusal { number: 20, place: 0 }));
    assert_eq!(compare(&[], &batch[1..], 0, &mut fill, "ragged"), Err(Refusal { number: 2, place: 0 }));
    assert_eq!(compare(&day[1..], &batch[1..], 0, &mut fill, "ragged"), Err(Refusal { number: 1, place: 0 }));
}

/// Every bit of a small account, one at a time.
#[test]
fn every_bit() {
    let mut rng = Rng::new(51);
    let mut fill = Rng::new(52);
    let a = accepted(&mut rng, SMALL);
    change_each(&a, |len| 8 * len, |file, bit| file[bit / 8] ^= 1 << (bit % 8), &mut fill);
}

/// The vectors: the printed text from the unit's own bytes.
#[test]
fn agrees_with_the_vectors() {
    let mut fill = Rng::new(61);
    for v in vectors() {
        compare(&v.day, &v.batch, 4460, &mut fill, &v.name).ok();
        let mut memory = vec![0xa5; 4460];
        let result = unit::call(&v.day, &v.batch, &mut memory)
            .map(|n| read_report(&to_words(&memory)[..n]).unwrap_or_else(|| panic!("no report: {}", v.name)));
        assert_eq!(text(&result), v.text, "{}", v.name);
    }
}
