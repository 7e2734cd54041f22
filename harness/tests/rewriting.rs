//! The calls that rewrite a batch against the reckoner: answer and every word of the memory.
use harness::accounts::{Account, Size, LARGEST, SMALL, TYPICAL};
use harness::additions::{addition, mixed_addition};
use harness::beside::{compare, rewritten, room};
use harness::layout::{LONGEST_BATCH, MOST_RECORDS};
use harness::positions::{traded, with_positions};
use harness::reckoner::{Refusal, MOST_DVP};
use harness::records::{batch_of, dvp, is_held, net, records_of};
use harness::requests::{check_rewriting, rewritings};
use harness::rng::Rng;
use harness::unit;
use std::collections::BTreeMap;

/// What row 31 refuses: sums above the limit and below its negative, those by one unit, those of a position that is flat.
#[derive(Debug, Default)]
struct TooLarge {
    signs: [usize; 2],
    by_one: [usize; 2],
    flat: usize,
}

impl TooLarge {
    /// Record `at` is the first of the position that is refused.
    fn count(&mut self, batch: &[u32], at: usize) {
        let all = records_of(batch);
        let own: Vec<[u32; 6]> = all.iter().filter(|r| r[0] == all[at][0]).copied().collect();
        let sum: i128 = own.iter().map(dvp).sum();
        assert!(sum.abs() > MOST_DVP && all[..at].iter().all(|r| r[0] != all[at][0]));
        let sign = usize::from(sum < 0);
        self.signs[sign] += 1;
        self.by_one[sign] += usize::from(sum.abs() == MOST_DVP + 1);
        self.flat += usize::from(own.iter().map(net).sum::<i128>() == 0);
    }
}

/// The rows that both calls have.
const ROWS: [u32; 21] = [10, 11, 12, 13, 14, 15, 16, 17, 18, 20, 21, 22, 23, 24, 25, 26, 27, 28, 30, 31, 40];

#[test]
fn random_and_damaged_batches() {
    let mut rng = Rng::new(7101);
    let mut fill = Rng::new(7102);
    let mut numbers: [BTreeMap<u32, usize>; 2] = Default::default();
    // refusals of a record's length, those where the batch fits its header, and of words of the record
    let (mut too_large, mut by_length, mut in_record) = (TooLarge::default(), 0, BTreeMap::new());
    for i in 0..20_000 {
        let (a, record) = mixed_addition(&mut rng, i);
        for (record, numbers) in [None, Some(&record[..])].into_iter().zip(&mut numbers) {
            let answer = compare(&a, record, room(&mut rng, &a), &mut fill, &format!("case {i}, {record:?}"));
            let number = answer.as_ref().err().map_or(0, |r| r.number);
            *numbers.entry(number).or_default() += 1;
            let Err(Refusal { number, place }) = answer else { continue };
            let added = record.unwrap_or(&[]);
            match number {
                21 if record.is_some() => by_length += usize::from(a.batch.len() == 1 + 6 * (a.batch[0] & 0x1fff_ffff) as usize),
                22 | 27 | 28 if place >= a.batch.len() => *in_record.entry(number).or_insert(0) += 1,
                23..=26 if place >= a.batch.len() / 6 => *in_record.entry(number).or_insert(0) += 1,
                31 => too_large.count(&[&a.batch[..], added].concat(), place),
                _ => {}
            }
        }
    }
    let [rewritings, additions] = numbers;
    println!("rewritings by number: {rewritings:?}; additions: {additions:?}");
    println!("21 by the record's length: {by_length}; of the added record: {in_record:?}; 31: {too_large:?}");
    for row in ROWS {
        assert!(rewritings[&row] >= 20 && additions[&row] >= 20, "row {row}");
    }
    assert_eq!(rewritings.len(), 1 + ROWS.len());
    assert_eq!(additions.len(), 2 + ROWS.len());
    assert!(rewritings[&0] >= 8000 && additions[&0] >= 6000 && additions[&32] >= 50);
    assert!([rewritings, additions].iter().all(|n| n[&30] >= 300 && n[&31] >= 500 && n[&40] >= 1000));
    assert!(by_length >= 300 && [22, 23, 24, 25, 27, 28].iter().all(|row| in_record[row] >= 30));
    assert!(too_large.signs.iter().all(|&n| n >= 300) && too_large.by_one.iter().all(|&n| n >= 30) && too_large.flat >= 100);
}

/// Adding lacks space exactly where 256 positions are held and the record makes another.
#[test]
fn full_batches() {
    let mut rng = Rng::new(7103);
    let mut fill = Rng::new(7104);
    // by the records of the batch, of its rewriting and of the rewriting with the record; none where space lacks
    let mut counts: BTreeMap<(usize, usize, Option<usize>), usize> = BTreeMap::new();
    for i in 0..3000 {
        let size = Size { classes: rng.within(1, LARGEST.classes), ..LARGEST };
        let a = with_positions(&mut rng, size, MOST_RECORDS - i % 3, MOST_RECORDS - i / 3 % 3);
        let Some(held) = rewritten(&a).map(|words| records_of(&words)) else { continue };
        let record = addition(&mut rng, &a);
        let after = match compare(&a, Some(&record), LONGEST_BATCH, &mut fill, &format!("case {i}")) {
            Ok(words) => Some(records_of(&words).len()),
            Err(Refusal { number: 32, place: 0 }) => None,
            Err(_) => continue,
        };
        let makes_another = is_held(&record[..].try_into().expect("six words")) && held.iter().all(|r| r[0] != record[0]);
        assert_eq!(after.is_none(), held.len() == 256 && makes_another, "case {i}");
        *counts.entry((records_of(&a.batch).len(), held.len(), after)).or_default() += 1;
    }
    println!("records, rewritten, with the record: {counts:?}");
    for (before, after) in [(256, None), (256, Some(256)), (256, Some(255)), (255, Some(256)), (255, Some(255)), (255, Some(254))]
    {
        assert!(counts[&(256, before, after)] >= 20, "{before}, {after:?}");
    }
    assert!(counts[&(255, 255, Some(256))] >= 20);
}

/// An account that the unit rewrites, and a record that it adds to it.
fn accepted(rng: &mut Rng, make: impl Fn(&mut Rng) -> Account) -> (Account, Vec<u32>) {
    loop {
        let a = make(rng);
        let record = addition(rng, &a);
        if rewritten(&a).is_some() && unit::add_record(&a.day, &a.batch, &record, &mut [0; LONGEST_BATCH]).is_ok() {
            return (a, record);
        }
    }
}

#[test]
fn every_length_of_memory() {
    let mut rng = Rng::new(7105);
    let mut fill = Rng::new(7106);
    let of_trades = [SMALL, SMALL, TYPICAL, LARGEST].map(|size| accepted(&mut rng, |rng| traded(rng, size)));
    let longest = accepted(&mut rng, |rng| with_positions(rng, LARGEST, MOST_RECORDS, MOST_RECORDS));
    for (a, record) in of_trades.into_iter().chain([longest]) {
        for record in [None, Some(&record[..])] {
            let needed = compare(&a, record, LONGEST_BATCH, &mut fill, "enough").expect("accepted").len();
            for room in 0..needed + 9 {
                let answer = compare(&a, record, room, &mut fill, &format!("room {room}")).map(|words| words.len());
                assert_eq!(answer, if room < needed { Err(Refusal { number: 40, place: needed }) } else { Ok(needed) });
            }
        }
    }
}

/// Every bit of a record that is added, one at a time, and every length about its own.
#[test]
fn every_bit_and_length_of_a_record() {
    let mut rng = Rng::new(7107);
    let mut fill = Rng::new(7108);
    for i in 0..40 {
        let (a, record) = accepted(&mut rng, |rng| traded(rng, if i % 10 == 0 { TYPICAL } else { SMALL }));
        for bit in 0..32 * record.len() {
            let mut changed = record.clone();
            changed[bit / 32] ^= 1 << (bit % 32);
            compare(&a, Some(&changed), LONGEST_BATCH, &mut fill, &format!("account {i}, bit {bit}")).ok();
        }
        for n in 0..14 {
            let words: Vec<u32> = record.iter().copied().cycle().take(n).collect();
            let answer = compare(&a, Some(&words), LONGEST_BATCH, &mut fill, &format!("account {i}, {n} words"));
            assert_eq!(answer.err(), (n != 6).then_some(Refusal { number: 21, place: 0 }));
        }
    }
}

/// Every bit of a small account's files, one at a time.
#[test]
fn every_bit_of_the_files() {
    let mut rng = Rng::new(7109);
    let mut fill = Rng::new(7110);
    let (a, record) = accepted(&mut rng, |rng| traded(rng, SMALL));
    for which in 0..2 {
        for bit in 0..32 * [a.day.len(), a.batch.len()][which] {
            let mut changed = a.clone();
            [&mut changed.day, &mut changed.batch][which][bit / 32] ^= 1 << (bit % 32);
            for record in [None, Some(&record[..])] {
                compare(&changed, record, LONGEST_BATCH, &mut fill, &format!("file {which}, bit {bit}")).ok();
            }
        }
    }
}

/// A record and a batch far longer than they may be.
#[test]
fn long_inputs() {
    let mut rng = Rng::new(7111);
    let mut fill = Rng::new(7112);
    let (a, record) = accepted(&mut rng, |rng| traded(rng, TYPICAL));
    let answer = compare(&a, Some(&record.repeat(100_000)), LONGEST_BATCH, &mut fill, "record");
    assert_eq!(answer, Err(Refusal { number: 21, place: 0 }));
    let records = records_of(&a.batch).repeat(20_000);
    let long = Account { batch: batch_of(&records), ..a };
    for record in [None, Some(&record[..])] {
        let answer = compare(&long, record, LONGEST_BATCH, &mut fill, "batch");
        assert_eq!(answer, Err(Refusal { number: 20, place: 0 }));
    }
}

/// The cases of an outside reckoner.
#[test]
fn agrees_with_the_vectors() {
    for case in rewritings() {
        check_rewriting(&case, unit::rewrite, unit::add_record);
    }
}
