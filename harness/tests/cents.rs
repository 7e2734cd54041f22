//! The calls that convert a batch against the reckoner: answer and every word of the memory.
use harness::beside::compare_conversion;
use harness::cents::{Way, CENTS, MOST_CENTS, WAYS};
use harness::conversions::{batch, mixed_batch, room};
use harness::layout::{LONGEST_BATCH, MOST_RECORDS};
use harness::reckoner::{Refusal, MOST_DVP};
use harness::records::{dvp, records_of};
use harness::requests::{check_conversion, conversions};
use harness::rng::Rng;
use harness::unit;
use std::collections::BTreeMap;

/// Batches of a run, by what is looked at.
type Counts = BTreeMap<&'static str, usize>;

/// What a converted batch has.
fn count_converted(before: &[u32], after: &[u32], counts: &mut Counts) {
    let records: Vec<[i128; 2]> = records_of(before).iter().zip(records_of(after)).map(|(a, b)| [dvp(a), dvp(&b)]).collect();
    let any = |of: &dyn Fn([i128; 2]) -> bool| records.iter().any(|&both| of(both));
    let sorts = [
        ("no records", records.is_empty()),
        ("256 records", records.len() == MOST_RECORDS),
        ("an amount of 0", any(&|[z, _]| z == 0)),
        ("a negative amount", any(&|[z, _]| z < 0)),
        ("the highest amount", any(&|both| both.contains(&MOST_DVP))),
        ("the lowest amount", any(&|both| both.contains(&-MOST_DVP))),
        ("above 29 bits in both", any(&|both| both.iter().all(|z| z.abs() >> 29 != 0))),
        ("above 29 bits in units alone", any(&|both| both.iter().filter(|z| z.abs() >> 29 != 0).count() == 1)),
        ("a low word of 0", any(&|both| both.iter().any(|z| *z != 0 && z % (1 << 29) == 0))),
    ];
    sorts.into_iter().filter(|s| s.1).for_each(|(sort, _)| *counts.entry(sort).or_default() += 1);
}

/// What a refused batch has at the place.
fn count_refused(words: &[u32], r: Refusal, counts: &mut Counts) {
    let amount = |i: usize| dvp(&words[1 + 6 * i..7 + 6 * i].try_into().expect("six words"));
    let sorts = match r.number {
        20 => vec![
            ("20 by the bit alone", words.first().is_some_and(|h| h >> 29 == 1 && h & !(7 << 29 | CENTS) <= 256)),
            ("20 with 257 records", words.len() == 1 + 6 * 257),
            ("20 without words", words.is_empty()),
        ],
        27 => vec![("27 of an amount", (r.place - 1) % 6 == 3), ("27 of another word", (r.place - 1) % 6 < 3)],
        33 => {
            let z = amount(r.place);
            assert!(z % 100 != 0 && (0..r.place).all(|i| amount(i) % 100 == 0));
            vec![
                ("33 of a positive amount", z > 0),
                ("33 of a negative amount", z < 0),
                ("33 below a cent", z.abs() < 100),
                ("33 about the limit", z.abs() > MOST_DVP - 100),
                ("33 of a later record", r.place > 0),
            ]
        }
        34 => {
            let z = amount(r.place);
            assert!(z.abs() > MOST_CENTS && (0..r.place).all(|i| amount(i).abs() <= MOST_CENTS));
            vec![
                ("34 of a positive amount", z > 0),
                ("34 of a negative amount", z < 0),
                ("34 by one cent", z.abs() == MOST_CENTS + 1),
                ("34 at row 27's limit", z.abs() == MOST_DVP),
                ("34 of a later record", r.place > 0),
            ]
        }
        _ => Vec::new(),
    };
    sorts.into_iter().filter(|s| s.1).for_each(|(sort, _)| *counts.entry(sort).or_default() += 1);
}

#[test]
fn random_and_damaged_batches() {
    let mut rng = Rng::new(11_101);
    let mut fill = Rng::new(11_102);
    for (way, own) in WAYS.into_iter().zip([33, 34]) {
        let (mut numbers, mut counts): (BTreeMap<u32, usize>, Counts) = Default::default();
        for i in 0..20_000 {
            let words = mixed_batch(&mut rng, way, i);
            let answer = compare_conversion(way, &words, room(&mut rng, &words), &mut fill, &format!("{way:?}, case {i}"));
            *numbers.entry(answer.as_ref().err().map_or(0, |r| r.number)).or_default() += 1;
            match answer {
                Ok(converted) => count_converted(&words, &converted, &mut counts),
                Err(r) => count_refused(&words, r, &mut counts),
            }
        }
        println!("{way:?}: by number {numbers:?}; {counts:?}");
        assert_eq!(numbers.keys().copied().collect::<Vec<_>>(), [0, 20, 21, 22, 27, 28, own, 40]);
        assert!(numbers[&0] >= 9000 && numbers.values().all(|&n| n >= 400) && numbers[&own] >= 800);
        assert!(counts.len() == 9 + 3 + 2 + 5 && counts.values().all(|&n| n >= 150));
    }
}

/// Every bit of a small batch, one at a time.
#[test]
fn every_bit_of_a_batch() {
    let mut rng = Rng::new(11_103);
    let mut fill = Rng::new(11_104);
    for way in WAYS {
        let mut numbers: BTreeMap<u32, usize> = BTreeMap::new();
        for i in 0..40 {
            let words = batch(&mut rng, way, i % 5);
            for bit in 0..32 * words.len() {
                let mut changed = words.clone();
                changed[bit / 32] ^= 1 << (bit % 32);
                let answer = compare_conversion(way, &changed, LONGEST_BATCH, &mut fill, &format!("{way:?}, {i}, bit {bit}"));
                *numbers.entry(answer.err().map_or(0, |r| r.number)).or_default() += 1;
            }
        }
        println!("{way:?}: by number {numbers:?}");
        assert!([0, 20, 21, 22, 27].iter().all(|row| numbers[row] >= 100));
        // a bit of an amount in units is below a cent, or is no whole cents; one of an amount in cents may be above the limit
        assert!(numbers[if way == Way::ToCents { &33 } else { &34 }] >= 100);
    }
}

/// Headers of every kind and of each payload bit by itself, beside the bit of the edition, with as many records as they say where a batch may
/// have them.
#[test]
fn every_bit_of_the_header() {
    let mut rng = Rng::new(11_105);
    let mut fill = Rng::new(11_106);
    for way in WAYS {
        for kind in 0..8 {
            for payload in (0..29).map(|bit| 1 << bit).chain([0, 255, 257]) {
                // on the way back the bit of the edition is set without it
                let counted = if way == Way::FromCents { payload & !CENTS } else { payload };
                let records = if counted <= MOST_RECORDS as u32 { counted as usize } else { 0 };
                let mut words = batch(&mut rng, way, records);
                words[0] = kind << 29 | payload | way.bit();
                let case = format!("{way:?}, kind {kind}, payload {payload}");
                let answer = compare_conversion(way, &words, LONGEST_BATCH, &mut fill, &case);
                let fine = kind == 1 && counted <= MOST_RECORDS as u32;
                let expected = if fine { Ok(1 + 6 * records) } else { Err(Refusal { number: 20, place: 0 }) };
                assert_eq!(answer.map(|words| words.len()), expected, "{case}");
            }
        }
    }
}

#[test]
fn every_length_of_memory() {
    let mut rng = Rng::new(11_107);
    let mut fill = Rng::new(11_108);
    for way in WAYS {
        for records in [0, 1, 2, 7, 255, 256] {
            let words = batch(&mut rng, way, records);
            let needed = words.len();
            for room in 0..needed + 9 {
                let answer = compare_conversion(way, &words, room, &mut fill, &format!("{way:?}, room {room}"));
                let expected = if room < needed { Err(Refusal { number: 40, place: needed }) } else { Ok(needed) };
                assert_eq!(answer.map(|words| words.len()), expected, "{way:?}, room {room}");
            }
        }
    }
}

/// Every length of a batch about its own, and one far longer than it may be.
#[test]
fn every_length_of_a_batch() {
    let mut rng = Rng::new(11_109);
    let mut fill = Rng::new(11_110);
    for way in WAYS {
        for records in [0, 1, 3, 256] {
            let words = batch(&mut rng, way, records);
            let longer = [&words[..], &batch(&mut rng, way, 3)[1..]].concat();
            for n in 0..longer.len() {
                let answer = compare_conversion(way, &longer[..n], LONGEST_BATCH, &mut fill, &format!("{way:?}, {n} words"));
                let number = if n == 0 { 20 } else { 21 };
                let expected = if n == words.len() { Ok(n) } else { Err(Refusal { number, place: 0 }) };
                assert_eq!(answer.map(|words| words.len()), expected, "{way:?}, {n} words");
            }
        }
        let words = batch(&mut rng, way, 40);
        let records = words[1..].repeat(10_000);
        for (count, number) in [(40, 21), (400_000, 20)] {
            let long = [&[1 << 29 | way.bit() | count], &records[..]].concat();
            let answer = compare_conversion(way, &long, LONGEST_BATCH, &mut fill, "long");
            assert_eq!(answer, Err(Refusal { number, place: 0 }), "{way:?}, {count}");
        }
    }
}

/// The cases of an outside reckoner.
#[test]
fn agrees_with_the_vectors() {
    for case in conversions() {
        check_conversion(&case, unit::to_cents, unit::from_cents);
    }
}
