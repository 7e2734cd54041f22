//! The accounts that are made here: prices in order, at each place of row 18 often equal and often not; positions of every type.
use harness::accounts::{account, extreme, in_order, mixed, type_of, Account, LARGEST, ORDER};
use harness::cases::cases;
use harness::deposits::{futures_account, mixed_futures};
use harness::fields::TYPES;
use harness::layout::{class_at, counts, CLASS_WORDS, MOST_RECORDS, UNDERLYING};
use harness::positions::{traded, with_positions};
use harness::reckoner::reckon;
use harness::records::{is_held, records_of};
use harness::rng::Rng;
use std::collections::BTreeMap;

#[test]
fn prices_of_random_classes() {
    let mut rng = Rng::new(95);
    // by the place, equal and below
    let mut places = [[0; 2]; 11];
    for i in 0..6000 {
        let a = match i % 4 {
            0 => account(&mut rng, mixed(i / 4)),
            1 => futures_account(&mut rng, mixed_futures(i / 4)),
            2 => traded(&mut rng, mixed(i / 4)),
            _ => extreme(&mut rng),
        };
        for w in a.day[1..class_at(counts(&a.day).0)].chunks(CLASS_WORDS) {
            for ((first, second), [equal, below]) in ORDER.into_iter().zip(&mut places) {
                assert!(w[first] <= w[second], "case {i}");
                // of an underlying price of 0 all downside prices are
                let counted = w[UNDERLYING] > 3 << 29 && i % 4 != 3;
                *equal += usize::from(counted && w[first] == w[second]);
                *below += usize::from(counted && w[first] < w[second]);
            }
        }
    }
    println!("equal and below, by the place: {places:?}");
    assert!(places.as_flattened().iter().all(|&n| n >= 200));
}

/// The underlying price lies from downside 1 to upside 1, and prices in order stay as they are.
#[test]
fn prices_in_order_stay() {
    let mut rng = Rng::new(96);
    for i in 0..6000 {
        let limit = rng.pick(&[1, 5, 1000]);
        let prices = [0; 10].map(|_| rng.below(limit + 1) as u32);
        let underlying = rng.below(limit + 1) as u32;
        let once = in_order(underlying, prices);
        assert!(once.is_sorted() && (once[4]..=once[5]).contains(&underlying), "case {i}");
        assert_eq!(in_order(underlying, once), once, "case {i}");
    }
}

/// Of the accounts that are accepted, by type the records that are held.
fn held(accounts: impl Iterator<Item = Account>) -> BTreeMap<u32, usize> {
    let mut out = BTreeMap::new();
    for a in accounts.filter(|a| reckon(&a.day, &a.batch).is_ok()) {
        for r in records_of(&a.batch).iter().filter(|r| is_held(r)) {
            *out.entry(type_of(&a.day, (r[0] & 255) as usize)).or_default() += 1;
        }
    }
    out
}

#[test]
fn types_that_are_held() {
    let mut rng = Rng::new(97);
    let random = held((0..2000).map(|i| account(&mut rng, mixed(i))));
    let of_futures = held((0..2000).map(|i| futures_account(&mut rng, mixed_futures(i))));
    let traded = held((0..2000).map(|i| traded(&mut rng, mixed(i))));
    let positions = held((0..40).map(|_| with_positions(&mut rng, LARGEST, MOST_RECORDS, MOST_RECORDS)));
    let extremes = held((0..200).map(|_| extreme(&mut rng)));
    let committed = held(cases().into_iter().map(|case| case.account));
    for (name, held) in [
        ("random", random),
        ("of futures", of_futures),
        ("traded", traded),
        ("of 256 positions", positions),
        ("extreme", extremes),
        ("committed", committed),
    ] {
        println!("{name}: {held:?}");
        assert!(TYPES.iter().all(|t| held[t] >= 20), "{name}");
    }
}
