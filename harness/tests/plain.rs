//! The benchmark's baseline against the reckoner: the same answers and memories.
use harness::accounts::{accepted, account, damage, mixed, out_of_order};
use harness::additions::mixed_addition;
use harness::cents::Way;
use harness::conversions::{mixed_batch, room};
use harness::deposits::{mixed_case, shorts};
use harness::layout::LONGEST_BATCH;
use harness::plain::{self, cents, NETS};
use harness::reckoner::{call_bytes, call_words, to_bytes, Refusal};
use harness::rewriting::{add_record, rewrite};
use harness::rng::Rng;
use harness::trades::mixed_day;
use harness::worst_moment::worst_moment;
use std::collections::BTreeSet;

/// An answer as the unit's calls give it.
fn packed(answer: Result<usize, Refusal>) -> u64 {
    answer.map_or_else(|r| u64::from(r.number) << 32 | r.place as u64, |n| n as u64)
}

#[test]
fn baseline_agrees_with_the_reckoner() {
    let mut rng = Rng::new(7);
    for i in 0..6000 {
        let mut a = account(&mut rng, mixed(i));
        if i % 3 == 0 {
            damage(&mut rng, &mut a);
        }
        let (day, batch) = (to_bytes(&a.day), to_bytes(&a.batch));
        let room = if i % 7 == 0 { rng.below(600) as usize } else { 4460 };
        let (mut ours, mut theirs) = (vec![0xa5; room], vec![0xa5; room]);
        let expected = packed(call_bytes(&day, &batch, &mut theirs));
        assert_eq!(plain::call(&day, &batch, &mut ours), expected, "case {i}");
        assert_eq!(ours, theirs, "case {i}");
    }
}

#[test]
fn baseline_agrees_with_the_reckoner_on_prices_out_of_order() {
    let mut rng = Rng::new(11);
    let (mut refused, mut others) = (0, 0);
    for i in 0..6000 {
        let mut a = account(&mut rng, mixed(i));
        out_of_order(&mut rng, &mut a.day, 1 + i % 2);
        let (mut ours, mut theirs) = (vec![7; 1115], vec![7; 1115]);
        let expected = packed(call_words(&a.day, &a.batch, &[], &mut theirs));
        assert_eq!(plain::call_words(&a.day, &a.batch, &[], &mut ours), expected, "case {i}");
        assert_eq!(ours, theirs, "case {i}");
        *if expected >> 32 == 18 { &mut refused } else { &mut others } += 1;
    }
    println!("{refused} refused by 18, {others} not");
    assert!(refused >= 3000 && others >= 500);
}

#[test]
fn baseline_agrees_with_the_reckoner_on_deposits() {
    let mut rng = Rng::new(9);
    // reports with an expired future that a deposit may cover
    let mut expired = 0;
    for i in 0..6000 {
        let (a, deposits) = mixed_case(&mut rng, i);
        let room = if i % 7 == 0 { rng.below(150) as usize } else { 1115 };
        let (mut ours, mut theirs) = (vec![7; room], vec![7; room]);
        let expected = packed(call_words(&a.day, &a.batch, &deposits, &mut theirs));
        assert_eq!(plain::call_words(&a.day, &a.batch, &deposits, &mut ours), expected, "case {i}");
        assert_eq!(ours, theirs, "case {i}");
        let of_expired = |class| shorts(&a, class).iter().any(|(_, f)| f.expired);
        expired += usize::from(expected >> 32 == 0 && deposits.chunks(2).any(|d| of_expired(d[0])));
    }
    println!("{expired} reports with an expired future in a class with a deposit");
    assert!(expired >= 500);
}

#[test]
fn baseline_agrees_with_the_reckoner_on_rewritings() {
    let mut rng = Rng::new(10);
    let mut numbers = BTreeSet::new();
    for i in 0..6000 {
        let (a, record) = mixed_addition(&mut rng, i);
        let room = if i % 7 == 0 { rng.below(150) as usize } else { LONGEST_BATCH };
        let (mut ours, mut theirs) = (vec![7; room], vec![7; room]);
        let rewritten = packed(rewrite(&a.day, &a.batch, &mut theirs));
        assert_eq!(plain::rewriting::rewrite(&a.day, &a.batch, &mut ours), rewritten, "case {i}");
        assert_eq!(ours, theirs, "case {i}");
        let added = packed(add_record(&a.day, &a.batch, &record, &mut theirs));
        assert_eq!(plain::rewriting::add_record(&a.day, &a.batch, &record, &mut ours), added, "case {i}");
        assert_eq!(ours, theirs, "case {i}");
        numbers.extend([rewritten >> 32, added >> 32]);
    }
    let table = [0, 10, 11, 12, 13, 14, 15, 16, 17, 18, 20, 21, 22, 23, 24, 25, 26, 27, 28, 30, 31, 32, 40];
    assert_eq!(numbers.into_iter().collect::<Vec<_>>(), table);
}

#[test]
fn baseline_agrees_with_the_reckoner_on_worst_moments() {
    let mut rng = Rng::new(12);
    let mut numbers = BTreeSet::new();
    let (mut applied, mut left_out) = (0, 0);
    for i in 0..3000 {
        let (a, trades) = mixed_day(&mut rng, i);
        let expected = worst_moment(&a.day, &a.batch, &trades).map_err(|r| (u64::from(r.number), r.place));
        assert_eq!(plain::worst_moment::worst_moment(&a.day, &a.batch, &trades), expected, "case {i}");
        numbers.insert(expected.err().map_or(0, |r| r.0));
        let worst = expected.unwrap_or_default();
        applied += worst.applied;
        left_out += worst.left_out;
    }
    println!("{applied} steps applied, {left_out} left out");
    let table = [0, 10, 11, 12, 13, 14, 15, 16, 17, 18, 20, 21, 22, 23, 24, 25, 26, 27, 28, 30, 31, 62];
    assert_eq!(numbers.into_iter().collect::<Vec<_>>(), table);
    assert!(applied >= 9000 && left_out >= 1000);
}

#[test]
fn baseline_agrees_with_the_reckoner_on_conversions() {
    let mut rng = Rng::new(13);
    for (way, plain, own) in
        [(Way::ToCents, cents::to_cents as fn(&[u32], &mut [u32]) -> u64, 33), (Way::FromCents, cents::from_cents, 34)]
    {
        let mut numbers = BTreeSet::new();
        for i in 0..6000 {
            let batch = mixed_batch(&mut rng, way, i);
            let room = room(&mut rng, &batch);
            let (mut ours, mut theirs) = (vec![7; room], vec![7; room]);
            let expected = packed(way.convert(&batch, &mut theirs));
            assert_eq!(plain(&batch, &mut ours), expected, "{way:?}, case {i}");
            assert_eq!(ours, theirs, "{way:?}, case {i}");
            numbers.insert(expected >> 32);
        }
        assert_eq!(numbers.into_iter().collect::<Vec<_>>(), [0, 20, 21, 22, 27, 28, own, 40]);
    }
}

#[test]
fn one_table_has_what_two_have() {
    let mut rng = Rng::new(8);
    for i in 0..200 {
        let a = accepted(&mut rng, mixed(i));
        let (mut nets, mut dvps, mut pairs) = ([0; NETS], [0; NETS], [[0; 2]; NETS]);
        plain::net(&a.batch, &mut nets, &mut dvps);
        plain::net_pairs(&a.batch, &mut pairs);
        assert!((0..NETS).all(|k| pairs[k] == [nets[k], dvps[k]]), "case {i}");
        assert!(nets.iter().chain(&dvps).any(|&z| z != 0), "case {i}: nothing held");
    }
}
