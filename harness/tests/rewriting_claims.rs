//! What request U7 claims of a rewriting and of adding, on what the unit itself answers.
use harness::accounts::{amount_words, Account, SMALL, TYPICAL};
use harness::additions::mixed_addition;
use harness::beside::{rewritten, room};
use harness::deposits::{deposits, mixed_case};
use harness::layout::MOST_RECORDS;
use harness::positions::traded;
use harness::reckoner::{Refusal, MOST_DVP};
use harness::records::{batch_of, dvp, is_held, net, records_of, sums};
use harness::rng::Rng;
use harness::unit;
use std::collections::BTreeMap;

/// Words of the longest report.
const LONGEST_REPORT: usize = 1115;
/// A quantity of zero.
const NONE: u32 = 4 << 29;

fn with_batch(a: &Account, batch: Vec<u32>) -> Account {
    Account { day: a.day.clone(), batch }
}

/// A memory lent with any words in it.
fn lent(rng: &mut Rng, room: usize) -> Vec<u32> {
    (0..room).map(|_| rng.next() as u32).collect()
}

/// The sorts of records among those of a rewriting.
fn count_sorts(records: &[[u32; 6]], counts: &mut BTreeMap<&str, usize>) {
    for r in records {
        let sorts = [
            ("long", r[1] != NONE),
            ("short", r[2] != NONE),
            ("DVP alone", net(r) == 0),
            ("exercised", r[0] >> 8 & 1 == 1),
            ("fail", r[0] >> 9 & 1 == 1),
            ("DVP at the limit", r[3..] == amount_words(false, MOST_DVP as u64)),
            ("DVP at the limit, negative", r[3..] == amount_words(true, MOST_DVP as u64)),
        ];
        sorts.into_iter().filter(|s| s.1).for_each(|(sort, _)| *counts.entry(sort).or_default() += 1);
    }
}

/// One record for each position that is held, in the request's order, with its sums, and at least one quantity zero in each.
#[test]
fn a_record_for_each_position() {
    let mut rng = Rng::new(7201);
    let mut sorts = BTreeMap::new();
    let (mut shorter, mut reordered) = (0, 0);
    for i in 0..8000 {
        let a = mixed_addition(&mut rng, i).0;
        let Some(words) = rewritten(&a) else { continue };
        let (before, after) = (records_of(&a.batch), records_of(&words));
        assert_eq!(words[0], 1 << 29 | after.len() as u32, "case {i}");
        let key = |r: &[u32; 6]| (r[0] & 255, r[0] >> 8 & 1, r[0] >> 9 & 1);
        let as_they_stand: Vec<_> = after.iter().map(|r| (key(r), net(r), dvp(r))).collect();
        assert_eq!(as_they_stand, sums(&before), "case {i}");
        assert!(after.iter().all(|r| is_held(r) && (r[1] == NONE || r[2] == NONE)), "case {i}");
        count_sorts(&after, &mut sorts);
        shorter += usize::from(after.len() < before.len());
        reordered += usize::from(!before.is_sorted_by_key(key));
    }
    println!("records: {sorts:?}; {shorter} batches shorter, {reordered} in another order");
    assert!(sorts.len() == 7 && sorts.values().all(|&n| n >= 200));
    assert!(shorter >= 2000 && reordered >= 2000);
}

/// The rewriting's report is the batch's: the same answer, a refusal too, and the same memory.
#[test]
fn the_report_stays() {
    let mut rng = Rng::new(7202);
    let mut numbers: BTreeMap<u32, usize> = BTreeMap::new();
    let (mut shorter, mut covered) = (0, 0);
    for i in 0..8000 {
        let (a, given) = if i % 2 == 0 {
            mixed_case(&mut rng, i / 2)
        } else {
            let a = traded(&mut rng, if i % 20 == 1 { TYPICAL } else { SMALL });
            let given = deposits(&mut rng, &a).concat();
            (a, given)
        };
        let Some(words) = rewritten(&a) else { continue };
        let length = if i % 7 == 0 { rng.below(150) as usize } else { LONGEST_REPORT };
        let before = lent(&mut rng, length);
        let report = |batch: &[u32], deposits: &[u32]| {
            let mut memory = before.clone();
            (unit::call_words(&a.day, batch, deposits, &mut memory), memory)
        };
        let [with, without] = [&given[..], &[]].map(|deposits| {
            let told = report(&a.batch, deposits);
            assert!(told == report(&words, deposits), "case {i}: {:?}", told.0);
            told
        });
        *numbers.entry(with.0.err().map_or(0, |r| r.number)).or_default() += 1;
        shorter += usize::from(words.len() < a.batch.len());
        covered += usize::from(with.0.is_ok() && with != without);
    }
    println!("answers by number: {numbers:?}; {shorter} batches shorter, {covered} reports changed by deposits");
    assert_eq!(numbers.keys().copied().collect::<Vec<_>>(), [0, 40, 50, 51]);
    assert!(numbers[&0] >= 3000 && numbers[&40] >= 200 && shorter >= 2000 && covered >= 500);
}

/// A rewriting is its own, and that of its batch in any order.
#[test]
fn rewritten_twice_and_reordered() {
    let mut rng = Rng::new(7203);
    let (mut changed, mut moved) = (0, 0);
    for i in 0..6000 {
        let a = mixed_addition(&mut rng, i).0;
        let Some(words) = rewritten(&a) else { continue };
        let mut records = records_of(&a.batch);
        rng.shuffle(&mut records);
        let reordered = with_batch(&a, batch_of(&records));
        changed += usize::from(words != a.batch);
        moved += usize::from(reordered.batch != a.batch);
        assert_eq!(rewritten(&reordered).as_ref(), Some(&words), "case {i}: reordered");
        assert_eq!(rewritten(&with_batch(&a, words.clone())), Some(words), "case {i}: twice");
    }
    println!("{changed} rewritings of other words, {moved} batches in another order");
    assert!(changed >= 2000 && moved >= 2000);
}

/// Adding to a batch of fewer than 256 records is rewriting the batch with the record as its last, in every answer that rows 20 and 21 leave.
#[test]
fn added_as_the_last() {
    let mut rng = Rng::new(7204);
    let mut numbers: BTreeMap<u32, usize> = BTreeMap::new();
    for i in 0..12_000 {
        let (a, record) = mixed_addition(&mut rng, i);
        let records = a.batch.len() / 6;
        let whole = a.batch.first() == Some(&(1 << 29 | records as u32)) && a.batch.len() == 1 + 6 * records;
        if !whole || records == MOST_RECORDS || record.len() != 6 {
            continue;
        }
        let mut with = [&a.batch[..], &record].concat();
        with[0] += 1;
        let length = room(&mut rng, &a);
        let mut first = lent(&mut rng, length);
        let mut second = first.clone();
        let answer = unit::add_record(&a.day, &a.batch, &record, &mut first);
        assert_eq!(answer, unit::rewrite(&a.day, &with, &mut second), "case {i}");
        assert!(first == second, "case {i}");
        *numbers.entry(answer.err().map_or(0, |r| r.number)).or_default() += 1;
    }
    println!("answers by number: {numbers:?}");
    let table = [0, 10, 11, 12, 13, 14, 15, 16, 17, 18, 22, 23, 24, 25, 26, 27, 28, 30, 31, 40];
    assert_eq!(numbers.keys().copied().collect::<Vec<_>>(), table);
    assert!(numbers[&0] >= 3000);
}

/// A refusal's place counted from the record that is added, or from the first of its position.
fn place_from_record(r: Refusal, batch: &[u32], record: &[u32]) -> usize {
    let before = records_of(batch);
    let first = before.iter().position(|w| record.first() == Some(&w[0])).unwrap_or(before.len());
    r.place
        - match r.number {
            22 | 27 | 28 => 6 * before.len(),
            23..=26 => before.len(),
            30 | 31 => first,
            _ => 0,
        }
}

/// Adding to the rewriting is adding to the batch, also to one of 256 records.
#[test]
fn added_to_the_rewriting() {
    let mut rng = Rng::new(7205);
    let mut numbers: BTreeMap<u32, usize> = BTreeMap::new();
    let mut of_256 = 0;
    for i in 0..12_000 {
        let (a, record) = mixed_addition(&mut rng, i);
        let Some(words) = rewritten(&a) else { continue };
        let length = room(&mut rng, &a);
        let before = lent(&mut rng, length);
        let [first, second] = [&a.batch, &words].map(|batch| {
            let mut memory = before.clone();
            let answer = unit::add_record(&a.day, batch, &record, &mut memory);
            (answer.map_err(|r| (r.number, place_from_record(r, batch, &record))), memory)
        });
        assert!(first == second, "case {i}: {:?}, {:?}", first.0, second.0);
        of_256 += usize::from(first.0.is_ok() && records_of(&a.batch).len() == MOST_RECORDS);
        *numbers.entry(first.0.err().map_or(0, |r| r.0)).or_default() += 1;
    }
    println!("answers by number: {numbers:?}; {of_256} accepted with 256 records");
    assert_eq!(numbers.keys().copied().collect::<Vec<_>>(), [0, 21, 22, 23, 24, 25, 26, 27, 28, 30, 31, 32, 40]);
    assert!(numbers[&0] >= 3000 && of_256 >= 100);
}
