//! The call for many accounts against the reckoner: answer, result list and every word of the memory.
use harness::accounts::{account, batch, damage, day_file, Account, Size, LARGEST, SMALL, TYPICAL};
use harness::layout::LONGEST_BATCH;
use harness::many::{call_all, joined, reports};
use harness::reckoner::{call_bytes, reckon, to_bytes, to_words, words, Refusal};
use harness::requests::{cases, numbers};
use harness::rng::Rng;
use harness::unit;
use std::collections::BTreeMap;

const GUARD: usize = 8;
const LONGEST: usize = 1115;

/// What a call is given; the lent memories by their lengths.
#[derive(Clone)]
struct Given {
    day: Vec<u32>,
    batches: Vec<u32>,
    lengths: Vec<u32>,
    entries: usize,
    room: usize,
}

struct Outcome {
    answer: Result<usize, Refusal>,
    results: Vec<u32>,
    memory: Vec<u32>,
}

/// Both calls on the same inputs and equal memories; the words around the memories must stay.
fn compare(g: &Given, fill: &mut Rng, case: &str) -> Outcome {
    let mut around = |n: usize| -> Vec<u32> { (0..n + 2 * GUARD).map(|_| fill.next() as u32).collect() };
    let (mut results, mut memory) = (around(g.entries), around(g.room));
    let (mut their_results, mut their_memory) = (results.clone(), memory.clone());
    let (entries, room) = (GUARD..GUARD + g.entries, GUARD..GUARD + g.room);
    let (lent, report) = (&mut their_results[entries.clone()], &mut their_memory[room.clone()]);
    let theirs = call_all(&g.day, &g.batches, &g.lengths, lent, report);
    let inputs = (g.day.clone(), g.batches.clone(), g.lengths.clone());
    let (lent, report) = (&mut results[entries.clone()], &mut memory[room.clone()]);
    let answer = unit::call_all(&inputs.0, &inputs.1, &inputs.2, lent, report);
    assert_eq!(answer, theirs, "{case}");
    assert_eq!(results, their_results, "results: {case}");
    assert!(memory == their_memory, "memory: {case}");
    assert!(inputs == (g.day.clone(), g.batches.clone(), g.lengths.clone()), "inputs: {case}");
    Outcome { answer, results: results[entries].to_vec(), memory: memory[room].to_vec() }
}

fn given(day: &[u32], batches: &[Vec<u32>], entries: usize, room: usize) -> Given {
    let (batches, lengths) = joined(batches);
    Given { day: day.to_vec(), batches, lengths, entries, room }
}

/// The words that all accounts need.
fn needed(day: &[u32], batches: &[Vec<u32>]) -> usize {
    batches.iter().map(|b| reckon(day, b).map_or(0, |r| words(&r).len())).sum()
}

/// A day file and batches of it, some damaged; the day file too, now and then.
fn broker(rng: &mut Rng, size: Size, accounts: usize) -> (Vec<u32>, Vec<Vec<u32>>) {
    let mut day = account(rng, size).day;
    let batches = (0..accounts).map(|_| {
        let records = rng.below(size.records + 1) as usize;
        let mut a = Account { day: day.clone(), batch: batch(rng, &day, records) };
        if rng.once_in(3) {
            damage(rng, &mut a);
        }
        a.batch
    });
    let batches: Vec<Vec<u32>> = batches.collect();
    if rng.once_in(4) {
        // beside a batch without records
        let mut a = Account { day, batch: vec![1 << 29] };
        damage(rng, &mut a);
        day = a.day;
    }
    (day, batches)
}

#[test]
fn random_and_damaged_brokers() {
    let mut rng = Rng::new(7001);
    let mut fill = Rng::new(7002);
    let (mut calls, mut numbers): (BTreeMap<u32, usize>, BTreeMap<u32, usize>) = Default::default();
    let (mut between, mut ran_out) = (0, 0);
    for i in 0..12_000 {
        let size = match i % 50 {
            0 => LARGEST,
            1..=5 => TYPICAL,
            _ => SMALL,
        };
        let accounts = match rng.below(12) {
            0 => 0,
            1 => 1,
            2 => rng.within(60, 65) as usize,
            _ => rng.within(2, 12) as usize,
        };
        let (day, batches) = broker(&mut rng, size, accounts);
        let all = needed(&day, &batches);
        let room = match rng.below(6) {
            0 => all,
            1 => all + rng.below(40) as usize,
            2 => all.saturating_sub(rng.within(1, 40) as usize),
            3 => rng.below(all as u64 + 1) as usize,
            4 => rng.below(14) as usize,
            _ => LONGEST * accounts,
        };
        let entries = match rng.below(8) {
            0 => (2 * accounts).saturating_sub(rng.within(1, 3) as usize),
            1 => 2 * accounts + rng.below(9) as usize,
            _ => 2 * accounts,
        };
        let mut g = given(&day, &batches, entries, room);
        match rng.below(40) {
            0 => g.batches.push(rng.next() as u32),
            1 if !g.batches.is_empty() => drop(g.batches.pop()),
            2 if accounts > 0 => g.lengths[rng.below(accounts as u64) as usize] = rng.pick(&[0, 1, u32::MAX, 1 << 31]),
            3 if accounts > 1 => {
                // a sum that is right only where it wraps
                let (x, y) = (g.lengths[0], g.lengths[1]);
                (g.lengths[0], g.lengths[1]) = (u32::MAX, x.wrapping_add(y).wrapping_add(1));
            }
            4 if accounts > 1 && g.lengths[0] > 0 => {
                // the seam between two batches moved
                g.lengths[0] -= 1;
                g.lengths[1] += 1;
            }
            _ => {}
        }
        let o = compare(&g, &mut fill, &format!("case {i}"));
        *calls.entry(o.answer.err().map_or(0, |r| r.number)).or_default() += 1;
        if o.answer.is_err() {
            continue;
        }
        let told: Vec<u32> = o.results[..2 * accounts].chunks(2).map(|pair| pair[0]).collect();
        told.iter().for_each(|&n| *numbers.entry(n).or_default() += 1);
        between += usize::from(told.windows(3).any(|w| w[0] == 0 && w[1] != 0 && w[2] == 0));
        ran_out += usize::from(told.contains(&40) && told.contains(&0));
    }
    println!("calls by number: {calls:?}; accounts by number: {numbers:?}; {between} with a refused account between two reports, {ran_out} out of memory behind a report");
    assert_eq!(calls.into_keys().collect::<Vec<_>>(), [0, 60, 61]);
    let table = [0, 10, 11, 12, 13, 14, 15, 16, 17, 18, 20, 21, 22, 23, 24, 25, 26, 27, 28, 30, 40];
    assert_eq!(numbers.into_keys().collect::<Vec<_>>(), table);
    assert!(between > 1000 && ran_out > 1000);
}

/// The outcome is that of byte calls made in turn, each with the memory still left.
#[test]
fn equals_byte_calls_in_turn() {
    let mut rng = Rng::new(7003);
    let mut reported = 0;
    for i in 0..1500 {
        let (day, batches) = broker(&mut rng, if i % 10 == 0 { TYPICAL } else { SMALL }, 1 + i % 64);
        let room = rng.below(needed(&day, &batches) as u64 + 30) as usize;
        let g = given(&day, &batches, 2 * batches.len(), room);
        let before: Vec<u32> = (0..room).map(|_| rng.next() as u32).collect();
        let (mut results, mut memory) = (vec![9; g.entries], before.clone());
        let total = unit::call_all(&g.day, &g.batches, &g.lengths, &mut results, &mut memory).expect("past 60 and 61");
        let mut bytes = to_bytes(&before);
        let mut at = 0;
        for (b, pair) in batches.iter().zip(results.chunks(2)) {
            let single = unit::call(&to_bytes(&day), &to_bytes(b), &mut bytes[4 * at..]);
            let own = call_bytes(&to_bytes(&day), &to_bytes(b), &mut to_bytes(&before[at..]));
            assert_eq!(single, own, "case {i}");
            match single {
                Ok(n) => {
                    assert_eq!(pair, [0, n as u32], "case {i}");
                    at += n;
                    reported += 1;
                }
                // a batch longer than its longest form, row 20 or 21 over words, is row 2 in bytes
                Err(Refusal { number: 2, .. }) => {
                    assert!(b.len() > LONGEST_BATCH && (pair == [20, 0] || pair == [21, 0]), "case {i}")
                }
                Err(r) => assert_eq!(pair, [r.number, r.place as u32], "case {i}"),
            }
        }
        assert_eq!(total, at, "case {i}");
        assert!(to_words(&bytes) == memory, "case {i}");
    }
    println!("{reported} reports");
    assert!(reported > 10_000);
}

/// Another batch in one account: every other one has the same two numbers and the same words.
#[test]
fn other_accounts_stay() {
    let mut rng = Rng::new(7004);
    let mut fill = Rng::new(7005);
    let mut moved = 0;
    for i in 0..1500 {
        let accounts = rng.within(2, 9) as usize;
        let (day, mut batches) = broker(&mut rng, if i % 10 == 0 { TYPICAL } else { SMALL }, accounts);
        let before = compare(&given(&day, &batches, 2 * accounts, LONGEST * accounts), &mut fill, "before");
        let j = rng.below(accounts as u64) as usize;
        batches[j] = broker(&mut rng, SMALL, 1).1.remove(0);
        let after = compare(&given(&day, &batches, 2 * accounts, LONGEST * accounts), &mut fill, "after");
        let (first, second) = (reports(&before.results, &before.memory), reports(&after.results, &after.memory));
        for k in (0..accounts).filter(|&k| k != j) {
            assert_eq!(before.results[2 * k..2 * k + 2], after.results[2 * k..2 * k + 2], "case {i}");
            assert_eq!(first[k], second[k], "case {i}");
        }
        moved += usize::from(j + 1 < accounts && first[j].len() != second[j].len());
    }
    println!("{moved} edits moved the reports behind");
    assert!(moved > 300);
}

/// So many accounts of one share, each accepted.
fn equal_accounts(n: usize) -> (Vec<u32>, Vec<Vec<u32>>) {
    let mut rng = Rng::new(7006);
    loop {
        let day = day_file(&mut rng, 3, 8);
        let b = batch(&mut rng, &day, 5);
        if reckon(&day, &b).is_ok() {
            return (day, vec![b; n]);
        }
    }
}

#[test]
fn numbers_of_accounts() {
    let mut fill = Rng::new(7007);
    for n in [0, 1, 60, 64] {
        let (day, batches) = equal_accounts(n);
        let all = needed(&day, &batches);
        let o = compare(&given(&day, &batches, 2 * n, all), &mut fill, &format!("{n} accounts"));
        assert_eq!(o.answer, Ok(all));
        assert!(n < 2 || all >= 13 * n);
    }
    let (day, batches) = equal_accounts(65);
    let refused = |number| Err(Refusal { number, place: 0 });
    assert_eq!(compare(&given(&day, &batches, 130, 65 * LONGEST), &mut fill, "65").answer, refused(60));
    // 60 before 61, 61 before the day file's rows
    assert_eq!(compare(&given(&day, &batches, 0, 0), &mut fill, "65, no results").answer, refused(60));
    assert_eq!(compare(&given(&[], &batches[..64], 127, 0), &mut fill, "no day file").answer, refused(61));
    // no accounts: accepted, even with a bad day file
    assert_eq!(compare(&given(&[], &[], 0, 0), &mut fill, "nothing").answer, Ok(0));
    assert_eq!(compare(&Given { lengths: vec![0], ..given(&[], &[], 2, 0) }, &mut fill, "no words").results, [10, 0]);
}

#[test]
fn exact_sums() {
    let mut fill = Rng::new(7008);
    let (day, batches) = equal_accounts(2);
    let g = given(&day, &batches, 4, 2 * LONGEST);
    let n = g.batches.len() as u32;
    let sums: [&[u32]; 6] = [&[u32::MAX, n + 1], &[1 << 31, 1 << 31], &[n, u32::MAX], &[n - 1, 0], &[n + 1, 0], &[u32::MAX]];
    for lengths in sums {
        let o = compare(&Given { lengths: lengths.to_vec(), ..g.clone() }, &mut fill, &format!("{lengths:?}"));
        assert_eq!(o.answer, Err(Refusal { number: 60, place: 0 }));
    }
    assert!(compare(&g, &mut fill, "right").answer.is_ok());
}

/// Every length of memory from none to enough: the accounts that still fit are reported, also behind one that did not.
#[test]
fn every_length_of_memory() {
    let mut fill = Rng::new(7009);
    let (day, mut batches) = equal_accounts(3);
    batches[1] = vec![1 << 29];
    let long = needed(&day, &batches[..1]);
    assert!(long > 13);
    for room in 0..=2 * long + 14 {
        let o = compare(&given(&day, &batches, 6, room), &mut fill, &format!("room {room}"));
        let mut left = room;
        for (pair, n) in o.results.chunks(2).zip([long, 13, long]) {
            assert_eq!(pair, if n <= left { [0, n as u32] } else { [40, n as u32] }, "room {room}");
            left -= if n <= left { n } else { 0 };
        }
        assert_eq!(o.answer, Ok(room - left));
    }
}

/// The cases of an outside reckoner, by both.
#[test]
fn agrees_with_the_vectors() {
    for case in cases("U01", 30) {
        let (day, batches, lengths) = (case.words("day"), case.words("batches"), case.words("lengths"));
        type Call = fn(&[u32], &[u32], &[u32], &mut [u32], &mut [u32]) -> Result<usize, Refusal>;
        for call in [unit::call_all as Call, call_all as Call] {
            let (mut results, mut memory) = (case.lent("results"), case.lent("memory"));
            let answer = call(&day, &batches, &lengths, &mut results, &mut memory);
            assert_eq!(numbers(answer), case.answer(), "{}", case.name);
            assert_eq!(results, case.words("results_after"), "{}", case.name);
            assert_eq!(memory, case.memory_after(), "{}", case.name);
        }
    }
}
