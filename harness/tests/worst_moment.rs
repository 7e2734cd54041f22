//! The worst moment of a day against the reckoner: the four numbers, or the refusal.
use harness::accounts::{extreme, utmost, Account, Size, LARGEST, SMALL, TYPICAL};
use harness::beside::{compare_day, rewritten};
use harness::layout::{LONGEST_BATCH, MOST_RECORDS, MOST_TRADES};
use harness::positions::{traded, with_positions};
use harness::reckoner::Refusal;
use harness::records::{batch_of, records_of};
use harness::requests::{check_worst_moment, worst_moments};
use harness::rng::Rng;
use harness::trades::{mixed_day, trades};
use harness::unit;
use harness::worst_moment::{Course, Moment};
use std::collections::BTreeMap;

/// What the days that were compared had.
#[derive(Debug, Default)]
struct Seen {
    /// Days by the answer's number, and steps left out by the row that refuses them.
    days: BTreeMap<u32, usize>,
    left_out: BTreeMap<u32, usize>,
    applied: usize,
    /// Days whose worst moment is the opening, with steps applied behind it, is between two applied steps, is the list's last step.
    at_opening: usize,
    between: usize,
    at_last: usize,
    /// Those with a later step that equals it, those with a step left out before it.
    equalled: usize,
    behind_left_out: usize,
}

impl Seen {
    fn count(&mut self, day: Result<Course, Refusal>) {
        *self.days.entry(day.as_ref().err().map_or(0, |r| r.number)).or_default() += 1;
        let Ok(course) = day else { return };
        let Moment { margin, step, .. } = course.worst();
        let (before, after) = course.steps.split_at(step as usize);
        let applied = |steps: &[Result<i64, Refusal>]| steps.iter().flatten().count();
        course.steps.iter().filter_map(|s| s.err()).for_each(|r| *self.left_out.entry(r.number).or_default() += 1);
        self.applied += applied(&course.steps);
        self.at_opening += usize::from(step == 0 && applied(after) > 0);
        self.between += usize::from(applied(before) > 1 && applied(after) > 0);
        self.at_last += usize::from(step > 0 && after.is_empty());
        self.equalled += usize::from(after.contains(&Ok(margin)));
        self.behind_left_out += usize::from(applied(before) < before.len());
    }
}

/// The rows that refuse a day, and those that leave a step out.
const ROWS: [u32; 21] = [10, 11, 12, 13, 14, 15, 16, 17, 18, 20, 21, 22, 23, 24, 25, 26, 27, 28, 30, 31, 62];
const STEP_ROWS: [u32; 10] = [22, 23, 24, 25, 26, 27, 28, 30, 31, 32];

#[test]
fn random_and_damaged_days() {
    let mut rng = Rng::new(10_101);
    let mut seen = Seen::default();
    for i in 0..20_000 {
        let (a, trades) = mixed_day(&mut rng, i);
        seen.count(compare_day(&a, &trades, &format!("case {i}")));
    }
    println!("{seen:?}");
    assert!(seen.days.len() == 1 + ROWS.len() && ROWS.iter().all(|row| seen.days[row] >= 20));
    assert!(seen.left_out.len() == STEP_ROWS.len() && STEP_ROWS.iter().all(|row| seen.left_out[row] >= 100));
    assert!(seen.days[&0] >= 8000 && seen.days[&31] >= 500 && seen.days[&62] >= 500 && seen.applied >= 50_000);
    assert!([seen.at_opening, seen.between, seen.at_last, seen.equalled, seen.behind_left_out].iter().all(|&n| n >= 1000));
}

/// Nets, DVP amounts, prices and rates at their limits.
#[test]
fn extreme_days() {
    let mut rng = Rng::new(10_102);
    let mut seen = Seen::default();
    for i in 0..300 {
        let a = if i == 0 { utmost() } else { extreme(&mut rng) };
        let trades = trades(&mut rng, &a, 30).concat();
        seen.count(compare_day(&a, &trades, &format!("case {i}")));
    }
    println!("{seen:?}");
    assert!([30, 31].iter().all(|row| seen.left_out[row] >= 200) && seen.applied >= 2000);
}

/// Accounts of 256 positions or a few less: a step that closes one makes room for another.
#[test]
fn full_accounts() {
    let mut rng = Rng::new(10_103);
    let mut seen = Seen::default();
    // steps that make room in a full account, and those that take the last one
    let (mut made, mut taken) = (0, 0);
    for i in 0..500 {
        let size = Size { classes: rng.within(1, LARGEST.classes), ..LARGEST };
        let a = with_positions(&mut rng, size, MOST_RECORDS - i % 3, MOST_RECORDS);
        let Some(mut batch) = rewritten(&a) else { continue };
        let trades = trades(&mut rng, &a, 30);
        seen.count(compare_day(&a, &trades.concat(), &format!("case {i}")));
        for trade in trades {
            let before = records_of(&batch).len();
            let mut memory = [0; LONGEST_BATCH];
            let Ok(n) = unit::add_record(&a.day, &batch, &trade, &mut memory) else { continue };
            batch = memory[..n].to_vec();
            let after = records_of(&batch).len();
            made += usize::from(before == MOST_RECORDS && after < MOST_RECORDS);
            taken += usize::from(before < MOST_RECORDS && after == MOST_RECORDS);
        }
    }
    println!("{seen:?}; {made} steps made room, {taken} took it");
    assert!(seen.left_out[&32] >= 200 && made >= 200 && taken >= 200);
}

/// An account that is rewritten, and trades of its day.
fn accepted(rng: &mut Rng, count: usize, make: impl Fn(&mut Rng) -> Account) -> (Account, Vec<[u32; 6]>) {
    loop {
        let a = make(rng);
        if rewritten(&a).is_some() {
            let trades = trades(rng, &a, count);
            return (a, trades);
        }
    }
}

#[test]
fn days_of_the_most_trades() {
    let mut rng = Rng::new(10_104);
    let mut seen = Seen::default();
    let mut days: Vec<_> =
        [SMALL, SMALL, SMALL, TYPICAL, TYPICAL].map(|size| accepted(&mut rng, MOST_TRADES, |rng| traded(rng, size))).into();
    days.push(accepted(&mut rng, MOST_TRADES, |rng| with_positions(rng, LARGEST, MOST_RECORDS, MOST_RECORDS)));
    for (i, (a, trades)) in days.into_iter().enumerate() {
        seen.count(compare_day(&a, &trades.concat(), &format!("day {i}")));
    }
    println!("{seen:?}");
    assert!(seen.applied >= 10_000);
}

/// Every bit of a trade between two others, and every length of the list.
#[test]
fn every_bit_and_length_of_trades() {
    let mut rng = Rng::new(10_105);
    for i in 0..40 {
        let (a, trades) = accepted(&mut rng, 3, |rng| traded(rng, if i % 10 == 0 { TYPICAL } else { SMALL }));
        let trades = trades.concat();
        for bit in 0..32 * 6 {
            let mut changed = trades.clone();
            changed[6 + bit / 32] ^= 1 << (bit % 32);
            compare_day(&a, &changed, &format!("account {i}, bit {bit}")).expect("a day");
        }
        for n in 0..20 {
            let words: Vec<u32> = trades.iter().copied().cycle().take(n).collect();
            let answer = compare_day(&a, &words, &format!("account {i}, {n} words")).map(|course| course.steps.len());
            assert_eq!(answer, if n % 6 == 0 { Ok(n / 6) } else { Err(Refusal { number: 62, place: 0 }) });
        }
    }
}

/// Every bit of a small account's files, one at a time.
#[test]
fn every_bit_of_the_files() {
    let mut rng = Rng::new(10_106);
    let (a, trades) = accepted(&mut rng, 5, |rng| traded(rng, SMALL));
    for which in 0..2 {
        for bit in 0..32 * [a.day.len(), a.batch.len()][which] {
            let mut changed = a.clone();
            [&mut changed.day, &mut changed.batch][which][bit / 32] ^= 1 << (bit % 32);
            compare_day(&changed, &trades.concat(), &format!("file {which}, bit {bit}")).ok();
        }
    }
}

/// A list and a batch far longer than they may be.
#[test]
fn long_inputs() {
    let mut rng = Rng::new(10_107);
    let (a, trades) = accepted(&mut rng, 1, |rng| traded(rng, TYPICAL));
    let list = trades[0].repeat(100_000);
    assert_eq!(compare_day(&a, &list, "list").err(), Some(Refusal { number: 62, place: 0 }));
    let records = records_of(&a.batch).repeat(20_000);
    let long = Account { batch: batch_of(&records), ..a };
    assert_eq!(compare_day(&long, &list, "batch").err(), Some(Refusal { number: 20, place: 0 }));
}

/// The cases of an outside reckoner.
#[test]
fn agrees_with_the_vectors() {
    for case in worst_moments() {
        check_worst_moment(&case, unit::worst_moment);
    }
}
