//! What request U10 claims of a day's worst moment, on what the unit itself answers.
use harness::accounts::Account;
use harness::beside::rewritten;
use harness::cases::LONGEST;
use harness::fields::{record_words, Record};
use harness::layout::LONGEST_BATCH;
use harness::reading::read_report;
use harness::records::{batch_of, records_of, sums};
use harness::rng::Rng;
use harness::trades::mixed_day;
use harness::unit;
use harness::worst_moment::Moment;

/// The account margin of the report without deposits.
fn reported(day: &[u32], batch: &[u32]) -> i64 {
    let mut memory = [0; LONGEST];
    let n = unit::call_words(day, batch, &[], &mut memory).expect("accepted");
    read_report(&memory[..n]).expect("a report").totals[2].try_into().expect("64 bits")
}

/// A day that is accepted, its worst moment, and the account kept by the calls that rewrite: the opening's batch, and that behind each step,
/// none where the step is refused.
struct Day {
    opening: Account,
    trades: Vec<[u32; 6]>,
    worst: Moment,
    kept: Vec<Option<Vec<u32>>>,
}

impl Day {
    fn worst_of(&self, batch: &[u32], trades: &[[u32; 6]]) -> Moment {
        unit::worst_moment(&self.opening.day, batch, trades.as_flattened()).expect("accepted")
    }

    /// The trades that are applied among these first ones.
    fn applied(&self, steps: usize) -> Vec<[u32; 6]> {
        (0..steps).filter(|&i| self.kept[i + 1].is_some()).map(|i| self.trades[i]).collect()
    }

    /// The account behind so many steps.
    fn account(&self, steps: usize) -> &[u32] {
        self.kept[..=steps].iter().rev().flatten().next().expect("the opening")
    }
}

/// The days of a run that are accepted.
fn days(seed: u64, count: usize) -> impl Iterator<Item = (usize, Day)> {
    let mut rng = Rng::new(seed);
    let made = (0..count).map(move |i| (i, mixed_day(&mut rng, i)));
    made.filter_map(|(i, (opening, trades))| {
        let worst = unit::worst_moment(&opening.day, &opening.batch, &trades).ok()?;
        let mut account = rewritten(&opening).expect("accepted");
        let trades: Vec<[u32; 6]> = trades.chunks(6).map(|w| w.try_into().expect("six words")).collect();
        let mut kept = vec![Some(account.clone())];
        for trade in &trades {
            let mut memory = [0; LONGEST_BATCH];
            let added = unit::add_record(&opening.day, &account, trade, &mut memory).ok();
            kept.push(added.map(|n| {
                account = memory[..n].to_vec();
                account.clone()
            }));
        }
        Some((i, Day { opening, trades, worst, kept }))
    })
}

/// The highest of the reports' account margins, at the earliest step that has it; a step counts as applied where adding its record is accepted.
#[test]
fn the_highest_of_the_reports() {
    let (mut all, mut left_out) = (0, 0);
    for (i, day) in days(10_201, 6000) {
        let margins: Vec<Option<i64>> = day.kept.iter().map(|b| Some(reported(&day.opening.day, b.as_ref()?))).collect();
        let highest = margins.iter().flatten().max().copied().expect("the opening's");
        assert_eq!(day.worst.margin, highest, "case {i}");
        assert_eq!(margins.iter().position(|m| *m == Some(highest)), Some(day.worst.step as usize), "case {i}");
        assert_eq!(day.worst.left_out as usize, margins.iter().filter(|m| m.is_none()).count(), "case {i}");
        assert_eq!((day.worst.applied + day.worst.left_out) as usize, day.trades.len(), "case {i}");
        all += day.trades.len();
        left_out += day.worst.left_out;
    }
    println!("{all} steps, {left_out} left out");
    assert!(all >= 15_000 && left_out >= 2000);
}

/// The list cut anywhere behind the worst step has the same one, and cut before it a lower one.
#[test]
fn the_list_cut() {
    let (mut same, mut lower) = (0, 0);
    for (i, day) in days(10_202, 3000) {
        for n in 0..=day.trades.len() {
            let cut = day.worst_of(&day.opening.batch, &day.trades[..n]);
            assert_eq!(cut.applied as usize, day.applied(n).len(), "case {i}, {n} steps");
            if n >= day.worst.step as usize {
                assert_eq!((cut.margin, cut.step), (day.worst.margin, day.worst.step), "case {i}, {n} steps");
                same += 1;
            } else {
                assert!(cut.margin < day.worst.margin, "case {i}, {n} steps");
                lower += 1;
            }
        }
    }
    println!("{same} lists cut behind the worst step, {lower} before it");
    assert!(same >= 5000 && lower >= 5000);
}

/// Without the steps that are left out the day has the same worst moment, its step counted among those applied.
#[test]
fn the_applied_steps_alone() {
    let mut moved = 0;
    for (i, day) in days(10_203, 6000) {
        let alone = day.worst_of(&day.opening.batch, &day.applied(day.trades.len()));
        let step = day.applied(day.worst.step as usize).len() as u32;
        assert_eq!(alone, Moment { step, left_out: 0, ..day.worst }, "case {i}");
        moved += usize::from(step != day.worst.step);
    }
    println!("{moved} worst steps behind one left out");
    assert!(moved >= 500);
}

/// The account at the worst moment is that of one table of nets and DVP sums over the opening and the steps applied so far.
#[test]
fn one_table_of_sums() {
    let mut shorter = 0;
    for (i, day) in days(10_204, 6000) {
        let steps = day.worst.step as usize;
        let records = [records_of(&day.opening.batch), day.applied(steps)].concat();
        let summed = sums(&records).into_iter().map(|((series, exercised, fail), net, dvp)| {
            let (long, short) = ((-net).max(0) as u32, net.max(0) as u32);
            let record = Record { series, exercised: exercised == 1, fail: fail == 1, long, short, dvp: dvp as i64 };
            record_words(&record).try_into().expect("six words")
        });
        let summed: Vec<[u32; 6]> = summed.collect();
        shorter += usize::from(summed.len() < records.len());
        assert_eq!(day.account(steps), batch_of(&summed), "case {i}");
        assert_eq!(reported(&day.opening.day, &batch_of(&summed)), day.worst.margin, "case {i}");
    }
    println!("{shorter} tables of fewer positions than records");
    assert!(shorter >= 2000);
}

/// The order of the opening's records doesn't matter, and its rewriting is as good.
#[test]
fn openings_alike() {
    let mut rng = Rng::new(10_205);
    let mut moved = 0;
    for (i, day) in days(10_206, 6000) {
        let mut records = records_of(&day.opening.batch);
        rng.shuffle(&mut records);
        moved += usize::from(batch_of(&records) != day.opening.batch);
        assert_eq!(day.worst_of(&batch_of(&records), &day.trades), day.worst, "case {i}: reordered");
        assert_eq!(day.worst_of(day.account(0), &day.trades), day.worst, "case {i}: rewritten");
    }
    println!("{moved} openings in another order");
    assert!(moved >= 2000);
}

/// Of two parts of a day, the second opened with the account behind the first, the worst moment is the first's unless the second's is higher.
#[test]
fn a_day_in_two_parts() {
    let mut rng = Rng::new(10_207);
    let mut of_parts = [0; 2];
    for (i, day) in days(10_208, 6000) {
        let n = rng.below(day.trades.len() as u64 + 1) as usize;
        let (morning, afternoon) = day.trades.split_at(n);
        let [first, second] = [(&day.opening.batch[..], morning), (day.account(n), afternoon)].map(|(b, t)| day.worst_of(b, t));
        let later = second.margin > first.margin;
        let (margin, step) = if later { (second.margin, n as u32 + second.step) } else { (first.margin, first.step) };
        let (applied, left_out) = (first.applied + second.applied, first.left_out + second.left_out);
        assert_eq!(day.worst, Moment { margin, step, applied, left_out }, "case {i}");
        of_parts[usize::from(later)] += 1;
    }
    println!("{of_parts:?} in the first part and in the second");
    assert!(of_parts.iter().all(|&n| n >= 500));
}
