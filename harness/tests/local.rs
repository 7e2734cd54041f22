//! Demand 3 at the byte call, and with deposits at the call over words: the order of records and of deposits never matters, and an edit
//! of one group of one book stays there.
use harness::accounts::{account, batch, mixed, Account};
use harness::deposits::{classes, deposit, deposits, futures_account, mixed_futures};
use harness::layout::{counts, series_at};
use harness::reading::read_report;
use harness::reckoner::{to_bytes, to_words, Line, Refusal, Report};
use harness::records::{batch_of, records_of};
use harness::rng::Rng;
use harness::unit;

fn call(a: &Account, memory: &mut [u8]) -> Result<usize, Refusal> {
    unit::call(&to_bytes(&a.day), &to_bytes(&a.batch), memory)
}

fn report(a: &Account) -> Option<Report> {
    let mut memory = vec![0; 4460];
    let n = call(a, &mut memory).ok()?;
    Some(read_report(&to_words(&memory)[..n]).expect("a report"))
}

#[test]
fn reordered_records() {
    let mut rng = Rng::new(301);
    let mut compared = 0;
    for i in 0..6000 {
        let a = account(&mut rng, mixed(i));
        let mut moved = records_of(&a.batch);
        rng.shuffle(&mut moved);
        let room = if i % 7 == 0 { rng.below(500) as usize } else { 4460 };
        let before: Vec<u8> = (0..room).map(|_| rng.next() as u8).collect();
        let (mut first, mut second) = (before.clone(), before);
        let (x, y) = (call(&a, &mut first), call(&Account { day: a.day.clone(), batch: batch_of(&moved) }, &mut second));
        // of a batch refused by row 30 the place may move with the records; the accepted ones are equal throughout
        if x.is_ok() || x.is_err_and(|r| r.number == 40) {
            assert_eq!(x, y, "case {i}");
            assert!(first == second, "case {i}");
            compared += usize::from(moved.len() > 1);
        }
    }
    println!("{compared} reorderings");
    assert!(compared > 2000);
}

/// Book and group of a record: its bit 9, and the group of its series' class.
fn place(day: &[u32], record: &[u32; 6]) -> (bool, u32) {
    let number = day[series_at(counts(day).0, (record[0] & 255) as usize)] >> 23 & 63;
    (record[0] >> 9 & 1 == 1, classes(day)[&number])
}

fn line(report: &Report, at: (bool, u32)) -> Option<&Line> {
    report.lines.iter().find(|l| (l.fail, l.group) == at)
}

/// The lines but one.
fn others(report: &Report, at: (bool, u32)) -> Vec<&Line> {
    report.lines.iter().filter(|l| (l.fail, l.group) != at).collect()
}

/// Every other line must stay, and the totals of the line's book and of the account move by its margin; by how much.
fn change_of_one_line(before: &Report, after: &Report, at: (bool, u32), case: &str) -> i128 {
    assert_eq!(others(before, at), others(after, at), "{case}");
    let margin = |r: &Report| line(r, at).map_or(0, |l| l.amounts[4]);
    let change = margin(after) - margin(before);
    let (own, other) = (usize::from(at.0), usize::from(!at.0));
    assert_eq!(after.totals[own] - before.totals[own], change, "{case}");
    assert_eq!(after.totals[other], before.totals[other], "{case}");
    assert_eq!(after.totals[2] - before.totals[2], change, "{case}");
    change
}

#[test]
fn edit_of_one_line() {
    let mut rng = Rng::new(302);
    let (mut edits, mut moved, mut beside, mut gone) = (0, 0, 0, 0);
    for i in 0..12_000 {
        let a = account(&mut rng, mixed(i));
        let all = records_of(&a.batch);
        let Some(before) = report(&a) else { continue };
        if all.is_empty() {
            continue;
        }
        let fresh = records_of(&batch(&mut rng, &a.day, 60));
        let from = if rng.once_in(4) { &fresh } else { &all };
        let at = place(&a.day, &rng.pick(from));
        let mut edited: Vec<[u32; 6]> = all.into_iter().filter(|r| place(&a.day, r) != at).collect();
        let keep = rng.below(4) as usize;
        edited.extend(fresh.into_iter().filter(|r| place(&a.day, r) == at).take(keep));
        if edited.len() > 256 {
            continue;
        }
        rng.shuffle(&mut edited);
        let Some(after) = report(&Account { day: a.day.clone(), batch: batch_of(&edited) }) else { continue };
        let change = change_of_one_line(&before, &after, at, &format!("case {i}"));
        edits += 1;
        moved += usize::from(change != 0);
        beside += usize::from(!others(&before, at).is_empty());
        gone += usize::from(line(&before, at).is_some() != line(&after, at).is_some());
    }
    println!("{edits} edits: {moved} moved the margin, {beside} beside other lines, {gone} added or removed the line");
    assert!(edits > 3000 && moved > 1000 && beside > 1000 && gone > 200);
}

/// The call over words.
fn call_with(a: &Account, deposits: &[[u32; 2]], memory: &mut [u32]) -> Result<usize, Refusal> {
    unit::call_words(&a.day, &a.batch, deposits.as_flattened(), memory)
}

fn report_with(a: &Account, deposits: &[[u32; 2]]) -> Option<Report> {
    let mut memory = [0; 1115];
    let n = call_with(a, deposits, &mut memory).ok()?;
    Some(read_report(&memory[..n]).expect("a report"))
}

#[test]
fn reordered_deposits() {
    let mut rng = Rng::new(303);
    let (mut compared, mut covered) = (0, 0);
    for i in 0..6000 {
        let a = futures_account(&mut rng, mixed_futures(i));
        let given = deposits(&mut rng, &a);
        let (mut moved, mut moved_records) = (given.clone(), records_of(&a.batch));
        rng.shuffle(&mut moved);
        if i % 2 == 0 {
            rng.shuffle(&mut moved_records);
        }
        let room = if i % 7 == 0 { rng.below(120) as usize } else { 1115 };
        let before: Vec<u32> = (0..room).map(|_| rng.next() as u32).collect();
        let (mut first, mut second) = (before.clone(), before);
        let x = call_with(&a, &given, &mut first);
        let y = call_with(&Account { day: a.day.clone(), batch: batch_of(&moved_records) }, &moved, &mut second);
        // of a list refused by row 51 the place may move with the deposits; the accepted ones are equal throughout
        if x.is_ok() || x.is_err_and(|r| r.number == 40) {
            assert_eq!(x, y, "case {i}");
            assert!(first == second, "case {i}");
            compared += usize::from(given != moved);
            covered += usize::from(given != moved && report_with(&a, &given) != report_with(&a, &[]));
        }
    }
    println!("{compared} reorderings, {covered} of deposits that change the report");
    assert!(compared > 1000 && covered > 500);
}

/// Deposits of one group struck, kept or made anew, now and then with its ordinary records; or records of a fail, beside deposits.
#[test]
fn edit_of_one_line_with_deposits() {
    let mut rng = Rng::new(304);
    let (mut edits, mut moved, mut beside, mut struck, mut fails) = (0, 0, 0, 0, 0);
    for i in 0..12_000 {
        let (of_fail, of_records) = (i % 8 == 0, i % 4 == 0);
        let a = if of_fail { account(&mut rng, mixed(i / 8)) } else { futures_account(&mut rng, mixed_futures(i)) };
        let given = deposits(&mut rng, &a);
        let Some(before) = report_with(&a, &given) else { continue };
        let groups = classes(&a.day);
        let all: Vec<u32> = groups.keys().copied().collect();
        if all.is_empty() {
            continue;
        }
        let at = (of_fail, groups[&rng.pick(&all)]);
        let is_own = |class: &u32| (false, groups[class]) == at;
        let (own, mut edited): (Vec<[u32; 2]>, Vec<[u32; 2]>) = given.iter().partition(|d| is_own(&d[0]));
        let anew = rng.once_in(2);
        for class in all.into_iter().filter(is_own) {
            edited.extend(match rng.below(3) {
                0 => None,
                1 if anew => Some(deposit(&mut rng, &a, class)),
                _ => own.iter().find(|d| d[0] == class).copied(),
            });
        }
        rng.shuffle(&mut edited);
        let mut kept = records_of(&a.batch);
        if of_records {
            kept.retain(|r| place(&a.day, r) != at || !rng.once_in(3));
            rng.shuffle(&mut kept);
        }
        let Some(after) = report_with(&Account { day: a.day.clone(), batch: batch_of(&kept) }, &edited) else { continue };
        let change = change_of_one_line(&before, &after, at, &format!("case {i}"));
        if !of_records {
            assert_eq!(line(&before, at).is_some(), line(&after, at).is_some(), "case {i}");
        }
        edits += 1;
        moved += usize::from(change != 0 && !of_records);
        beside += usize::from(!others(&before, at).is_empty());
        struck += usize::from(edited.len() < given.len());
        fails += usize::from(of_fail && change != 0);
    }
    println!("{edits} edits: {moved} of deposits alone moved the margin, {beside} beside other lines, {struck} with fewer deposits, {fails} of a fail");
    assert!(edits > 3000 && moved > 1000 && beside > 1000 && struck > 1000 && fails > 20);
}
