//! The call over words with deposits against the reckoner: number, place and every word of the memory.
use harness::accounts::{account, damage, mixed, Account};
use harness::deposits::{deposits, futures, futures_account, mixed_case, mixed_futures, shorts};
use harness::layout::{LONGEST_BATCH, LONGEST_DAY};
use harness::reckoner::{call_words, reckon, reckon_with, to_bytes, to_words, words, Refusal};
use harness::rng::Rng;
use harness::unit;
use std::collections::{BTreeMap, BTreeSet};

const GUARD: usize = 8;
const LONGEST: usize = 1115;

/// Both calls on the same inputs and equal memories; the words around the memory and the inputs must stay.
fn compare(a: &Account, deposits: &[u32], room: usize, fill: &mut Rng, case: &str) -> Result<usize, Refusal> {
    let mut around: Vec<u32> = (0..room + 2 * GUARD).map(|_| fill.next() as u32).collect();
    let mut expected = around.clone();
    let memory = GUARD..GUARD + room;
    let theirs = call_words(&a.day, &a.batch, deposits, &mut expected[memory.clone()]);
    let (day, batch, lent) = (a.day.clone(), a.batch.clone(), deposits.to_vec());
    let ours = unit::call_words(&day, &batch, &lent, &mut around[memory]);
    assert_eq!(ours, theirs, "{case}");
    assert!(around == expected, "memory: {case}");
    assert!(day == a.day && batch == a.batch && lent == deposits, "inputs: {case}");
    ours
}

/// A memory's length: mostly enough, else about the length needed or any other.
fn room(rng: &mut Rng, a: &Account, deposits: &[u32]) -> usize {
    let needed = reckon_with(&a.day, &a.batch, deposits).map_or(13, |report| words(&report).len());
    match rng.below(12) {
        0 => needed,
        1 => needed - 1,
        2 => rng.below(needed as u64 + 9) as usize,
        3 => 0,
        _ => LONGEST,
    }
}

/// Of the futures that agree in net short and expiry those beside each other, in the order of cover, of which the deposit covers unlike
/// numbers: an open one before an expired one, and two expired ones.
fn ties(a: &Account, deposit: &[u32]) -> [usize; 2] {
    let shorts = shorts(a, deposit[0]);
    let mut left = shorts.first().map_or(0, |(_, f)| u64::from(deposit[1]) / f.multiplier);
    // in the order of their places, the open one first
    let mut equal: BTreeMap<(u64, u32), Vec<bool>> = BTreeMap::new();
    shorts.iter().for_each(|(net, f)| equal.entry((*net, f.expiry)).or_default().push(f.expired));
    let mut out = [0; 2];
    for ((net, _), expired) in equal.into_iter().rev() {
        let mut before = None;
        for is_expired in expired {
            let taken = net.min(left);
            left -= taken;
            if let Some((was_expired, other)) = before {
                out[usize::from(was_expired)] += usize::from(taken != other);
            }
            before = Some((is_expired, taken));
        }
    }
    out
}

/// The multipliers of a class's futures: of the open ones, and of the expired ones.
fn multipliers(a: &Account, class: u32) -> [BTreeSet<u64>; 2] {
    [false, true].map(|expired| {
        let own = futures(&a.day).into_iter().filter(|f| f.class == class && f.expired == expired);
        own.map(|f| f.multiplier).collect()
    })
}

#[test]
fn random_and_damaged_deposits() {
    let mut rng = Rng::new(5001);
    let mut fill = Rng::new(5002);
    let mut numbers: BTreeMap<u32, usize> = BTreeMap::new();
    // refusals by row 50 of an odd number of words; by 50 and 51 of a deposit behind the first; reports that are others without deposits
    let (mut odd, mut behind, mut covered) = (0, BTreeMap::new(), 0);
    // ties that an accepted deposit decides; refusals by row 51 where open futures and expired ones are alike each, and of expired ones alone
    let (mut tied, mut both_alike, mut expired_alone) = ([0; 2], 0, 0);
    for i in 0..40_000 {
        let (a, deposits) = mixed_case(&mut rng, i);
        let room = room(&mut rng, &a, &deposits);
        match compare(&a, &deposits, room, &mut fill, &format!("case {i}")) {
            Err(r) => {
                *numbers.entry(r.number).or_default() += 1;
                odd += usize::from(r.number == 50 && deposits.len() % 2 == 1);
                *behind.entry(r.number).or_insert(0) += usize::from(r.place > 0);
                if r.number == 51 {
                    let counts = multipliers(&a, deposits[2 * r.place]).map(|m| m.len());
                    both_alike += usize::from(counts == [1, 1]);
                    expired_alone += usize::from(counts[0] == 0);
                }
            }
            Ok(_) => {
                *numbers.entry(0).or_default() += 1;
                covered += usize::from(reckon(&a.day, &a.batch) != reckon_with(&a.day, &a.batch, &deposits));
                for deposit in deposits.chunks(2) {
                    tied.iter_mut().zip(ties(&a, deposit)).for_each(|(n, more)| *n += more);
                }
            }
        }
    }
    println!(
        "answers by number: {numbers:?}; 50 by an odd number: {odd}; 50 and 51 behind the first: {}, {}",
        behind[&50], behind[&51]
    );
    println!(
        "{covered} reports changed by deposits; ties decided of an open and an expired future, of two expired ones: {tied:?}"
    );
    println!("51 of open and expired futures that are alike each: {both_alike}; of expired ones alone: {expired_alone}");
    assert!(numbers[&0] >= 10_000 && numbers[&30] >= 100 && numbers[&40] >= 1000);
    assert!(odd >= 1000 && numbers[&50] - odd >= 1000 && numbers[&51] >= 1000 && covered >= 5000);
    assert!(behind[&50] >= 500 && behind[&51] >= 500);
    assert!(tied.iter().all(|&n| n >= 300) && both_alike >= 500 && expired_alone >= 300);
}

/// Without deposits the words and the answer of the byte call, for files that rows 1 and 2 pass.
#[test]
fn without_deposits_as_the_byte_call() {
    let mut rng = Rng::new(5003);
    let (mut reports, mut refusals) = (0, 0);
    for i in 0..12_000 {
        let mut a = if i % 2 == 0 { account(&mut rng, mixed(i / 2)) } else { futures_account(&mut rng, mixed_futures(i / 2)) };
        for _ in 0..[0, 0, 1, 2][i % 4] {
            damage(&mut rng, &mut a);
        }
        if a.day.len() > LONGEST_DAY || a.batch.len() > LONGEST_BATCH {
            continue;
        }
        let before: Vec<u32> = (0..room(&mut rng, &a, &[])).map(|_| rng.next() as u32).collect();
        let (mut memory, mut bytes) = (before.clone(), to_bytes(&before));
        let answer = unit::call_words(&a.day, &a.batch, &[], &mut memory);
        assert_eq!(answer, unit::call(&to_bytes(&a.day), &to_bytes(&a.batch), &mut bytes), "case {i}");
        assert!(memory == to_words(&bytes), "case {i}");
        *if answer.is_ok() { &mut reports } else { &mut refusals } += 1;
    }
    println!("{reports} reports, {refusals} refusals");
    assert!(reports >= 4000 && refusals >= 3000);
}

/// An accepted account of futures, and deposits that change its report.
fn covered_account(rng: &mut Rng, i: usize) -> (Account, Vec<u32>) {
    loop {
        let a = futures_account(rng, mixed_futures(i));
        let words = deposits(rng, &a).concat();
        if let (Ok(before), Ok(after)) = (reckon(&a.day, &a.batch), reckon_with(&a.day, &a.batch, &words)) {
            if before != after {
                return (a, words);
            }
        }
    }
}

#[test]
fn every_length_of_memory() {
    let mut rng = Rng::new(5004);
    let mut fill = Rng::new(5005);
    for i in 0..12 {
        let (a, deposits) = covered_account(&mut rng, i);
        let needed = words(&reckon(&a.day, &a.batch).expect("accepted")).len();
        for room in 0..needed + 9 {
            let expected = if room < needed { Err(Refusal { number: 40, place: needed }) } else { Ok(needed) };
            assert_eq!(compare(&a, &deposits, room, &mut fill, &format!("account {i}, room {room}")), expected);
        }
    }
}

/// Every bit of the deposits, one at a time, and every length of them.
#[test]
fn every_bit_and_length_of_deposits() {
    let mut rng = Rng::new(5006);
    let mut fill = Rng::new(5007);
    for i in 0..40 {
        let (a, deposits) = covered_account(&mut rng, i);
        for bit in 0..32 * deposits.len() {
            let mut changed = deposits.clone();
            changed[bit / 32] ^= 1 << (bit % 32);
            compare(&a, &changed, LONGEST, &mut fill, &format!("account {i}, bit {bit}")).ok();
        }
        for n in 0..deposits.len() {
            let answer = compare(&a, &deposits[..n], LONGEST, &mut fill, &format!("account {i}, {n} words"));
            assert_eq!(answer.err(), (n % 2 == 1).then_some(Refusal { number: 50, place: 0 }));
        }
    }
}

/// Lists far longer than a day file has classes.
#[test]
fn long_lists() {
    let mut rng = Rng::new(5008);
    let mut fill = Rng::new(5009);
    let (a, deposits) = covered_account(&mut rng, 9);
    let named = deposits.len() / 2;
    let refused = |place| Err(Refusal { number: 50, place });
    let mut long = deposits.repeat(200_000);
    assert_eq!(compare(&a, &long, LONGEST, &mut fill, "named twice"), refused(named));
    long.push(0);
    assert_eq!(compare(&a, &long, LONGEST, &mut fill, "odd"), refused(0));
    let mut unknown = deposits;
    unknown.resize(1_000_000, u32::MAX);
    assert_eq!(compare(&a, &unknown, LONGEST, &mut fill, "unknown"), refused(named));
}
