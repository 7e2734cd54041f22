//! What request U11 claims of the conversions, on what the unit itself answers.
use harness::accounts::Account;
use harness::additions::mixed_addition;
use harness::beside::rewritten;
use harness::cases::LONGEST;
use harness::cents::{Way, CENTS, WAYS};
use harness::conversions::{batch, mixed_batch, room};
use harness::layout::LONGEST_BATCH;
use harness::reckoner::{to_bytes, Refusal};
use harness::records::{batch_of, dvp, records_of, set_dvp};
use harness::rng::Rng;
use harness::unit;
use std::collections::BTreeMap;

/// The batch converted, where the unit accepts it.
fn converted(way: Way, batch: &[u32]) -> Option<Vec<u32>> {
    let mut memory = [0; LONGEST_BATCH];
    let n = unit::convert(way, batch, &mut memory).ok()?;
    Some(memory[..n].to_vec())
}

/// The batches of a run that are accepted, and what becomes of them.
fn accepted(seed: u64, way: Way) -> impl Iterator<Item = (usize, Vec<u32>, Vec<u32>)> {
    let mut rng = Rng::new(seed);
    let made = (0..6000).map(move |i| (i, mixed_batch(&mut rng, way, i)));
    made.filter_map(move |(i, words)| converted(way, &words).map(|after| (i, words, after)))
}

/// To cents and back is the original word for word, and from cents and to cents again.
#[test]
fn there_and_back() {
    for way in WAYS {
        let (mut all, mut changed) = (0, 0);
        for (i, before, after) in accepted(11_201, way) {
            assert_eq!(converted(way.back(), &after).as_ref(), Some(&before), "{way:?}, case {i}");
            all += 1;
            changed += usize::from(before[1..] != after[1..]);
        }
        println!("{way:?}: {all} there and back, {changed} with other amounts between");
        assert!(all >= 3000 && changed >= 2500);
    }
}

/// A hundred units a cent; every word but the amounts stays, and the header but for its bit.
#[test]
fn other_words_stay() {
    for way in WAYS {
        let mut signs = [0; 3];
        for (i, before, after) in accepted(11_202, way) {
            assert_eq!(after.len(), before.len(), "{way:?}, case {i}");
            assert_eq!((before[0] & CENTS, after[0]), (way.bit(), before[0] ^ CENTS), "{way:?}, case {i}");
            for (a, b) in records_of(&before).iter().zip(records_of(&after)) {
                assert_eq!(a[..3], b[..3], "{way:?}, case {i}");
                let (units, cents) = if way == Way::ToCents { (dvp(a), dvp(&b)) } else { (dvp(&b), dvp(a)) };
                assert_eq!(units, 100 * cents, "{way:?}, case {i}");
                signs[(units.signum() + 1) as usize] += 1;
                // the amount's words are those of that number alone
                let mut again = b;
                set_dvp(&mut again, dvp(&b));
                assert_eq!(b, again, "{way:?}, case {i}");
            }
        }
        println!("{way:?}: {signs:?} negative amounts, zeros, positive amounts");
        assert!(signs.iter().all(|&n| n >= 3000));
    }
}

/// Each record is converted by itself: in a batch of its own, and in any order.
#[test]
fn records_by_themselves() {
    let mut rng = Rng::new(11_203);
    for way in WAYS {
        let (mut alone, mut moved) = (0, 0);
        for (i, before, after) in accepted(11_204, way) {
            let mut both: Vec<_> = records_of(&before).into_iter().zip(records_of(&after)).collect();
            for (a, b) in both.iter().take(20) {
                let [own, expected] = [(a, way), (b, way.back())].map(|(r, way)| [&[1 << 29 | 1 | way.bit()], &r[..]].concat());
                assert_eq!(converted(way, &own), Some(expected), "{way:?}, case {i}: alone");
                alone += 1;
            }
            rng.shuffle(&mut both);
            let (records, expected): (Vec<_>, Vec<_>) = both.into_iter().unzip();
            let [records, expected] = [(records, way), (expected, way.back())].map(|(records, way)| {
                let mut out = batch_of(&records);
                out[0] |= way.bit();
                out
            });
            moved += usize::from(records != before);
            assert_eq!(converted(way, &records), Some(expected), "{way:?}, case {i}: reordered");
        }
        println!("{way:?}: {alone} records alone, {moved} batches in another order");
        assert!(alone >= 20_000 && moved >= 2000);
    }
}

/// A call that is refused leaves the memory, and one that is not the words behind those written.
#[test]
fn memories() {
    let mut rng = Rng::new(11_205);
    for way in WAYS {
        let mut numbers: BTreeMap<u32, usize> = BTreeMap::new();
        for i in 0..8000 {
            let words = mixed_batch(&mut rng, way, i);
            let before: Vec<u32> = (0..room(&mut rng, &words)).map(|_| rng.next() as u32).collect();
            let mut memory = before.clone();
            let answer = unit::convert(way, &words, &mut memory);
            let written = answer.unwrap_or(0);
            assert!(written == 0 || written == words.len(), "{way:?}, case {i}");
            assert!(memory[written..] == before[written..], "{way:?}, case {i}: {answer:?}");
            *numbers.entry(answer.err().map_or(0, |r| r.number)).or_default() += 1;
        }
        println!("{way:?}: by number {numbers:?}");
        assert!(numbers.len() == 8 && numbers.values().all(|&n| n >= 50));
    }
}

/// What every other call that reads a batch answers of it.
fn answers(a: &Account, record: &[u32]) -> [Result<usize, Refusal>; 6] {
    let mut memory = [0; LONGEST_BATCH];
    let mut bytes = [0; 4 * LONGEST];
    let mut results = [7; 2];
    let all = unit::call_all(&a.day, &a.batch, &[a.batch.len() as u32], &mut results, &mut memory).expect("a list of one");
    let [number, value] = results;
    [
        unit::call(&to_bytes(&a.day), &to_bytes(&a.batch), &mut bytes),
        unit::call_words(&a.day, &a.batch, &[], &mut memory),
        if number == 0 { Ok(all) } else { Err(Refusal { number, place: value as usize }) },
        unit::rewrite(&a.day, &a.batch, &mut memory),
        unit::add_record(&a.day, &a.batch, record, &mut memory),
        unit::worst_moment(&a.day, &a.batch, record).map(|_| 0),
    ]
}

/// The report and the calls that rewrite or step through a day refuse a batch in cents with 20, and take it as it was when it is converted back.
#[test]
fn other_calls_refuse_the_bit() {
    let mut rng = Rng::new(11_206);
    let mut in_cents = 0;
    for i in 0..4000 {
        let (mut a, record) = mixed_addition(&mut rng, i);
        if rewritten(&a).is_none() || record.len() != 6 {
            continue;
        }
        let mut records = records_of(&a.batch);
        records.iter_mut().for_each(|r| set_dvp(r, dvp(r) / 100 * 100));
        a.batch = batch_of(&records);
        let before = answers(&a, &record);
        let cents = Account { batch: converted(Way::ToCents, &a.batch).expect("whole cents"), day: a.day.clone() };
        assert_eq!(answers(&cents, &record), [Err(Refusal { number: 20, place: 0 }); 6], "case {i}");
        let back = Account { batch: converted(Way::FromCents, &cents.batch).expect("in cents"), day: a.day };
        assert_eq!(answers(&back, &record), before, "case {i}");
        in_cents += usize::from(before.iter().all(|answer| answer.is_ok()));
    }
    println!("{in_cents} batches that every call accepts in units and refuses in cents");
    assert!(in_cents >= 1000);
}

/// Series places that no day file has, and records of nothing, are converted as they stand.
#[test]
fn no_day_file_is_asked() {
    let mut rng = Rng::new(11_207);
    for way in WAYS {
        let mut words = batch(&mut rng, way, 256);
        for (i, record) in words[1..].chunks_mut(6).enumerate() {
            record[..3].copy_from_slice(&[2 << 29 | 3 << 8 | i as u32, 4 << 29, 4 << 29]);
        }
        let after = converted(way, &words).expect("accepted");
        assert!(after[1..].chunks(6).zip(words[1..].chunks(6)).all(|(a, b)| a[..3] == b[..3]), "{way:?}");
    }
}
