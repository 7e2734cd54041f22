//! The committed cases for the call over words: accounts with a memory's length, and what is printed for each.
use crate::accounts::{accepted, account, all_lines, damage, extreme, Account, LARGEST, SMALL, TYPICAL};
use crate::fields::{self, Class, Record, Series, CALL, EQUITY, EXPIRED_FUTURE, FUTURE};
use crate::files::Made;
use crate::layout::{class_at, WHOLE_OFFSET};
use crate::reckoner::{reckon, text, to_bytes, words, Refusal};
use crate::rng::Rng;
use crate::samples::{calls, expired, samples, with_words, MINUS_ZERO, TOO_MANY, WRONG_KIND};
use std::path::Path;

pub struct Case {
    pub account: Account,
    /// The report memory's length in words.
    pub room: usize,
}

/// The longest report in words.
pub const LONGEST: usize = 1115;

/// The rows of the table that the call over words can meet without deposits, its memory long enough.
pub const ROWS: [u32; 19] = [10, 11, 12, 13, 14, 18, 15, 16, 17, 20, 21, 22, 27, 28, 23, 24, 25, 26, 30];

/// One share, and so many records of it.
pub fn with_records(records: usize) -> Account {
    let class = Class { group: 3, equity_rate: 10_000, ..Class::default() };
    let series = Series { series_type: EQUITY, multiplier: 1, closing: 400_000, theoretical: [400_000; 10], ..Series::default() };
    let record = Record { long: 3, short: 2, dvp: -390_000, ..Record::default() };
    fields::account(&[class], &[series], &vec![record; records])
}

/// Two classes, of groups 3 and 28, the second with this offset, and a position in each.
pub fn with_offset(offset: u32) -> Account {
    let class = |number, group, offset| Class { number, group, offset, equity_rate: 10_000, ..Class::default() };
    let theoretical = [390_000, 392_000, 394_000, 396_000, 398_000, 402_000, 404_000, 406_000, 408_000, 410_000];
    let series = |class_number| Series {
        class_number,
        series_type: EQUITY,
        multiplier: 1,
        closing: 400_000,
        theoretical,
        ..Series::default()
    };
    let records = [Record { series: 0, long: 7, ..Record::default() }, Record { series: 1, short: 9, ..Record::default() }];
    fields::account(&[class(2, 3, WHOLE_OFFSET), class(9, 28, offset)], &[series(2), series(9)], &records)
}

/// Two classes of a group with this offset: at upside 5 a debit of 200 units in the first and a credit of so many in the second.
pub fn with_credit(offset: u32, credit: u32) -> Account {
    let class = |number| Class { group: 3, number, offset, ..Class::default() };
    let series = |class_number, moved| Series {
        class_number,
        series_type: EQUITY,
        multiplier: 1,
        closing: 1_000,
        theoretical: [1_000, 1_000, 1_000, 1_000, 1_000, 1_000, 1_000, 1_000, 1_000, 1_000 + moved],
        ..Series::default()
    };
    let records = [Record { series: 0, short: 1, ..Record::default() }, Record { series: 1, long: 1, ..Record::default() }];
    fields::account(&[class(0), class(1)], &[series(0, 200), series(1, credit)], &records)
}

/// Two classes, the second with downside 1 at 5.0 euro, upside 1 at 5.2 and this underlying price, and an exercised call in each.
pub fn with_underlying(underlying: u32) -> Account {
    let projected = [46_000, 47_000, 48_000, 49_000, 50_000, 52_000, 53_000, 54_000, 55_000, 56_000];
    let class = |number, underlying| Class { group: 3, number, underlying, projected, ..Class::default() };
    let call = |class_number| Series { class_number, series_type: CALL, multiplier: 100, strike: 49_000, ..Series::default() };
    let record = |series| Record { series, exercised: true, long: 3, ..Record::default() };
    fields::account(&[class(0, 51_000), class(1, underlying)], &[call(0), call(1)], &[record(0), record(1)])
}

/// U9's sample with these bits of a word of its series flipped.
pub fn with_flipped(word: usize, bits: u32) -> Account {
    let mut out = expired();
    out.day[class_at(1) + word] ^= bits;
    out
}

/// Such bits of U9's figures: for a serial of 1, type 7, an adjustment of a unit.
pub const SERIAL_1: (usize, u32) = (0, 1);
pub const TYPE_7: (usize, u32) = (0, (EXPIRED_FUTURE ^ 7) << 19);
pub const ADJUSTMENT_1: (usize, u32) = (4, 1);

/// Two open futures bought and three expired ones sold, of one class and expiry: delivery price 5.0, underlying price 5.5 at every point.
pub fn open_and_expired() -> Account {
    let class = Class {
        group: 3,
        underlying: 55_000,
        spot_rate: 3_000_000,
        non_spot_rate: 2_000_000,
        future_rate: 10_000,
        projected: [55_000; 10],
        ..Class::default()
    };
    let open = Series { series_type: FUTURE, multiplier: 100, ..Series::default() };
    let expired = Series { series_type: EXPIRED_FUTURE, strike: 50_000, ..open };
    let records = [Record { series: 0, long: 2, ..Record::default() }, Record { series: 1, short: 3, ..Record::default() }];
    fields::account(&[class], &[open, expired], &records)
}

fn needed(a: &Account) -> Option<usize> {
    reckon(&a.day, &a.batch).ok().map(|report| words(&report).len())
}

/// What is printed for a case.
pub fn printed(case: &Case) -> String {
    let result = reckon(&case.account.day, &case.account.batch);
    match &result {
        Ok(report) if words(report).len() > case.room => text(&Err(Refusal { number: 40, place: words(report).len() })),
        _ => text(&result),
    }
}

pub fn cases() -> Vec<Case> {
    let mut out = Vec::new();
    let mut add = |account: Account, room: usize| out.push(Case { account, room });
    for s in samples() {
        add(s.account, LONGEST);
    }
    // the scope's figures that are run, the offset's as U6 has them: 257 records are refused by row 20 in the call over words
    for a in [with_records(256), with_records(257), with_offset(WHOLE_OFFSET), with_offset(WHOLE_OFFSET + 1)] {
        add(a, LONGEST);
    }
    // the figures of U3 beside the sample: an adjustment below upside 5, and ten long
    for a in [calls(4_000, 0, 10), calls(5_000, 10, 0)] {
        add(a, LONGEST);
    }
    // those of U4 beside the sample: with minus zero, that alone, and with a wrong kind
    for words in [&[TOO_MANY, MINUS_ZERO][..], &[MINUS_ZERO], &[MINUS_ZERO, WRONG_KIND]] {
        add(with_words(words), LONGEST);
    }
    // those of U6: M7's credits of 101 and 1 at 85%, that of 101 at 82.75% and 0.85%
    for (offset, credit) in [(8_500, 101), (8_500, 1), (8_275, 101), (85, 101)] {
        add(with_credit(offset, credit), LONGEST);
    }
    // those of U8: an underlying price equal to downside 1 and to upside 1, and a unit outside each
    for underlying in [50_000, 52_000, 49_999, 52_001] {
        add(with_underlying(underlying), LONGEST);
    }
    // those of U9 beside the sample: a serial, type 7, an adjustment; no spread with an open future and no minimum
    for (word, bits) in [SERIAL_1, TYPE_7, ADJUSTMENT_1] {
        add(with_flipped(word, bits), LONGEST);
    }
    add(open_and_expired(), LONGEST);
    let mut rng = Rng::new(2021);
    for _ in 0..16 {
        add(account(&mut rng, SMALL), LONGEST);
    }
    for _ in 0..5 {
        add(accepted(&mut rng, TYPICAL), LONGEST);
    }
    add(accepted(&mut rng, LARGEST), LONGEST);
    add(all_lines(), LONGEST);
    add(extreme(&mut rng), LONGEST);
    // a damaged account for each row; every other one with no memory, since row 40 comes last
    for (i, row) in ROWS.into_iter().enumerate() {
        let a = loop {
            let mut a = account(&mut rng, SMALL);
            damage(&mut rng, &mut a);
            if reckon(&a.day, &a.batch).err().is_some_and(|r| r.number == row) {
                break a;
            }
        };
        add(a, if i % 2 == 0 { LONGEST } else { 0 });
    }
    // memories around the length needed
    for short in [0, 1, 2, 18, 19] {
        let a = accepted(&mut rng, SMALL);
        let room = needed(&a).unwrap() - short;
        add(a, room);
    }
    for room in [0, 1, 12, 13, 32, 300] {
        let a = account(&mut rng, SMALL);
        add(a, room);
    }
    out
}

/// The number of cases; for each the lengths in words of day file, batch and memory, then the two files.
pub fn case_words(cases: &[Case]) -> Vec<u32> {
    let mut out = vec![cases.len() as u32];
    for case in cases {
        out.extend([case.account.day.len(), case.account.batch.len(), case.room].map(|n| n as u32));
        out.extend(&case.account.day);
        out.extend(&case.account.batch);
    }
    out
}

/// The committed files.
pub fn files() -> Vec<Made> {
    let cases = cases();
    let folder = Path::new("crates/random_accounts");
    let mut stdout = String::new();
    for (i, case) in cases.iter().enumerate() {
        stdout += &format!("CASE {i}\n{}", printed(case));
    }
    let all = case_words(&cases);
    assert!(all.len() <= 60_000);
    vec![(folder.join("data/cases.w32"), to_bytes(&all)), (folder.join("stdout"), stdout.into_bytes())]
}
