//! The figures of request U7 that are run, at the calls that rewrite a batch; the reckoner has them too.
use harness::accounts::{shares, Account};
use harness::beside::compare;
use harness::fields::{account, record_words, Class, Record, Series, CALL, EQUITY};
use harness::layout::LONGEST_BATCH;
use harness::rng::Rng;
use harness::unit;

/// What is written into a memory of so many words, or number and place of the refusal.
fn written(a: &Account, record: Option<&[u32]>, room: usize) -> Result<Vec<u32>, (u32, usize)> {
    compare(a, record, room, &mut Rng::new(7), "a figure").map_err(|r| (r.number, r.place))
}

fn rewrite(a: &Account, room: usize) -> Result<Vec<u32>, (u32, usize)> {
    written(a, None, room)
}

fn add_words(a: &Account, record: &[u32], room: usize) -> Result<Vec<u32>, (u32, usize)> {
    written(a, Some(record), room)
}

fn add(a: &Account, record: Record, room: usize) -> Result<Vec<u32>, (u32, usize)> {
    add_words(a, &record_words(&record), room)
}

fn trade(series: u32, long: u32, short: u32) -> Record {
    Record { series, long, short, ..Record::default() }
}

fn fail(series: u32, long: u32, short: u32) -> Record {
    Record { fail: true, ..trade(series, long, short) }
}

/// A call and two shares.
fn call_and_shares(records: &[Record]) -> Account {
    let share = |serial| Series { series_type: EQUITY, serial, multiplier: 1, ..Series::default() };
    let call = Series { series_type: CALL, multiplier: 1, ..Series::default() };
    account(&[Class::default()], &[call, share(1), share(2)], records)
}

#[test]
fn seven_records_become_four() {
    let exercised = Record { exercised: true, ..trade(0, 1, 0) };
    let sold = Record { dvp: 10, ..trade(1, 0, 7) };
    let seven = [trade(1, 7, 0), trade(0, 5, 0), sold, trade(0, 0, 2), trade(2, 4, 4), exercised, fail(1, 0, 2)];
    let four = [trade(0, 3, 0), exercised, Record { short: 0, ..sold }, fail(1, 0, 2)];
    let (a, b) = (call_and_shares(&seven), call_and_shares(&four));
    assert_eq!(rewrite(&a, 25).as_ref(), Ok(&b.batch));
    assert_eq!(rewrite(&a, 24), Err((40, 25)));
    assert_eq!(rewrite(&b, LONGEST_BATCH), Ok(b.batch));
}

/// 256 shares of this multiplier, and so many records of long 1, of one share after the other.
fn bought(multiplier: u32, records: u32) -> Account {
    let records: Vec<Record> = (0..records).map(|i| trade(i % 256, 1, 0)).collect();
    shares(Class::default(), Series { multiplier, ..Series::default() }, &records)
}

#[test]
fn additions_to_256_shares() {
    let a = bought(1, 256);
    let length = |a: &Account, record| add(a, record, LONGEST_BATCH).map(|words| words.len());
    assert_eq!(length(&a, trade(3, 1, 0)), Ok(1537));
    assert_eq!(length(&a, trade(3, 0, 1)), Ok(1531));
    assert_eq!(length(&a, fail(3, 1, 0)), Err((32, 0)));
    assert_eq!(length(&a, fail(3, 1, 1)), Ok(1537));
    assert_eq!(length(&a, trade(3, 10_000_001, 0)), Err((27, 1538)));
    assert_eq!(length(&a, Record { exercised: true, ..trade(3, 1, 0) }), Err((24, 256)));
    // a position that is gone leaves space for another
    let b = Account { batch: add(&a, trade(3, 0, 1), LONGEST_BATCH).expect("accepted"), ..a };
    assert_eq!(length(&b, fail(3, 1, 0)), Ok(1537));
}

/// Row 20 looks at the batch as given, 21 at both lengths.
#[test]
fn lengths_of_an_addition() {
    let twice = record_words(&trade(3, 1, 0)).repeat(2);
    for n in 0..=12 {
        let answer = add_words(&bought(1, 256), &twice[..n], LONGEST_BATCH).map(|words| words.len());
        assert_eq!(answer, if n == 6 { Ok(1537) } else { Err((21, 0)) }, "{n}");
        assert_eq!(add_words(&bought(1, 257), &twice[..n], LONGEST_BATCH), Err((20, 0)), "{n}");
    }
    assert!(rewrite(&bought(1, 256), LONGEST_BATCH).is_ok());
    assert_eq!(rewrite(&bought(1, 257), LONGEST_BATCH), Err((20, 0)));
    let mut short = bought(1, 256);
    short.batch.truncate(1531);
    assert_eq!(add(&short, trade(3, 1, 0), LONGEST_BATCH), Err((21, 0)));
}

/// The limit of a DVP amount, in units.
const LIMIT: i64 = 5_000_000_000_000_000;

fn paid(series: u32, dvp: i64) -> Record {
    Record { dvp, ..trade(series, 0, 0) }
}

/// Four records, of share 2, share 1, the call and share 1, the last with these two DVP amounts and bought and sold.
fn with_dvps(first: i64, second: i64) -> Account {
    let share = |dvp, long, short| Record { dvp, ..trade(1, long, short) };
    call_and_shares(&[trade(2, 1, 1), share(first, 3, 0), trade(0, 1, 0), share(second, 0, 3)])
}

#[test]
fn dvp_sums_at_the_limit() {
    for sign in [1, -1] {
        let of = |first, second| with_dvps(sign * first, sign * second);
        for (first, second) in [(LIMIT, 0), (LIMIT - 1, 1), (1, LIMIT - 1), (LIMIT / 2, LIMIT / 2)] {
            let expected = call_and_shares(&[trade(0, 1, 0), paid(1, sign * LIMIT)]).batch;
            assert_eq!(rewrite(&of(first, second), LONGEST_BATCH), Ok(expected), "{first}, {second}");
        }
        for (first, second) in [(LIMIT, 1), (1, LIMIT), (LIMIT, LIMIT), (LIMIT / 2, LIMIT / 2 + 1)] {
            assert_eq!(rewrite(&of(first, second), LONGEST_BATCH), Err((31, 1)), "{first}, {second}");
            // the report doesn't know row 31
            let a = of(first, second);
            assert!(unit::call_words(&a.day, &a.batch, &[], &mut [0; 32]).is_ok(), "{first}, {second}");
        }
        assert_eq!(add(&of(0, LIMIT), paid(1, sign), LONGEST_BATCH), Err((31, 1)));
        assert!(add(&of(0, LIMIT), paid(1, -sign), LONGEST_BATCH).is_ok());
        assert!(add(&of(0, LIMIT), paid(2, sign * LIMIT), LONGEST_BATCH).is_ok());
        // of one record row 27 says it
        assert_eq!(add(&of(0, 0), paid(1, sign * (LIMIT + 1)), LONGEST_BATCH), Err((27, 28)));
    }
}

/// Row 30 before 31, both before 40, over all records; the earliest offending position is named by its first record.
#[test]
fn rows_of_a_rewriting_in_order() {
    let above_30 = trade(1, 0, 10_000_000);
    let above_31 = paid(2, LIMIT);
    let refused = |records: &[Record]| rewrite(&call_and_shares(records), 0).expect_err("refused");
    assert_eq!(refused(&[trade(0, 1, 0), above_31, above_30, above_31, above_30]), (30, 2));
    assert_eq!(refused(&[trade(0, 1, 0), above_31, above_30, above_31]), (31, 1));
    assert_eq!(refused(&[above_31, paid(1, LIMIT), paid(1, LIMIT), above_31]), (31, 0));
    assert_eq!(refused(&[trade(0, 1, 0), above_31, above_30]), (40, 19));
    assert_eq!(refused(&[]), (40, 1));
}

/// Row 30 before 32, and that before 40. Rows 31 and 32 never hold at once: each of 257 positions then has one record.
#[test]
fn rows_of_an_addition_in_order() {
    let a = bought(2, 256);
    assert_eq!(add(&a, fail(9, 5_000_001, 0), 0), Err((30, 256)));
    assert_eq!(add(&a, fail(9, 5_000_000, 0), 0), Err((32, 0)));
    assert_eq!(add(&a, trade(9, 5_000_000, 0), 0), Err((30, 9)));
    assert_eq!(add(&a, trade(9, 4_999_999, 0), 0), Err((40, 1537)));
    assert_eq!(add(&a, trade(9, 4_999_999, 0), 1536), Err((40, 1537)));
    // 255 records leave space for one position more, and row 31 comes before 40
    let b = bought(2, 255);
    assert_eq!(add(&b, fail(9, 1, 0), 1536), Err((40, 1537)));
    assert_eq!(add(&b, fail(9, 1, 0), 1537).map(|words| words.len()), Ok(1537));
    let c = Account { batch: add(&b, paid(9, LIMIT), LONGEST_BATCH).expect("accepted"), ..b };
    assert_eq!(add(&c, paid(9, 1), 0), Err((31, 9)));
}
