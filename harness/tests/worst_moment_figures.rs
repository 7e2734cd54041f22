//! The figures of request U10 that are run; the reckoner has them too.
use harness::accounts::{shares, Account};
use harness::beside::compare_day;
use harness::fields::{account, record_words, Class, Record, Series, CALL, EQUITY, FUTURE};
use harness::layout::MOST_TRADES;
use harness::samples::samples;

/// A euro in ten-thousandths.
const EURO: i64 = 10_000;

/// Margin, step, applied and left out, or number and place of the refusal.
fn words_of_day(a: &Account, trades: &[u32]) -> Result<(i64, u32, u32, u32), (u32, usize)> {
    let worst = compare_day(a, trades, "a figure").map(|course| course.worst());
    worst.map(|m| (m.margin, m.step, m.applied, m.left_out)).map_err(|r| (r.number, r.place))
}

fn words(trades: &[Record]) -> Vec<u32> {
    trades.iter().flat_map(record_words).collect()
}

fn day(a: &Account, trades: &[Record]) -> Result<(i64, u32, u32, u32), (u32, usize)> {
    words_of_day(a, &words(trades))
}

/// M3's share: short n of it has a margin of 44 n euro, long n none.
fn share(opening: &[Record]) -> Account {
    let mut a = samples().into_iter().find(|s| s.name == "share").expect("sample").account;
    a.batch = [vec![1 << 29 | opening.len() as u32], words(opening)].concat();
    a
}

fn trade(series: u32, long: u32, short: u32) -> Record {
    Record { series, long, short, ..Record::default() }
}

fn bought(n: u32) -> Record {
    trade(0, n, 0)
}

fn sold(n: u32) -> Record {
    trade(0, 0, n)
}

#[test]
fn short_long_and_short_again() {
    let trades = [sold(10), trade(1, 1, 0), bought(5), sold(5)];
    assert_eq!(day(&share(&[]), &trades), Ok((440 * EURO, 1, 3, 1)));
    let course = compare_day(&share(&[]), &words(&trades), "the example").expect("accepted");
    assert_eq!(course.opening, 0);
    assert_eq!(
        course.steps.iter().map(|s| s.ok()).collect::<Vec<_>>(),
        [Some(440), None, Some(220), Some(440)].map(|m| m.map(|m| m * EURO))
    );
}

#[test]
fn no_trades() {
    assert_eq!(day(&share(&[]), &[]), Ok((0, 0, 0, 0)));
    assert_eq!(day(&share(&[sold(10), bought(3)]), &[]), Ok((308 * EURO, 0, 0, 0)));
}

/// A step that only equals the best so far leaves it; left-out steps keep their numbers.
#[test]
fn the_earliest_step() {
    let ten = share(&[sold(10)]);
    assert_eq!(day(&ten, &[bought(10), sold(10)]), Ok((440 * EURO, 0, 2, 0)));
    assert_eq!(day(&ten, &[trade(0, 1, 1), sold(1), bought(2), sold(2)]), Ok((484 * EURO, 2, 4, 0)));
    // where the margin stays 0 the opening has it
    assert_eq!(day(&share(&[]), &[bought(1), bought(1), sold(2)]), Ok((0, 0, 3, 0)));
    let nowhere = trade(7, 0, 1);
    assert_eq!(day(&ten, &[nowhere, nowhere, sold(1), nowhere]), Ok((484 * EURO, 3, 1, 3)));
    assert_eq!(day(&ten, &[nowhere, bought(1), nowhere]), Ok((440 * EURO, 0, 1, 2)));
}

#[test]
fn trades_4096_and_4097() {
    let (a, most) = (share(&[]), vec![sold(1); MOST_TRADES]);
    assert_eq!(day(&a, &most), Ok((4096 * 44 * EURO, 4096, 4096, 0)));
    assert_eq!(day(&a, &[&most[..], &[sold(1)]].concat()), Err((62, 0)));
    assert_eq!(day(&a, &vec![trade(7, 0, 1); MOST_TRADES]), Ok((0, 0, 0, 4096)));
    assert_eq!(day(&a, &vec![trade(7, 0, 1); MOST_TRADES + 1]), Err((62, 0)));
}

#[test]
fn lists_of_whole_records() {
    let list = words(&[sold(1); 5]);
    for n in 0..=list.len() {
        let steps = n as u32 / 6;
        let expected = if n % 6 == 0 { Ok((i64::from(steps) * 44 * EURO, steps, steps, 0)) } else { Err((62, 0)) };
        assert_eq!(words_of_day(&share(&[]), &list[..n]), expected, "{n} words");
    }
}

/// A future, a call and a share of a class, the call of multiplier 10, and an opening.
fn three(opening: &[Record]) -> Account {
    let class = Class { equity_rate: 1, ..Class::default() };
    let one = Series { multiplier: 1, ..Series::default() };
    let series = [
        Series { series_type: FUTURE, ..one },
        Series { series_type: CALL, multiplier: 10, ..one },
        Series { series_type: EQUITY, ..one },
    ];
    account(&[class], &series, opening)
}

const FUTURE_PLACE: u32 = 0;
const CALL_PLACE: u32 = 1;
const SHARE_PLACE: u32 = 2;

/// The limit of a DVP amount, in units.
const LIMIT: i64 = 5_000_000_000_000_000;

fn paid(series: u32, dvp: i64) -> Record {
    Record { dvp, ..trade(series, 0, 0) }
}

/// The words of a trade with one of them replaced.
fn with_word(record: Record, at: usize, word: u32) -> Vec<u32> {
    let mut out = record_words(&record);
    out[at] = word;
    out
}

/// A trade for each row that leaves a step out, but 32.
#[test]
fn each_row_leaves_out() {
    let exercised = |series| Record { exercised: true, ..trade(series, 1, 0) };
    let fail = |series| Record { fail: true, ..trade(series, 1, 0) };
    let share = trade(SHARE_PLACE, 0, 1);
    let refused: [(u32, Vec<u32>); 17] = [
        (22, with_word(share, 0, 3 << 29 | SHARE_PLACE)),
        (22, with_word(share, 5, 5 << 29)),
        (27, with_word(share, 0, 2 << 29 | 1 << 10 | SHARE_PLACE)),
        (27, with_word(share, 1, 4 << 29 | 10_000_001)),
        (27, with_word(share, 3, 5 << 29 | 1 << 5)),
        (27, record_words(&paid(SHARE_PLACE, -LIMIT - 1))),
        (28, with_word(share, 3, 5 << 29 | 1 << 28)),
        (23, record_words(&trade(3, 1, 0))),
        (23, record_words(&trade(255, 0, 0))),
        (24, record_words(&exercised(FUTURE_PLACE))),
        (24, record_words(&exercised(SHARE_PLACE))),
        (25, record_words(&fail(FUTURE_PLACE))),
        (25, record_words(&fail(CALL_PLACE))),
        (26, record_words(&paid(FUTURE_PLACE, 1))),
        (26, record_words(&paid(CALL_PLACE, -1))),
        (30, record_words(&trade(CALL_PLACE, 0, 1_000_001))),
        (31, record_words(&paid(SHARE_PLACE, LIMIT))),
    ];
    // the share's DVP sum is 1 unit, so that an amount at the limit is above it with it
    let a = three(&[paid(SHARE_PLACE, 1)]);
    let (rows, list): (Vec<u32>, Vec<Vec<u32>>) = refused.into_iter().unzip();
    let course = compare_day(&a, &list.concat(), "each row").expect("accepted");
    assert_eq!(
        course.steps.iter().map(|s| s.err().map(|r| r.number)).collect::<Vec<_>>(),
        rows.into_iter().map(Some).collect::<Vec<_>>()
    );
    // the trade as it should be is applied between them
    let between: Vec<u32> = list.iter().flat_map(|w| [w.clone(), record_words(&share)].concat()).collect();
    assert_eq!(words_of_day(&a, &between), Ok((17 - 1, 34, 17, 17)));
}

/// Rows 30 and 31 at their limits, of what the steps before have added up to.
#[test]
fn sums_of_steps_at_the_limits() {
    let a = three(&[]);
    for sign in [1, -1] {
        let call = |n: u32| if sign == 1 { trade(CALL_PLACE, 0, n) } else { trade(CALL_PLACE, n, 0) };
        let applied = |trades: &[Record]| day(&a, trades).map(|(_, _, applied, left_out)| (applied, left_out));
        assert_eq!(applied(&[call(999_999), call(1)]), Ok((2, 0)));
        assert_eq!(applied(&[call(999_999), call(2), call(1), call(1)]), Ok((2, 2)));
        let dvp = |n: i64| paid(SHARE_PLACE, sign * n);
        assert_eq!(applied(&[dvp(LIMIT - 1), dvp(1)]), Ok((2, 0)));
        assert_eq!(applied(&[dvp(LIMIT), dvp(1), dvp(-1), dvp(1)]), Ok((3, 1)));
        // the DVP sum of another position is its own
        assert_eq!(applied(&[dvp(LIMIT), Record { fail: true, ..dvp(LIMIT) }]), Ok((2, 0)));
    }
}

/// A step that row 30 or 31 leaves out adds neither its net nor its DVP amount.
#[test]
fn a_step_left_out_moves_nothing() {
    let a = share(&[sold(10), paid(0, 1)]);
    for refused in [Record { dvp: -EURO, ..sold(10_000_000) }, Record { dvp: LIMIT, ..sold(5) }] {
        assert_eq!(day(&a, &[refused, sold(1)]), Ok((484 * EURO - 1, 2, 1, 1)));
    }
}

/// 256 positions take no other one until one of them is closed.
#[test]
fn room_for_a_position() {
    let opening: Vec<Record> = (0..256).map(|series| trade(series, 1, 0)).collect();
    let a = shares(Class::default(), Series { multiplier: 1, ..Series::default() }, &opening);
    let fail = |series| Record { fail: true, ..trade(series, 0, 1) };
    let rows = |trades: &[Record]| -> Vec<u32> {
        let course = compare_day(&a, &words(trades), "256 positions").expect("accepted");
        course.steps.into_iter().map(|s| s.err().map_or(0, |r| r.number)).collect()
    };
    assert_eq!(rows(&[fail(3), trade(3, 0, 1), fail(3), fail(4)]), [32, 0, 0, 32]);
    assert_eq!(rows(&[trade(3, 1, 0), fail(3), trade(3, 0, 2), fail(3)]), [0, 32, 0, 0]);
    // a position with DVP alone is held; one of neither takes no place
    assert_eq!(rows(&[Record { dvp: 1, ..trade(3, 0, 1) }, fail(3), paid(3, -1), fail(3)]), [0, 32, 0, 0]);
    assert_eq!(rows(&[Record { long: 1, ..fail(3) }, fail(3)]), [0, 32]);
}

/// An opening of 256 records on few positions is rewritten before the first step.
#[test]
fn an_opening_of_256_records() {
    let sold_one = sold(1);
    assert_eq!(day(&share(&[sold_one; 256]), &[sold_one; 300]), Ok((556 * 44 * EURO, 300, 300, 0)));
    assert_eq!(day(&share(&[sold_one; 257]), &[sold_one]), Err((20, 0)));
}

/// The opening's rows come before row 62: day file, batch, netting, row 31.
#[test]
fn rows_in_order() {
    let ragged = &words(&[sold(1)])[..5];
    let long = words(&vec![sold(1); MOST_TRADES + 1]);
    let opening = [paid(SHARE_PLACE, LIMIT), paid(SHARE_PLACE, 1)];
    let refused = |a: &Account| [ragged, &long].map(|list| words_of_day(a, list).expect_err("refused"));
    let no_day = Account { day: Vec::new(), ..three(&opening) };
    let no_batch = Account { batch: Vec::new(), ..three(&opening) };
    let mut short = three(&opening);
    short.batch.truncate(12);
    assert_eq!(refused(&no_day), [(10, 0); 2]);
    assert_eq!(refused(&no_batch), [(20, 0); 2]);
    assert_eq!(refused(&short), [(21, 0); 2]);
    assert_eq!(refused(&three(&[opening[0], paid(FUTURE_PLACE, 1)])), [(26, 1); 2]);
    assert_eq!(refused(&three(&[opening[0], opening[1], trade(CALL_PLACE, 1_000_001, 0)])), [(30, 2); 2]);
    assert_eq!(refused(&three(&[trade(CALL_PLACE, 1, 0), opening[0], opening[1]])), [(31, 1); 2]);
    assert_eq!(refused(&three(&opening[..1])), [(62, 0); 2]);
    // and an opening that they refuse has no steps
    assert_eq!(day(&three(&opening), &[paid(SHARE_PLACE, -LIMIT)]), Err((31, 0)));
}

/// A step moves the lines of its own group and book alone; a residual credit lowers no other.
#[test]
fn lines_by_themselves() {
    let class = |number| Class { number, group: number, equity_rate: 10_000, ..Class::default() };
    let one = |class_number| Series {
        class_number,
        series_type: EQUITY,
        multiplier: 1,
        closing: 30_000,
        theoretical: [30_000; 10],
        ..Series::default()
    };
    let a = account(&[class(0), class(1)], &[one(0), one(1)], &[trade(0, 0, 1)]);
    // a share sold: 3 euro of MTM and a minimum of 1; one bought: a credit of 3 euro, less 1
    assert_eq!(day(&a, &[]), Ok((4 * EURO, 0, 0, 0)));
    assert_eq!(day(&a, &[trade(1, 1, 0)]), Ok((4 * EURO, 0, 1, 0)));
    let fail = Record { fail: true, ..trade(1, 0, 1) };
    assert_eq!(day(&a, &[trade(1, 9, 0), fail, trade(0, 1, 0), fail]), Ok((8 * EURO, 2, 4, 0)));
}
