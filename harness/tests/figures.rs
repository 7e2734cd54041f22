//! The scope's figures that are run, at the byte call; those of deposits at the call over words.
use harness::accounts::{opposed, Account, ORDER};
use harness::cases::{
    open_and_expired, with_credit, with_flipped, with_offset, with_records, with_underlying, ADJUSTMENT_1, SERIAL_1, TYPE_7,
};
use harness::deposits::MOST_SHARES;
use harness::fields::{account, expiry, Class, Record, Series, CALL, EXPIRED_FUTURE, FUTURE};
use harness::layout::{class_at, UNDERLYING};
use harness::reading::read_report;
use harness::reckoner::{reckon, reckon_with, text, to_bytes, to_words, Refusal, Report};
use harness::samples::{calls, samples, with_words, MINUS_ZERO, TOO_MANY, WRONG_KIND};
use harness::unit;

fn run(a: &Account) -> Result<Report, Refusal> {
    let mut memory = vec![0xa5; 4460];
    unit::call(&to_bytes(&a.day), &to_bytes(&a.batch), &mut memory)
        .map(|n| read_report(&to_words(&memory)[..n]).expect("a report"))
}

fn sample(name: &str) -> Account {
    samples().into_iter().find(|s| s.name == name).expect("sample").account
}

#[test]
fn records_256_and_257() {
    let report = run(&with_records(256)).expect("accepted");
    // 256 × (net −1 at 40 euro, DVP −39 euro)
    assert_eq!(report.lines[0].amounts, [0, -2_560_000, 0, 2_560_000, 0, 0]);
    assert_eq!(run(&with_records(257)), Err(Refusal { number: 2, place: 0 }));
    let long = with_records(257);
    assert_eq!(reckon(&long.day, &long.batch), Err(Refusal { number: 20, place: 0 }));
}

#[test]
fn offset_10000_and_10001() {
    assert_eq!(run(&with_offset(10_000)).expect("accepted").lines.len(), 2);
    assert_eq!(run(&with_offset(10_001)), Err(Refusal { number: 12, place: 1 }));
}

/// What is left of M7's credits beside a debit of 200.
#[test]
fn credits_after_their_offset() {
    let additional = |offset, credit| run(&with_credit(offset, credit)).expect("accepted").lines[0].amounts[3];
    assert_eq!((additional(8_500, 101), additional(8_500, 1)), (200 - 85, 200));
    assert_eq!((additional(8_275, 101), additional(85, 101)), (200 - 83, 200));
    assert_eq!((additional(10_000, 101), additional(9_999, 101), additional(0, 101)), (200 - 101, 200 - 100, 200));
}

/// A credit whose product with the offset is far above 64 bits.
#[test]
fn credits_at_the_limits() {
    for offset in [0, 1, 85, 8_275, 8_500, 9_999, 10_000] {
        let left = 640_000_000_000_000_000 / 10_000 * i128::from(10_000 - offset);
        assert_eq!(run(&opposed(offset)).expect("accepted").lines[0].amounts[3], left, "{offset}");
    }
}

/// Downside 1 at 5.0 euro and upside 1 at 5.2, in the second class.
#[test]
fn underlying_from_downside_1_to_upside_1() {
    let refused = |underlying| run(&with_underlying(underlying)).err();
    let row_18 = Some(Refusal { number: 18, place: 1 });
    assert_eq!((refused(50_000), refused(52_000)), (None, None));
    assert_eq!((refused(49_999), refused(52_001)), (row_18, row_18));
}

/// Three classes of one group, their prices in order and all unlike, and a future of the last.
fn three_classes() -> Account {
    let projected = [10, 20, 30, 40, 50, 70, 80, 90, 100, 110];
    let class = |number| Class { number, underlying: 60, projected, ..Class::default() };
    account(&[0, 1, 2].map(class), &[future(2, 3, 100)], &[])
}

/// In a class the first word of a place becomes so many units more than the second. For downside 1 at upside 1 the underlying price follows.
fn raise(a: &mut Account, class: usize, (first, second): (usize, usize), more: u32) {
    let w = &mut a.day[class_at(class)..class_at(class + 1)];
    w[first] = w[second] + more;
    if (first, second) == (14, 15) {
        w[UNDERLYING] = w[second];
    }
}

fn number_and_place(a: &Account) -> (u32, usize) {
    run(a).map_or_else(|r| (r.number, r.place), |_| (0, 0))
}

#[test]
fn the_eleven_places_of_row_18() {
    for place in ORDER {
        for class in 0..3 {
            for (more, expected) in [(0, (0, 0)), (1, (18, class))] {
                let mut a = three_classes();
                raise(&mut a, class, place, more);
                assert_eq!(number_and_place(&a), expected, "{place:?}, class {class}");
            }
        }
    }
    // all prices equal; upside 2 and downside 2 exchanged
    let mut a = three_classes();
    (0..3).for_each(|c| a.day[class_at(c) + 10..class_at(c + 1)].fill(3 << 29 | 60));
    assert_eq!(number_and_place(&a), (0, 0));
    let mut a = three_classes();
    a.day.swap(class_at(1) + 13, class_at(1) + 16);
    assert_eq!(number_and_place(&a), (18, 1));
}

/// Rows 12 to 14 before 18 and that before 15 to 17, each over all classes or series; of two classes the first is named.
#[test]
fn row_18_between_14_and_15() {
    let mut a = three_classes();
    let series = class_at(3);
    raise(&mut a, 1, ORDER[0], 1);
    a.day[series] ^= 1; // a serial on a future
    assert_eq!(number_and_place(&a), (18, 1));
    a.day[series] ^= 7 << 23; // of class 5, which is absent
    assert_eq!(number_and_place(&a), (18, 1));
    raise(&mut a, 0, ORDER[10], 1);
    assert_eq!(number_and_place(&a), (18, 0));
    a.day[class_at(2) + 9] ^= 1;
    assert_eq!(number_and_place(&a), (14, 2));
    a.day[class_at(2)] ^= 3 << 5; // number 1 again
    assert_eq!(number_and_place(&a), (13, 2));
    a.day[series + 1] = 4 << 29;
    assert_eq!(number_and_place(&a), (12, 3));
    // without the classes' faults the series' come
    let mut b = three_classes();
    b.day[series..].copy_from_slice(&a.day[series..]);
    b.day[series + 1] = 4 << 29 | 1;
    assert_eq!(number_and_place(&b), (15, 0));
}

#[test]
fn m3_text() {
    let expected = "MARGIN 1\nO 3 0 1500000 0 8000000 9500000 0\nTOTAL 9500000 0 9500000\n";
    assert_eq!(text(&run(&sample("share"))), expected);
}

#[test]
fn m1_spread_in_an_account() {
    assert_eq!(run(&sample("spread")).expect("accepted").lines[0].amounts[0], 127_000_000);
}

#[test]
fn m2_and_m5_premium_in_an_account() {
    // 1,700 − 1,564 and four long puts, 500 × 0.101 each
    assert_eq!(run(&sample("options")).expect("accepted").lines[0].amounts[2], 17_000_000 - 15_640_000 - 2_020_000);
}

#[test]
fn m5_with_a_short_option_adjustment() {
    let amounts = |adjustment, long, short| run(&calls(adjustment, long, short)).expect("accepted").lines[0].amounts;
    assert_eq!(amounts(5_000, 0, 10), [0, 0, 17_000_000, 33_000_000, 50_000_000, 0]);
    assert_eq!(amounts(4_000, 0, 10), [0, 0, 17_000_000, 23_900_000, 40_900_000, 0]);
    assert_eq!(amounts(5_000, 10, 0), [0, 0, -17_000_000, 13_000_000, 0, 4_000_000]);
    assert!(run(&calls(500_000_000, 0, 10)).is_ok());
    assert_eq!(run(&calls(500_000_001, 0, 10)), Err(Refusal { number: 12, place: 1 }));
}

#[test]
fn words_of_a_batch() {
    let refused = |words: &[(usize, u32)]| run(&with_words(words)).expect_err("refused");
    assert!(run(&with_words(&[])).is_ok());
    assert_eq!(refused(&[TOO_MANY]), Refusal { number: 27, place: 8 });
    assert_eq!(refused(&[TOO_MANY, MINUS_ZERO]), Refusal { number: 27, place: 8 });
    assert_eq!(refused(&[MINUS_ZERO]), Refusal { number: 28, place: 4 });
    assert_eq!(refused(&[MINUS_ZERO, WRONG_KIND]), Refusal { number: 22, place: 12 });
    assert_eq!(refused(&[TOO_MANY, MINUS_ZERO, WRONG_KIND]), Refusal { number: 22, place: 12 });
}

#[test]
fn m8_refused() {
    assert_eq!(run(&sample("refused")), Err(Refusal { number: 30, place: 1 }));
}

#[test]
fn samples_as_reckoned() {
    for s in samples() {
        assert_eq!(text(&run(&s.account)), text(&reckon(&s.account.day, &s.account.batch)), "{}", s.name);
    }
}

fn run_words(a: &Account, deposits: &[u32], room: usize) -> Result<Report, Refusal> {
    let mut memory = vec![7; room];
    unit::call_words(&a.day, &a.batch, deposits, &mut memory).map(|n| read_report(&memory[..n]).expect("a report"))
}

/// The report or refusal of an account with these deposits, as the reckoner has it too.
fn with(a: &Account, deposits: &[[u32; 2]]) -> Result<Report, Refusal> {
    let result = run_words(a, deposits.as_flattened(), 1115);
    assert_eq!(result, reckon_with(&a.day, &a.batch, deposits.as_flattened()));
    result
}

/// A class with spread rates of 300 and 200 and a minimum of 1 euro a future.
fn rated(number: u32, group: u32) -> Class {
    Class { number, group, spot_rate: 3_000_000, non_spot_rate: 2_000_000, future_rate: 10_000, ..Class::default() }
}

fn future(class_number: u32, month: u32, multiplier: u32) -> Series {
    Series { class_number, series_type: FUTURE, expiry: expiry(2021, month), multiplier, ..Series::default() }
}

fn short(series: u32, short: u32) -> Record {
    Record { series, short, ..Record::default() }
}

/// March 3, June 5 and September 5 short, December 4 long, at multiplier 100.
fn four_months() -> Account {
    let long = Record { series: 3, long: 4, ..Record::default() };
    account(&[rated(0, 0)], &[3, 6, 9, 12].map(|month| future(0, month, 100)), &[short(0, 3), short(1, 5), short(2, 5), long])
}

#[test]
fn deposits_of_four_months() {
    let a = four_months();
    let amounts = |deposits: &[[u32; 2]]| with(&a, deposits).expect("accepted").lines[0].amounts;
    // spread, minimum and margin in euro
    let expected = |spread, minimum| [spread, 0, 0, minimum, spread + minimum, 0].map(|euro: i128| 10_000 * euro);
    assert_eq!(amounts(&[]), expected(1_900, 9));
    assert_eq!(amounts(&[[0, 0]]), expected(1_900, 9));
    assert_eq!(amounts(&[[0, 99]]), expected(1_900, 9));
    assert_eq!(amounts(&[[0, 750]]), expected(1_900, 2));
    assert_eq!(amounts(&[[0, 1_000]]), expected(1_500, 1));
    assert_eq!(amounts(&[[0, 1_299]]), expected(500, 3));
    assert_eq!(amounts(&[[0, 1_300]]), expected(0, 4));
    assert_eq!(amounts(&[[0, MOST_SHARES]]), expected(0, 4));
}

/// Of two equal net shorts the further is covered first: March, which adds 5 euro at upside 5, stays, and June with its 7 goes.
#[test]
fn among_equals_the_further_expiry() {
    let gaining = |month, euro: u32| Series { theoretical: [0, 0, 0, 0, 0, 0, 0, 0, 0, 10_000 * euro], ..future(0, month, 1) };
    let a = account(&[rated(0, 0)], &[gaining(3, 5), gaining(6, 7)], &[short(0, 1), short(1, 1)]);
    let requirement = |deposits: &[[u32; 2]]| with(&a, deposits).expect("accepted").lines[0].amounts[3] / 10_000;
    assert_eq!((requirement(&[]), requirement(&[[0, 1]]), requirement(&[[0, 2]])), (12, 5, 0));
    // the larger is covered before the further
    let b = account(&[rated(0, 0)], &[gaining(3, 5), gaining(6, 7)], &[short(0, 2), short(1, 1)]);
    assert_eq!(with(&b, &[[0, 1]]).expect("accepted").lines[0].amounts[3], 120_000);
}

/// A group whose only net short is covered whole keeps its line, all amounts 0, in 32 words.
#[test]
fn a_line_covered_whole() {
    let a = account(&[rated(0, 7)], &[future(0, 3, 100)], &[short(0, 2)]);
    let report = with(&a, &[[0, 200]]).expect("accepted");
    assert_eq!(text(&Ok(report)), "MARGIN 1\nO 7 0 0 0 0 0 0\nTOTAL 0 0 0\n");
    assert!(run_words(&a, &[0, 200], 32).is_ok());
    assert_eq!(run_words(&a, &[0, 200], 31), Err(Refusal { number: 40, place: 32 }));
}

/// Calls are never covered, so a class without futures gains nothing.
#[test]
fn no_futures() {
    let a = calls(5_000, 0, 10);
    assert_eq!(with(&a, &[[0, MOST_SHARES]]), with(&a, &[]));
}

/// Class 0 with one multiplier, class 1 with two, class 5 without futures, and an account that nothing else refuses.
fn unlike() -> Account {
    let call = Series { class_number: 5, series_type: CALL, multiplier: 100, ..Series::default() };
    let series = [future(0, 3, 100), future(1, 3, 100), future(1, 6, 50), call];
    account(&[rated(0, 0), rated(1, 0), rated(5, 3)], &series, &[short(0, 2), short(1, 2)])
}

#[test]
fn refused_deposits() {
    let a = unlike();
    let refused = |deposits: &[[u32; 2]]| with(&a, deposits).map_err(|r| (r.number, r.place)).expect_err("refused");
    assert!(with(&a, &[[5, MOST_SHARES], [0, MOST_SHARES]]).is_ok());
    assert_eq!(refused(&[[0, MOST_SHARES + 1]]), (50, 0));
    assert_eq!(refused(&[[0, 100], [0, 50]]), (50, 1));
    assert_eq!(refused(&[[5, 1], [0, 1], [3, 1]]), (50, 2));
    assert_eq!(refused(&[[5 | 1 << 6, 1]]), (50, 0));
    assert_eq!(refused(&[[2 << 29, 1]]), (50, 0));
    // a class named with 0 shares meets 51 too
    assert_eq!(refused(&[[0, 1], [1, 0]]), (51, 1));
    // 50 over all deposits before 51
    assert_eq!(refused(&[[1, 1], [9, 1]]), (50, 1));
    assert_eq!(refused(&[[1, 1], [1, 1]]), (50, 1));
    // an odd number of words before the rest of 50
    for words in [&[0][..], &[0, 1, 5], &[0, 1, 9, 1, 0]] {
        assert_eq!(run_words(&a, words, 1115), Err(Refusal { number: 50, place: 0 }));
    }
}

/// Row 30 before 50 and 51, those before 40.
#[test]
fn deposits_between_30_and_40() {
    let a = unlike();
    let refused =
        |a: &Account, deposits: &[u32]| run_words(a, deposits, 0).map_err(|r| (r.number, r.place)).expect_err("refused");
    assert_eq!(refused(&a, &[]), (40, 32));
    assert_eq!(refused(&a, &[0, 1]), (40, 32));
    assert_eq!(refused(&a, &[0]), (50, 0));
    assert_eq!(refused(&a, &[0, 1, 9, 1]), (50, 1));
    assert_eq!(refused(&a, &[0, 1, 1, 1]), (51, 1));
    let above = account(&[rated(0, 0)], &[future(0, 3, 100), future(0, 6, 50)], &[short(1, 2), short(0, 100_001)]);
    // covered, it would be within the limit
    assert_eq!(refused(&above, &[0, MOST_SHARES]), (30, 1));
    assert_eq!(refused(&above, &[0]), (30, 1));
}

/// U9's example: four of ten contracts are covered.
#[test]
fn an_expired_future() {
    let a = sample("expired");
    let amounts = |deposits: &[[u32; 2]]| with(&a, deposits).expect("accepted").lines[0].amounts;
    // MTM and additional margin of so many contracts
    let expected = |contracts: i128| [0, 500_000 * contracts, 0, 500_000 * contracts, 1_000_000 * contracts, 0];
    assert_eq!(run(&a).expect("accepted").lines[0].amounts, expected(10));
    for (shares, contracts) in [(0, 10), (99, 10), (100, 9), (450, 6), (999, 1), (1_000, 0), (MOST_SHARES, 0)] {
        assert_eq!(amounts(&[[0, shares]]), expected(contracts), "{shares}");
    }
    // covered whole it keeps its line
    assert_eq!(text(&with(&a, &[[0, 1_000]])), "MARGIN 1\nO 3 0 0 0 0 0 0\nTOTAL 0 0 0\n");
    // the closing price and the theoretical prices are not read, but row 12 holds
    for word in [3, 5, 14] {
        assert_eq!(run(&with_flipped(word, 1 << 12)), run(&a), "{word}");
        assert_eq!(number_and_place(&with_flipped(word, 15 << 25)), (12, 1), "{word}");
    }
}

/// At downside 5 ten bought lose what ten sold do at upside 5, and no deposit covers them.
#[test]
fn an_expired_future_bought() {
    let mut a = sample("expired");
    a.batch.swap(2, 3);
    let report = with(&a, &[]);
    assert_eq!(report.as_ref().expect("accepted").lines[0].amounts, [0, -5_000_000, 0, 5_000_000, 0, 0]);
    assert_eq!(with(&a, &[[0, MOST_SHARES]]), report);
}

#[test]
fn refused_expired_futures() {
    for (word, bits) in [SERIAL_1, TYPE_7, ADJUSTMENT_1, (0, 1 << 6), (0, 1 << 19), (0, 8 << 19)] {
        assert_eq!(number_and_place(&with_flipped(word, bits)), (17, 0), "{word}, {bits}");
    }
    // any expiry and delivery price
    for (word, bits) in [(0, 4095 << 7), (2, 50_000), (2, 500_000_000 ^ 50_000)] {
        assert_eq!(number_and_place(&with_flipped(word, bits)), (0, 0), "{word}, {bits}");
    }
    // exercised, a fail, a unit of DVP, one of minus
    for (bits, expected) in [([1 << 8, 0, 0], 24), ([1 << 9, 0, 0], 25), ([0, 0, 1], 26), ([0, 1 << 28, 1], 26)] {
        let mut a = sample("expired");
        [1, 4, 6].into_iter().zip(bits).for_each(|(at, bits)| a.batch[at] ^= bits);
        assert_eq!(number_and_place(&a), (expected, 0));
    }
}

fn expired(class_number: u32, month: u32, multiplier: u32, delivery_price: u32) -> Series {
    Series { series_type: EXPIRED_FUTURE, strike: delivery_price, ..future(class_number, month, multiplier) }
}

/// Neither spread nor minimum, which the open futures beside it have alone.
#[test]
fn an_expired_future_beside_open_ones() {
    // open futures bought, expired ones sold: a minimum of two and the MTM of three
    assert_eq!(run(&open_and_expired()).expect("accepted").lines[0].amounts, [0, 1_500_000, 0, 20_000, 1_520_000, 0]);
    // it is no spot month before the open ones, and no quantity of theirs
    let class = Class { underlying: 10_000, projected: [10_000; 10], ..rated(0, 0) };
    let series = [future(0, 6, 100), future(0, 9, 100), expired(0, 3, 100, 10_000), expired(0, 12, 100, 10_000)];
    let long = |series, long| Record { series, long, ..Record::default() };
    let open = [short(0, 2), long(1, 3)];
    let report = |records: &[Record]| with(&account(&[class], &series, records), &[]).expect("accepted");
    assert_eq!(report(&open).lines[0].amounts, [10_000_000, 0, 0, 10_000, 10_010_000, 0]);
    assert_eq!(report(&[open[0], open[1], short(2, 7), long(3, 5)]), report(&open));
}

/// At each point both add to their class's sum, of which a credit is offset; prices are those of the class.
#[test]
fn points_of_open_and_expired_futures() {
    let class = |number, underlying, upside_5| {
        let mut projected = [underlying; 10];
        projected[9] = upside_5;
        Class { number, underlying, offset: 5_000, projected, ..Class::default() }
    };
    let gaining = Series { theoretical: [0, 0, 0, 0, 0, 0, 0, 0, 0, 900], ..future(0, 3, 1) };
    let series = [gaining, expired(0, 3, 1, 10_000), expired(1, 3, 1, 20_000)];
    let classes = [class(0, 10_000, 10_400), class(1, 20_000, 20_600)];
    let requirement = |nets: [i32; 3]| {
        let record = |(series, net): (u32, i32)| Record {
            series,
            long: (-net).max(0) as u32,
            short: net.max(0) as u32,
            ..Record::default()
        };
        let records: Vec<Record> = (0..).zip(nets).map(record).collect();
        with(&account(&classes, &series, &records), &[]).expect("accepted").lines[0].amounts[3]
    };
    // 900, 400 and 600 a contract
    assert_eq!((requirement([1, 0, 0]), requirement([0, 1, 0]), requirement([0, 0, 1])), (900, 400, 600));
    assert_eq!((requirement([1, -1, 0]), requirement([1, 1, 0]), requirement([1, 1, 1])), (500, 1_300, 1_900));
    // of the second class a credit of 600 at half, beside the first's debit of 900
    assert_eq!((requirement([1, 0, -1]), requirement([1, -2, -1])), (600, 0));
}

/// An open future and two expired ones of March and an expired one of June, so many of each sold, at multiplier 1. What is left with so many
/// shares: a contract of the open one adds 1,000 at each point, of the expired ones the first has an MTM of 100, the second of 10, that of June
/// of 1.
fn left(sold: [u32; 4], shares: u32) -> [i128; 4] {
    let class = Class { underlying: 10_000, projected: [10_000; 10], ..Class::default() };
    let open = Series { theoretical: [1_000; 10], ..future(0, 3, 1) };
    let series = [open, expired(0, 3, 1, 9_900), expired(0, 3, 1, 9_990), expired(0, 6, 1, 9_999)];
    let records = [3, 1, 0, 2].map(|s| short(s, sold[s as usize]));
    let amounts = with(&account(&[class], &series, &records), &[[0, shares]]).expect("accepted").lines[0].amounts;
    [amounts[3] / 1_000, amounts[1] / 100, amounts[1] / 10 % 10, amounts[1] % 10]
}

/// Of equal nets and expiries the open one is covered first, then that of the lower place.
#[test]
fn cover_of_open_and_expired_futures() {
    let figures = [
        (0, [3, 3, 3, 3]),
        (2, [3, 3, 3, 1]),
        (3, [3, 3, 3, 0]),
        (5, [1, 3, 3, 0]),
        (6, [0, 3, 3, 0]),
        (7, [0, 2, 3, 0]),
        (9, [0, 0, 3, 0]),
        (11, [0, 0, 1, 0]),
        (12, [0, 0, 0, 0]),
    ];
    for (shares, expected) in figures {
        assert_eq!(left([3; 4], shares), expected, "{shares}");
    }
    // the larger before the further, open or expired
    assert_eq!(left([3, 3, 4, 3], 5), [3, 3, 0, 2]);
    assert_eq!(left([4, 3, 3, 3], 5), [0, 3, 3, 2]);
    assert_eq!(left([2, 4, 3, 3], 9), [2, 0, 1, 0]);
}

/// Of class 0 an open and an expired future have unlike multipliers, of class 1 two expired ones; class 2 has one for its futures.
#[test]
fn multipliers_of_open_and_expired_futures() {
    let call = Series { series_type: CALL, ..future(2, 3, 5) };
    let of_2 = [future(2, 3, 100), call, expired(2, 3, 100, 7), expired(2, 6, 100, 7)];
    let series = [&[future(0, 3, 100), expired(0, 3, 50, 7), expired(1, 3, 100, 7), expired(1, 3, 50, 8)], &of_2[..]].concat();
    let of = |records: &[Record]| account(&[0, 1, 2].map(|c| rated(c, c)), &series, records);
    let refused = |records: &[Record], deposits: &[[u32; 2]]| with(&of(records), deposits).err().map(|r| (r.number, r.place));
    let held = [short(0, 2), short(6, 2)];
    assert_eq!(refused(&held, &[]), None);
    assert_eq!(refused(&held, &[[2, 100]]), None);
    assert_eq!(refused(&held, &[[0, 100]]), Some((51, 0)));
    assert_eq!(refused(&held, &[[2, 100], [1, 0]]), Some((51, 1)));
    // row 30 holds before cover
    assert_eq!(refused(&[short(0, 2), short(6, 100_001)], &[[2, MOST_SHARES]]), Some((30, 1)));
    assert_eq!(refused(&[short(0, 2), short(6, 100_000)], &[[2, MOST_SHARES]]), None);
}
