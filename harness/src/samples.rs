//! The sample accounts, made from their fields.
use crate::accounts::Account;
use crate::fields::{account, expiry, Class, Record, Series, CALL, EQUITY, EXPIRED_FUTURE, FUTURE, PUT};
use crate::files::Made;
use crate::reckoner::{reckon, text, to_bytes};
use std::path::Path;

pub struct Sample {
    pub name: &'static str,
    pub about: &'static str,
    pub account: Account,
}

const EURO: u32 = 10_000;

/// The price moved by so many per mille at each point, D5 to U5.
fn moved(price: u32, per_mille: [i64; 10]) -> [u32; 10] {
    per_mille.map(|m| (i64::from(price) * (1000 + m) / 1000) as u32)
}

const SHARE_MOVES: [i64; 10] = [-100, -80, -60, -40, -20, 20, 40, 60, 80, 100];
const INDEX_MOVES: [i64; 10] = [-75, -60, -45, -30, -15, 15, 30, 45, 60, 75];

/// M3's equity with these records.
fn shares(records: &[Record]) -> Account {
    let class = Class { group: 3, equity_rate: EURO, ..Class::default() };
    let theoretical = moved(40 * EURO, SHARE_MOVES);
    let series = Series { series_type: EQUITY, multiplier: 1, closing: 40 * EURO, theoretical, ..Series::default() };
    account(&[class], &[series], records)
}

/// M3: one equity and one record.
fn share() -> Account {
    shares(&[Record { long: 200, dvp: -81_500_000, ..Record::default() }])
}

/// 200 of M3's shares in each of two records; words of the batch are then replaced, each by its index.
pub fn with_words(words: &[(usize, u32)]) -> Account {
    let mut out = shares(&[Record { long: 200, ..Record::default() }; 2]);
    words.iter().for_each(|&(at, w)| out.batch[at] = w);
    out
}

/// Words of U4's figures: in record 1 a long quantity above the limit, in record 0 an amount of minus zero, in record 1 a last word of kind 5.
pub const TOO_MANY: (usize, u32) = (8, 4 << 29 | 10_000_001);
pub const MINUS_ZERO: (usize, u32) = (4, 5 << 29 | 1 << 28);
pub const WRONG_KIND: (usize, u32) = (12, 5 << 29);

fn fail() -> Account {
    let theoretical = moved(125_000, SHARE_MOVES);
    let class =
        Class { group: 3, underlying: 125_000, equity_rate: 2_500, offset: 8_500, projected: theoretical, ..Class::default() };
    let series = Series { series_type: EQUITY, multiplier: 1, closing: 125_000, theoretical, ..Series::default() };
    let ordinary = Record { long: 1_000, dvp: -123_000_000, ..Record::default() };
    let fail = Record { short: 400, dvp: 48_800_000, fail: true, ..Record::default() };
    account(&[class], &[series], &[ordinary, fail])
}

/// M1's futures, each with a spread and the September contract with a rest.
fn spread() -> Account {
    let class = Class {
        group: 1,
        underlying: 24_600 * EURO,
        spot_rate: 300 * EURO,
        non_spot_rate: 200 * EURO,
        future_rate: 100 * EURO,
        offset: 10_000,
        projected: moved(24_600 * EURO, INDEX_MOVES),
        ..Class::default()
    };
    let months = [(3, 24_585), (6, 24_110), (9, 24_075), (12, 24_040)];
    let series = months.map(|(month, points)| Series {
        series_type: FUTURE,
        expiry: expiry(2021, month),
        multiplier: 5,
        closing: points * EURO,
        theoretical: moved(points * EURO, INDEX_MOVES),
        ..Series::default()
    });
    let records = [
        Record { series: 0, short: 15, ..Record::default() },
        Record { series: 1, long: 14, ..Record::default() },
        Record { series: 2, long: 19, ..Record::default() },
        Record { series: 3, short: 13, ..Record::default() },
    ];
    account(&[class], &series, &records)
}

/// M5's short calls, and M2's exercised calls with an open put of the same class.
fn options() -> Account {
    let first = Class {
        group: 4,
        number: 0,
        underlying: 27_800,
        option_rate: 50_000,
        offset: 9_000,
        projected: moved(27_800, SHARE_MOVES),
        ..Class::default()
    };
    let second = Class {
        group: 4,
        number: 1,
        underlying: 52_689,
        option_rate: 100_000,
        offset: 9_000,
        projected: [49_001, 49_739, 50_476, 51_214, 51_951, 53_427, 54_164, 54_902, 55_639, 56_377],
        ..Class::default()
    };
    let call = |class_number, month, multiplier, strike, closing, theoretical| Series {
        class_number,
        series_type: CALL,
        expiry: expiry(2021, month),
        multiplier,
        strike,
        closing,
        theoretical,
        ..Series::default()
    };
    let put = Series {
        series_type: PUT,
        ..call(1, 6, 500, 50_000, 1_010, [2_600, 2_190, 1_830, 1_520, 1_250, 810, 640, 500, 390, 300])
    };
    let series = [
        call(0, 6, 1_000, 28_000, 1_700, [420, 600, 810, 1_060, 1_360, 2_080, 2_510, 2_990, 3_520, 4_090]),
        call(1, 4, 5_000, 51_125, 1_564, [0, 0, 0, 89, 826, 2_302, 3_039, 3_777, 4_514, 5_252]),
        put,
    ];
    let records = [
        Record { series: 0, short: 10, ..Record::default() },
        Record { series: 1, exercised: true, long: 2, ..Record::default() },
        Record { series: 2, long: 4, ..Record::default() },
    ];
    account(&[first, second], &series, &records)
}

/// M5's call with this short option adjustment, so many long and short.
pub fn calls(adjustment: u32, long: u32, short: u32) -> Account {
    let series = Series {
        series_type: CALL,
        multiplier: 1_000,
        closing: 1_700,
        adjustment,
        theoretical: [400, 590, 790, 1_030, 1_330, 2_060, 2_500, 2_990, 3_520, 4_090],
        ..Series::default()
    };
    account(&[Class::default()], &[series], &[Record { long, short, ..Record::default() }])
}

/// 1,000 shares sold and 500 of another class of the group bought, each at its closing price.
fn offset() -> Account {
    let class = |number| Class { group: 6, number, equity_rate: 1_000, offset: 8_275, ..Class::default() };
    let share = |class_number, closing| Series {
        class_number,
        series_type: EQUITY,
        multiplier: 1,
        closing,
        theoretical: moved(closing, SHARE_MOVES),
        ..Series::default()
    };
    let records = [
        Record { series: 0, short: 1_000, dvp: 125_000_000, ..Record::default() },
        Record { series: 1, long: 500, dvp: -100_000_000, ..Record::default() },
    ];
    account(&[class(0), class(1)], &[share(0, 125_000), share(1, 200_000)], &records)
}

/// U9's expired future, ten sold. No amount reads its closing price and its theoretical prices.
pub fn expired() -> Account {
    let class = Class {
        group: 3,
        underlying: 55_000,
        future_rate: EURO,
        offset: 8_500,
        projected: [50_000, 51_000, 52_000, 53_000, 54_000, 56_000, 57_000, 58_000, 59_000, 60_000],
        ..Class::default()
    };
    let series = Series {
        series_type: EXPIRED_FUTURE,
        expiry: expiry(2021, 3),
        multiplier: 100,
        strike: 50_000,
        closing: 54_000,
        theoretical: [54_000; 10],
        ..Series::default()
    };
    account(&[class], &[series], &[Record { short: 10, ..Record::default() }])
}

/// M8: a net of 1,001 at multiplier 10,000, in the second record.
fn refused() -> Account {
    let projected = moved(10_000, SHARE_MOVES);
    let class = Class { group: 5, underlying: 10_000, option_rate: 1_000, projected, ..Class::default() };
    let series = [10_000, 11_000].map(|strike| Series {
        series_type: CALL,
        expiry: expiry(2021, 9),
        multiplier: 10_000,
        strike,
        closing: 500,
        theoretical: [500; 10],
        ..Series::default()
    });
    let records =
        [Record { series: 0, short: 1_000, ..Record::default() }, Record { series: 1, short: 1_001, ..Record::default() }];
    account(&[class], &series, &records)
}

pub fn samples() -> Vec<Sample> {
    let sample = |name, about, account| Sample { name, about, account };
    vec![
        sample("share", "M3: 200 shares bought at 40 euro against 8,150 euro; MTM 150, additional 800.", share()),
        sample("fail", "A fail of 400 shares sold beside an ordinary purchase of 1,000 of them: two lines of one group.", fail()),
        sample("spread", "M1: futures of four months; spread margin 12,700 euro, 5 September contracts left.", spread()),
        sample(
            "options",
            "M5's ten short calls, M2's two exercised calls and four open puts, two classes of one group.",
            options(),
        ),
        sample(
            "adjustment",
            "U3: M5's ten short calls with a short option adjustment of 0.50; at upside 5 they add 3,300, not 2,390.",
            calls(5_000, 0, 10),
        ),
        sample(
            "offset",
            "U6: 1,000 shares sold and 500 of another class of the group bought, offset 82.75%: at upside 5 a debit of 1,250 less 827.50 of a credit of 1,000.",
            offset(),
        ),
        sample(
            "expired",
            "U9: ten expired futures sold, delivery price 5.00, underlying price 5.50, at upside 5 6.00; MTM 500, additional 500.",
            expired(),
        ),
        sample(
            "word",
            "U4: 200 shares in record 0, 10,000,001 in record 1: word 8 of the batch, its long quantity, is refused by row 27.",
            with_words(&[TOO_MANY]),
        ),
        sample("refused", "M8: net 1,000 at multiplier 10,000 passes, net 1,001 in record 1 is refused by row 30.", refused()),
    ]
}

fn readme(samples: &[Sample]) -> String {
    let mut out = String::from(
        "# Sample accounts\n\n\
         Each folder has a day file and a position batch, words low byte first. The text is what the report program prints:\n\
         amounts in ten-thousandths of a euro, debit positive. Made by `cargo run --release --bin samples` in `harness`.\n",
    );
    for s in samples {
        let printed = text(&reckon(&s.account.day, &s.account.batch));
        out += &format!("\n## {}\n\n{}\n\n```\n{printed}```\n", s.name, s.about);
    }
    out
}

fn euro(z: i128) -> String {
    let size = z.unsigned_abs();
    format!("{}{}.{:04}", if z < 0 { "-" } else { "" }, size / 10_000, size % 10_000)
}

/// What the C host prints for a sample, and its exit status.
fn host_text(a: &Account) -> String {
    let report = match reckon(&a.day, &a.batch) {
        Ok(report) => report,
        Err(r) => {
            let about = match (r.number, r.place) {
                (27, 8) => "batch: spare bit or out of range, record 1, long quantity",
                (30, _) => "net position above the limit",
                other => panic!("no sample is refused by {other:?}"),
            };
            return format!("refused {} at {}: {about}\nstatus 1\n", r.number, r.place);
        }
    };
    let mut out = format!("{:<8} {:>5} {:>22} {:>22}\n", "book", "group", "margin EUR", "residual credit EUR");
    for l in &report.lines {
        let book = if l.fail { "fail" } else { "ordinary" };
        out += &format!("{book:<8} {:>5} {:>22} {:>22}\n", l.group, euro(l.amounts[4]), euro(l.amounts[5]));
    }
    for (name, total) in ["ordinary total", "fail total", "account total"].into_iter().zip(report.totals) {
        out += &format!("{name:<14} {:>22}\n", euro(total));
    }
    out + "status 0\n"
}

fn account_files(folder: &Path, a: &Account) -> [Made; 2] {
    [(folder.join("day.w32"), to_bytes(&a.day)), (folder.join("pos.w32"), to_bytes(&a.batch))]
}

/// All files of the folder `samples`, what the C host is expected to print for them, and the first as the report program's own check
/// has it.
pub fn files() -> Vec<Made> {
    let samples = samples();
    let folder = Path::new("samples");
    let mut out = vec![(folder.join("README.md"), readme(&samples).into_bytes())];
    for s in &samples {
        out.extend(account_files(&folder.join(s.name), &s.account));
        out.push((Path::new("host/expected").join(format!("{}.txt", s.name)), host_text(&s.account).into_bytes()));
    }
    let program = Path::new("crates/mars_report");
    let first = &samples[0].account;
    out.extend(account_files(&program.join("data"), first));
    out.push((program.join("stdout"), text(&reckon(&first.day, &first.batch)).into_bytes()));
    out
}
