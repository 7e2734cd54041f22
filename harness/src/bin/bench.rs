//! The unit's calls timed in one run beside others that do the same work: the byte call, the call over words, with deposits too, a batch
//! rewritten, with a record added too, the worst moment of a day, a batch converted to cents and back, and netting alone beside plain Rust,
//! all accounts of a broker in one call beside as many byte calls, a step of a day beside a whole report.
//! Fails where a ratio is above its limit.
//! From the top folder: `host/library.sh mars netting_times`; here `cargo run --release --features bench --bin bench`.
use harness::accounts::{accepted, batch, Account, Size, LARGEST, TYPICAL};
use harness::cases::LONGEST;
use harness::cents::Way;
use harness::conversions;
use harness::deposits::half_covered;
use harness::layout::{LONGEST_BATCH, MOST_RECORDS, MOST_TRADES};
use harness::many::joined;
use harness::places::{Placed, Places};
use harness::plain::{self, NETS};
use harness::positions::with_positions;
use harness::reckoner::{reckon, to_bytes, Refusal};
use harness::rewriting;
use harness::rng::Rng;
use harness::timing::{Call, Times};
use harness::trades::small_trades;
use harness::unit;
use harness::worst_moment::Moment;
use std::hint::black_box;

const ROUNDS: usize = 100;
/// Nettings in a call of the unit's repeated netting, which checks the batch once.
const NETTINGS: u32 = 201;

/// Two calls beside each other: how a round of them is timed, and the highest ratio that passes, if any.
struct Figure {
    name: String,
    limit: Option<f64>,
    round: Box<dyn FnMut(&mut Places, &mut Times)>,
    times: Times,
}

impl Figure {
    fn new(name: String, limit: Option<f64>, round: impl FnMut(&mut Places, &mut Times) + 'static) -> Self {
        Figure { name, limit, round: Box::new(round), times: Times::default() }
    }

    /// Prints the figure's line; false where the ratio is above the limit.
    fn passes(&self) -> bool {
        let c = self.times.compared();
        let [a, b] = c.medians.map(|time| format!("{time:.*}", usize::from(time < 100.0)));
        let [from, ratio, to] = c.ratios;
        let half = format!("{from:.3} to {to:.3}");
        let limit = self.limit.map_or(String::new(), |l| l.to_string());
        println!("{:<62}{a:>8}{b:>9}{:>7.3}{:>7.3}{half:>16}{limit:>6}", self.name, ratio, c.lower);
        self.limit.is_none_or(|l| ratio <= l)
    }
}

fn lines(a: &Account) -> usize {
    reckon(&a.day, &a.batch).expect("accepted").lines.len()
}

/// The account with the most lines among some accepted ones of this size.
fn account(size: Size) -> Account {
    let mut rng = Rng::new(2021);
    (0..40).map(|_| accepted(&mut rng, size)).max_by_key(lines).unwrap()
}

/// The byte call beside plain Rust.
fn byte_call(name: &str, size: Size) -> Figure {
    let a = account(size);
    let (day, batch) = (to_bytes(&a.day), to_bytes(&a.batch));
    let mut report = [0; 4 * LONGEST];
    unit::call(&day, &batch, &mut report).expect("accepted");
    let name = format!("byte call, {name} ({} records, {} lines) : plain Rust", size.records, lines(&a));
    Figure::new(name, None, move |places, times| {
        let (day, batch) = (places.memory(&day), places.memory(&batch));
        let [mut ours, mut theirs] = [(); 2].map(|_| places.memory(&[0; 4 * LONGEST]));
        let mut unit_call = || {
            black_box(unit::call(black_box(&day), black_box(&batch), black_box(&mut ours))).ok();
        };
        let mut plain_call = || {
            black_box(plain::call(black_box(&day), black_box(&batch), black_box(&mut theirs)));
        };
        times.round(places, [Call(1, &mut unit_call), Call(1, &mut plain_call)]);
        assert!(*ours == report && *theirs == report, "a report differs");
    })
}

/// A call over words beside plain Rust: both read an account and more words, deposits or a record, and write a memory that holds the longest
/// batch, which is longer than a report.
fn word_call(
    name: String,
    limit: Option<f64>,
    (a, more): (Account, Vec<u32>),
    unit: impl Fn(&[u32], &[u32], &[u32], &mut [u32]) -> Result<usize, Refusal> + 'static,
    plain: impl Fn(&[u32], &[u32], &[u32], &mut [u32]) -> u64 + 'static,
) -> Figure {
    let mut expected = [0; LONGEST_BATCH];
    unit(&a.day, &a.batch, &more, &mut expected).expect("accepted");
    Figure::new(name, limit, move |places, times| {
        let [day, batch, more] = [&a.day, &a.batch, &more].map(|content| places.memory(content));
        let [mut ours, mut theirs] = [(); 2].map(|_| places.memory(&[0; LONGEST_BATCH]));
        let mut unit_call = || {
            black_box(unit(black_box(&day), black_box(&batch), black_box(&more), black_box(&mut ours))).ok();
        };
        let mut plain_call = || {
            black_box(plain(black_box(&day), black_box(&batch), black_box(&more), black_box(&mut theirs)));
        };
        times.round(places, [Call(1, &mut unit_call), Call(1, &mut plain_call)]);
        assert!(*ours == expected && *theirs == expected, "a memory differs");
    })
}

/// Without deposits, which must cost nothing.
fn no_deposits(name: &str, size: Size) -> Figure {
    let name = format!("words, {name}, no deposits : plain Rust");
    word_call(name, None, (account(size), Vec::new()), unit::call_words, plain::call_words)
}

/// A deposit for each of so many classes, which have 256 futures in all.
fn deposits(classes: u32, limit: Option<f64>) -> Figure {
    let futures = 256 / classes;
    let name = format!("words, deposits for {classes} x {futures} futures : plain Rust");
    word_call(name, limit, half_covered(&mut Rng::new(5), classes, futures), unit::call_words, plain::call_words)
}

/// An account of so many positions and 256 records that can be rewritten, its day file of this size.
fn rewritable(size: Size, positions: usize) -> Account {
    let mut rng = Rng::new(7);
    loop {
        let a = with_positions(&mut rng, size, positions, MOST_RECORDS);
        if rewriting::rewrite(&a.day, &a.batch, &mut [0; LONGEST_BATCH]).is_ok() {
            return a;
        }
    }
}

/// A batch of 256 records on so many positions rewritten.
fn rewritten(name: &str, size: Size, positions: usize, limit: Option<f64>) -> Figure {
    let name = format!("rewrite, {name}, {MOST_RECORDS} records on {positions} positions : plain Rust");
    let unit = |day: &[u32], batch: &[u32], _: &[u32], out: &mut [u32]| unit::rewrite(day, batch, out);
    let plain = |day: &[u32], batch: &[u32], _: &[u32], out: &mut [u32]| plain::rewriting::rewrite(day, batch, out);
    word_call(name, limit, (rewritable(size, positions), Vec::new()), unit, plain)
}

/// The last record of such a batch added to the 255 before it.
fn added(name: &str, size: Size, positions: usize) -> Figure {
    let mut a = rewritable(size, positions);
    let record = a.batch.split_off(a.batch.len() - 6);
    a.batch[0] -= 1;
    let name = format!("add, {name}, the last of {MOST_RECORDS} on {positions} positions : plain Rust");
    word_call(name, None, (a, record), unit::add_record, plain::rewriting::add_record)
}

/// Steps of a call for the worst moment, each a piece of its work.
const STEPS: u32 = MOST_TRADES as u32;

/// An opening of 256 records on so many positions, as many trades of them as a day may have, of which about nine in ten are applied, and the
/// worst moment.
fn full_day(size: Size, positions: usize) -> (Account, Vec<u32>, Moment) {
    let a = rewritable(size, positions);
    let trades = small_trades(&mut Rng::new(10), &a, MOST_TRADES).concat();
    let worst = unit::worst_moment(&a.day, &a.batch, &trades).expect("accepted");
    assert!((STEPS * 85 / 100..=STEPS * 9 / 10 + 1).contains(&worst.applied), "{worst:?}");
    (a, trades, worst)
}

/// A step of a day beside plain Rust: its share of a call for the worst moment.
fn step(name: &str, size: Size, positions: usize, limit: Option<f64>) -> Figure {
    let (a, trades, worst) = full_day(size, positions);
    let name = format!("worst moment, {name}, a step of {STEPS} : plain Rust");
    Figure::new(name, limit, move |places, times| {
        let [day, batch, trades] = [&a.day, &a.batch, &trades].map(|content| places.memory(content));
        let (mut ours, mut theirs) = (None, None);
        let mut unit_call = || {
            ours = black_box(unit::worst_moment(black_box(&day), black_box(&batch), black_box(&trades))).ok();
        };
        let mut plain_call = || {
            theirs = black_box(plain::worst_moment::worst_moment(black_box(&day), black_box(&batch), black_box(&trades))).ok();
        };
        times.round(places, [Call(STEPS, &mut unit_call), Call(STEPS, &mut plain_call)]);
        assert!(ours == Some(worst) && theirs == Some(worst), "a worst moment differs");
    })
}

/// The same beside a report of the opening, whose batch has about as many positions as the account behind each step.
fn step_and_report(name: &str, size: Size, positions: usize, limit: f64) -> Figure {
    let (a, trades, worst) = full_day(size, positions);
    let mut expected = [0; LONGEST];
    unit::call_words(&a.day, &a.batch, &[], &mut expected).expect("accepted");
    let name = format!("worst moment, {name}, a step of {STEPS} : a whole report");
    Figure::new(name, Some(limit), move |places, times| {
        let [day, batch, trades] = [&a.day, &a.batch, &trades].map(|content| places.memory(content));
        let (mut found, mut report) = (None, places.memory(&[0; LONGEST]));
        let mut steps = || {
            found = black_box(unit::worst_moment(black_box(&day), black_box(&batch), black_box(&trades))).ok();
        };
        let mut one_report = || {
            black_box(unit::call_words(black_box(&day), black_box(&batch), &[], black_box(&mut report))).ok();
        };
        times.round(places, [Call(STEPS, &mut steps), Call(1, &mut one_report)]);
        assert!(found == Some(worst) && *report == expected, "a worst moment or a report differs");
    })
}

/// A batch of 256 records converted, which no day file has a part in.
fn converted(name: &str, way: Way, limit: f64) -> Figure {
    let batch = conversions::batch(&mut Rng::new(11), way, MOST_RECORDS);
    let name = format!("{name}, {MOST_RECORDS} records : plain Rust");
    let unit = move |_: &[u32], batch: &[u32], _: &[u32], out: &mut [u32]| unit::convert(way, batch, out);
    let plain = match way {
        Way::ToCents => plain::cents::to_cents,
        Way::FromCents => plain::cents::from_cents,
    };
    let plain = move |_: &[u32], batch: &[u32], _: &[u32], out: &mut [u32]| plain(batch, out);
    word_call(name, Some(limit), (Account { day: Vec::new(), batch }, Vec::new()), unit, plain)
}

/// 64 accounts of one day file in one call, beside a byte call for each.
fn all_accounts(name: &str, size: Size, limit: Option<f64>) -> Figure {
    let a = account(size);
    let mut rng = Rng::new(64);
    let fresh = std::iter::from_fn(|| Some(batch(&mut rng, &a.day, size.records as usize)));
    let batches: Vec<Vec<u32>> = fresh.filter(|b| reckon(&a.day, b).is_ok()).take(64).collect();
    let (day, files): (Vec<u8>, Vec<Vec<u8>>) = (to_bytes(&a.day), batches.iter().map(|b| to_bytes(b)).collect());
    let (words, lengths) = joined(&batches);
    let (mut results, mut reports, mut report) = ([0; 128], vec![0; 64 * LONGEST], [0; 4 * LONGEST]);
    let written = unit::call_all(&a.day, &words, &lengths, &mut results, &mut reports).expect("accepted");
    let singly: usize = files.iter().map(|b| unit::call(&day, b, &mut report).expect("accepted")).sum();
    assert_eq!(written, singly);
    Figure::new(format!("64 {name} accounts, one call : 64 byte calls"), limit, move |places, times| {
        let [day_words, words, lengths] = [&a.day, &words, &lengths].map(|content| places.memory(content));
        let (mut our_results, mut our_reports) = (places.memory(&[0; 128]), places.memory(&[0; 64 * LONGEST]));
        let (day, mut last_report) = (places.memory(&day), places.memory(&[0; 4 * LONGEST]));
        let files: Vec<Placed<u8>> = files.iter().map(|f| places.memory(f)).collect();
        let mut one_call = || {
            let (results, reports) = black_box((&mut our_results, &mut our_reports));
            black_box(unit::call_all(black_box(&day_words), black_box(&words), black_box(&lengths), results, reports)).ok();
        };
        let mut byte_calls = || {
            for b in &files {
                black_box(unit::call(black_box(&day), black_box(b), black_box(&mut last_report))).ok();
            }
        };
        times.round(places, [Call(1, &mut one_call), Call(1, &mut byte_calls)]);
        assert!(*our_results == results && *our_reports == reports && *last_report == report, "a report differs");
    })
}

/// Plain Rust, net and DVP in one table.
fn one_table(places: &mut Places) -> impl FnMut(&[u32]) {
    let mut table = places.memory(&[[0; 2]; NETS]);
    move |batch| {
        let table = black_box(table.first_chunk_mut().unwrap());
        table.as_flattened_mut().fill(0);
        plain::net_pairs(batch, table);
    }
}

/// Plain Rust, nets and DVPs in two tables, as the unit has them.
fn two_tables(places: &mut Places) -> impl FnMut(&[u32]) {
    let [mut nets, mut dvps] = [(); 2].map(|_| places.memory(&[0; NETS]));
    move |batch| {
        let [nets, dvps] = black_box([&mut nets, &mut dvps]).map(|table| table.first_chunk_mut().unwrap());
        nets.fill(0);
        dvps.fill(0);
        plain::net(batch, nets, dvps);
    }
}

/// No netting: a table of nets copied once.
fn a_copy(places: &mut Places) -> impl FnMut(&[u32]) {
    let [from, mut to] = [(); 2].map(|_| places.memory(&[0i64; NETS]));
    move |_| black_box(&mut to).copy_from_slice(black_box(&from))
}

/// Step 1 alone on the largest account's batch, both tables cleared before each netting. One of its `pieces` is timed beside one call
/// of `other` on that batch.
fn netting<F: FnMut(&[u32])>(name: &str, limit: f64, pieces: u32, other: impl Fn(&mut Places) -> F + 'static) -> Figure {
    let a = account(LARGEST);
    let (mut nets, mut dvps) = ([0; NETS], [0; NETS]);
    plain::net(&a.batch, &mut nets, &mut dvps);
    Figure::new(name.to_string(), Some(limit), move |places, times| {
        let (day, batch) = (places.memory(&a.day), places.memory(&a.batch));
        let [mut our_nets, mut our_dvps] = [(); 2].map(|_| places.memory(&[7; NETS]));
        let mut other = other(places);
        let mut unit_call = || {
            let [nets, dvps] = black_box([&mut our_nets, &mut our_dvps]);
            black_box(unit::net_times(black_box(&day), black_box(&batch), nets, dvps, NETTINGS - 1));
        };
        let mut other_calls = || (0..NETTINGS).for_each(|_| other(black_box(&batch)));
        times.round(places, [Call(pieces * NETTINGS, &mut unit_call), Call(NETTINGS, &mut other_calls)]);
        assert!(*our_nets == nets && *our_dvps == dvps, "a table differs");
    })
}

fn main() {
    let records = LARGEST.records;
    let mut figures = [
        byte_call("largest", LARGEST),
        byte_call("typical", TYPICAL),
        no_deposits("largest", LARGEST),
        no_deposits("typical", TYPICAL),
        deposits(64, Some(2.0)),
        deposits(16, Some(2.0)),
        deposits(1, None),
        rewritten("largest", LARGEST, 256, Some(1.5)),
        rewritten("typical", TYPICAL, 40, Some(1.5)),
        rewritten("largest", LARGEST, 4, Some(1.5)),
        added("largest", LARGEST, 256),
        added("typical", TYPICAL, 40),
        step("largest", LARGEST, 256, Some(1.5)),
        step("typical", TYPICAL, 40, None),
        step_and_report("largest", LARGEST, 256, 0.2),
        converted("to cents", Way::ToCents, 2.0),
        converted("from cents", Way::FromCents, 2.0),
        all_accounts("typical", TYPICAL, Some(0.8)),
        all_accounts("largest", LARGEST, None),
        netting(&format!("netting of {records} records : plain Rust, one table"), 10.0, 1, one_table),
        netting(&format!("netting of {records} records : plain Rust, two tables"), 10.0, 1, two_tables),
        netting("netting, a record : a copy of its table", 0.5, records as u32, a_copy),
    ];
    let mut places = Places::new(5);
    for _ in 0..ROUNDS {
        for f in &mut figures {
            (f.round)(&mut places, &mut f.times);
        }
    }
    println!("A : B in turns, {ROUNDS} rounds: medians in nanoseconds; the median of the turns' ratios; the ratio of the lower quartiles;");
    println!("between what half of the turns' ratios lie; the highest median of them that passes");
    println!("{:<62}{:>8}{:>9}{:>7}{:>7}{:>16}{:>6}", "", "A", "B", "ratio", "lower", "half of turns", "limit");
    let above: Vec<&str> = figures.iter().filter(|f| !f.passes()).map(|f| f.name.as_str()).collect();
    assert!(above.is_empty(), "above the limit: {above:?}");
}
