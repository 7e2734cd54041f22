//! Printed texts read back by the unit: as written, and damaged, as the separate reader reads them.
use harness::accounts::{account, all_lines, damage, extreme, mixed};
use harness::reckoner::{reckon, text, Refusal, Report};
use harness::rng::Rng;
use harness::text_reading::{damage_text, said, Said};
use harness::unit;

/// What the reckoner says of a random account, accepted or refused.
fn result(rng: &mut Rng, i: usize) -> Result<Report, Refusal> {
    let mut a = if i % 50 == 0 { extreme(rng) } else { account(rng, mixed(i)) };
    if i % 2 == 1 {
        damage(rng, &mut a);
    }
    reckon(&a.day, &a.batch)
}

#[test]
fn texts_as_written() {
    let mut rng = Rng::new(801);
    let (mut reports, mut refusals) = (0, 0);
    for i in 0..4000 {
        let result = result(&mut rng, i);
        let expected = match &result {
            Ok(r) => Said::Report(r.lines.len() as u32, r.totals.map(|z| z.try_into().expect("64 bits"))),
            Err(r) => Said::Refusal(r.number, r.place as u32),
        };
        *if result.is_ok() { &mut reports } else { &mut refusals } += 1;
        assert_eq!(unit::read_text(text(&result).as_bytes()), expected, "case {i}");
    }
    println!("{reports} reports, {refusals} refusals");
    assert!(reports > 1000 && refusals > 500);
}

#[test]
fn damaged_texts() {
    let mut rng = Rng::new(802);
    let (mut reports, mut refusals, mut unreadable) = (0, 0, 0);
    for i in 0..60_000 {
        let mut t = text(&result(&mut rng, i)).into_bytes();
        for _ in 0..rng.within(1, 3) {
            damage_text(&mut rng, &mut t);
        }
        let expected = said(&t);
        assert_eq!(unit::read_text(&t), expected, "case {i}: {:?}", String::from_utf8_lossy(&t));
        match expected {
            Said::Report(..) => reports += 1,
            Said::Refusal(..) => refusals += 1,
            Said::Unreadable => unreadable += 1,
        }
    }
    println!("{reports} reports, {refusals} refusals, {unreadable} neither");
    assert!(reports > 5000 && refusals > 500 && unreadable > 10_000);
}

/// Every length, every byte changed to every other, of a text of 58 lines and of a refusal.
#[test]
fn every_byte() {
    let a = all_lines();
    let long = text(&reckon(&a.day, &a.batch)).into_bytes();
    let ends = [&long[..40], &long[long.len() - 40..]].concat();
    for t in [long.clone(), b"REFUSED 30 4294967295\n".to_vec(), ends] {
        for n in 0..t.len() {
            assert_eq!(unit::read_text(&t[..n]), said(&t[..n]), "length {n}");
        }
        for at in (0..t.len()).filter(|at| *at < 60 || *at + 60 > t.len()) {
            for byte in 0..=255 {
                let mut changed = t.clone();
                changed[at] = byte;
                assert_eq!(unit::read_text(&changed), said(&changed), "byte {at} as {byte}");
            }
        }
    }
}
