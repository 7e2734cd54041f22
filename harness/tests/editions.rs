//! The converter: of a day file that row 18 refuses the projected prices are put in order and no other word changes; answers stay but for what
//! projected prices give; every case is of this edition.
use harness::accounts::{account, damage, mixed, out_of_order};
use harness::cases::with_underlying;
use harness::editions::{converted, heads, is_kept, with_prices_in_order};
use harness::fields::{CALL, EXPIRED_FUTURE};
use harness::files::top;
use harness::layout::{class_at, counts, series_at, CLASS_WORDS, PROJECTED, UNDERLYING};
use harness::reckoner::{read_day, reckon, text, Refusal};
use harness::rng::Rng;
use std::fs;

/// Row 18 of the words of a class.
fn is_in_order(class: &[u32]) -> bool {
    let prices = &class[PROJECTED..];
    prices.is_sorted() && (prices[4]..=prices[5]).contains(&class[UNDERLYING])
}

fn refused_by_18(day: &[u32]) -> bool {
    read_day(day).is_err_and(|r| r.number == 18)
}

#[test]
fn projected_prices_of_classes_out_of_order_alone_change() {
    let mut rng = Rng::new(93);
    let (mut files, mut classes, mut beside) = (0, 0, 0);
    for i in 0..20_000 {
        let mut a = account(&mut rng, mixed(i));
        out_of_order(&mut rng, &mut a.day, i % 3);
        if i % 5 == 4 {
            damage(&mut rng, &mut a);
        }
        let mut now = with_prices_in_order(&a.day);
        assert!(!refused_by_18(&now) && with_prices_in_order(&now) == now, "case {i}");
        if !refused_by_18(&a.day) {
            assert_eq!(now, a.day, "case {i}");
            continue;
        }
        files += 1;
        let behind = class_at(counts(&a.day).0);
        for (now, before) in now[1..behind].chunks_mut(CLASS_WORDS).zip(a.day[1..behind].chunks(CLASS_WORDS)) {
            assert_eq!(now == before, is_in_order(before), "case {i}");
            *if now == before { &mut beside } else { &mut classes } += 1;
            now[PROJECTED..].copy_from_slice(&before[PROJECTED..]);
        }
        assert_eq!(now, a.day, "case {i}");
    }
    println!("{files} files with {classes} classes out of order and {beside} in order");
    assert!(files >= 5000 && classes >= 5000 && beside >= 5000);
}

/// The sorted prices, those of the downside at most the underlying price and those of the upside at least it.
#[test]
fn prices_put_in_order() {
    let mut a = with_underlying(51_000);
    let class = class_at(1);
    let mut put = |underlying: u32, given: [u32; 10], expected: [u32; 10]| {
        let kind = 3 << 29;
        a.day[class + UNDERLYING] = kind | underlying;
        a.day[class + PROJECTED..class + CLASS_WORDS].copy_from_slice(&given.map(|p| kind | p));
        assert_eq!(with_prices_in_order(&a.day)[class + PROJECTED..class + CLASS_WORDS], expected.map(|p| kind | p));
    };
    // upside 2 and downside 2 exchanged, as the vendor had them
    put(51, [46, 47, 48, 53, 50, 52, 49, 54, 55, 56], [46, 47, 48, 49, 50, 52, 53, 54, 55, 56]);
    put(49, [46, 47, 48, 49, 50, 52, 53, 54, 55, 56], [46, 47, 48, 49, 49, 52, 53, 54, 55, 56]);
    put(54, [46, 47, 48, 49, 50, 52, 53, 54, 55, 56], [46, 47, 48, 49, 50, 54, 54, 54, 55, 56]);
    put(0, [5, 4, 3, 2, 1, 1, 2, 3, 4, 5], [0, 0, 0, 0, 0, 3, 4, 4, 5, 5]);
    put(9, [1, 1, 1, 1, 1, 1, 1, 1, 1, 0], [0, 1, 1, 1, 1, 9, 9, 9, 9, 9]);
}

/// A file whose projected prices are all the underlying price has every answer that doesn't read them.
#[test]
fn answers_stay() {
    let mut rng = Rng::new(94);
    let (mut reports, mut moved, mut refusals) = (0, 0, 0);
    for i in 0..20_000 {
        let mut a = account(&mut rng, mixed(i));
        out_of_order(&mut rng, &mut a.day, 1);
        if i % 3 == 0 {
            damage(&mut rng, &mut a);
        }
        if !refused_by_18(&a.day) {
            continue;
        }
        let mut flat = a.day.clone();
        for class in flat[1..class_at(counts(&a.day).0)].chunks_mut(CLASS_WORDS) {
            let underlying = class[UNDERLYING];
            class[PROJECTED..].fill(underlying);
        }
        let now = with_prices_in_order(&a.day);
        let [printed, before] = [&now, &flat].map(|day| text(&reckon(day, &a.batch)));
        // the edition before gave this account, with these prices, what this one gives where it has no expired future
        let changed = heads(&flat, &now, &a.batch).unwrap_or_default();
        assert!(is_kept(&before, &printed, &changed), "case {i}");
        let refused = printed.starts_with("REFUSED");
        *if refused { &mut refusals } else { &mut reports } += 1;
        moved += usize::from(printed != before);
        assert!(!refused || changed.is_empty(), "case {i}");
    }
    println!("{reports} reports, {moved} with amounts by projected prices, {refusals} refusals");
    assert!(reports >= 5000 && moved >= 1000 && refusals >= 1000);
}

/// What is held to be kept of a text: of the lines named book, group, spread, MTM and premium, else all.
#[test]
fn changes_of_a_text_that_are_not_kept() {
    let before = "MARGIN 2\nO 3 1 2 3 4 10 0\nO 31 1 2 3 4 10 0\nTOTAL 20 0 20\n";
    let kept = |after: &str, heads: &[&str]| is_kept(before, after, &heads.iter().map(|h| h.to_string()).collect());
    let moved = before.replace("O 3 1 2 3 4 10", "O 3 1 2 3 5 11").replace("20", "21");
    assert!(kept(before, &[]) && kept(before, &["O 3 "]) && kept(&moved, &["O 3 "]));
    assert!(!kept(&moved, &[]) && !kept(&moved, &["O 31 "]));
    for (from, to) in
        [("O 3 1", "O 3 7"), ("1 2 3 4 10 0\nO", "1 7 3 4 10 0\nO"), ("3 4 10 0\nO", "7 4 10 0\nO"), ("31 1 2 3 4", "31 1 2 3 7")]
    {
        assert!(!kept(&before.replace(from, to), &["O 3 "]), "{to}");
    }
    assert!(!kept("REFUSED 18 0\n", &["O 3 "]) && !kept("MARGIN 1\nO 3 1 2 3 4 10 0\nTOTAL 20 0 20\n", &["O 3 "]));
}

/// No prices changed, or no net of an exercised option or an expired future: no line moves.
#[test]
fn lines_that_read_projected_prices() {
    let before = with_underlying(51_000);
    let mut after = before.day.clone();
    after[class_at(2) - 1] += 1;
    let of = |batch: &[u32]| heads(&before.day, &after, batch);
    assert_eq!(of(&before.batch).expect("accepted").into_iter().collect::<Vec<_>>(), ["O 3 "]);
    assert!(heads(&before.day, &before.day, &before.batch).expect("accepted").is_empty());
    // of the class whose prices stay; flat; open
    for (at, w) in [(7, 2 << 29 | 1 << 8), (9, 4 << 29 | 3), (7, 2 << 29 | 1)] {
        let mut batch = before.batch.clone();
        batch[at] = w;
        assert!(of(&batch).expect("accepted").is_empty(), "word {at}");
    }
    // an expired future in the call's stead, of the class whose prices change
    let [first, second] = [&before.day, &after].map(|day| {
        let mut day = day.clone();
        day[series_at(2, 1)] ^= (CALL ^ EXPIRED_FUTURE) << 19;
        day
    });
    let mut batch = before.batch.clone();
    batch[7] = 2 << 29 | 1;
    assert_eq!(heads(&first, &second, &batch).expect("accepted").len(), 1);
    batch[9] = 4 << 29 | 3;
    assert!(heads(&first, &second, &batch).expect("accepted").is_empty());
    assert_eq!(of(&before.batch[1..]).err(), Some(Refusal { number: 20, place: 0 }));
}

/// A second run changes nothing.
#[test]
fn every_case_is_of_this_edition() {
    for c in converted() {
        assert_eq!((c.days, c.outcomes), (0, 0), "{}", c.name);
        for (path, content) in c.files {
            assert!(fs::read(top().join(&path)).expect("a file") == content, "{}", path.display());
        }
    }
}
