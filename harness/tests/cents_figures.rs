//! The figures of request U11 that are run, at the calls that convert a batch; the reckoner has them too.
use harness::accounts::amount_words;
use harness::beside::compare_conversion;
use harness::cents::{Way, CENTS, WAYS};
use harness::layout::LONGEST_BATCH;
use harness::rng::Rng;

/// What is written into a memory of so many words, or number and place of the refusal.
fn convert(way: Way, batch: &[u32], room: usize) -> Result<Vec<u32>, (u32, usize)> {
    compare_conversion(way, batch, room, &mut Rng::new(11), "a figure").map_err(|r| (r.number, r.place))
}

fn to_cents(batch: &[u32]) -> Result<Vec<u32>, (u32, usize)> {
    convert(Way::ToCents, batch, LONGEST_BATCH)
}

fn from_cents(batch: &[u32]) -> Result<Vec<u32>, (u32, usize)> {
    convert(Way::FromCents, batch, LONGEST_BATCH)
}

/// A batch of records with these amounts, of any series and quantities.
fn units(amounts: &[i64]) -> Vec<u32> {
    let mut out = vec![1 << 29 | amounts.len() as u32];
    for (i, z) in (0..).zip(amounts) {
        out.extend([2 << 29 | (77 * i % 1024), 4 << 29 | (7 * i), 4 << 29 | (10_000_000 - i)]);
        out.extend(amount_words(*z < 0, z.unsigned_abs()));
    }
    out
}

/// The same in cents.
fn cents(amounts: &[i64]) -> Vec<u32> {
    let mut out = units(amounts);
    out[0] |= CENTS;
    out
}

/// The limit of an amount, in units or in the words of a batch in cents, and that of an amount in cents that is converted.
const LIMIT: i64 = 5_000_000_000_000_000;
const CENT_LIMIT: i64 = 50_000_000_000_000;

#[test]
fn amounts_in_units_and_in_cents() {
    for (in_units, in_cents) in
        [(-81_500_000, -815_000), (100, 1), (0, 0), (10_000, 100), (LIMIT, CENT_LIMIT), (LIMIT - 100, CENT_LIMIT - 1)]
    {
        for sign in [1, -1] {
            let (a, b) = (units(&[7_000_000, sign * in_units]), cents(&[70_000, sign * in_cents]));
            assert_eq!(to_cents(&a).as_ref(), Ok(&b), "{in_units}");
            assert_eq!(from_cents(&b), Ok(a), "{in_units}");
        }
    }
    // the words of the request's example
    assert_eq!(units(&[-81_500_000])[4..], [5 << 29 | 1 << 28, 6 << 29, 6 << 29 | 81_500_000]);
    assert_eq!(to_cents(&units(&[-81_500_000])).expect("whole cents")[4..], [5 << 29 | 1 << 28, 6 << 29, 6 << 29 | 815_000]);
    // the limits: 9,313,225 x 2^29 + 400,588,800 units, 93,132 x 2^29 + 138,223,616 cents
    assert_eq!(units(&[LIMIT])[4..], [5 << 29, 6 << 29 | 9_313_225, 6 << 29 | 400_588_800]);
    let converted = to_cents(&units(&[LIMIT])).expect("whole cents");
    assert_eq!(converted[4..], [5 << 29, 6 << 29 | 93_132, 6 << 29 | 138_223_616]);
}

#[test]
fn amounts_that_are_not_whole_cents() {
    for sign in [1, -1] {
        for z in [150, 1, 50, 99, 101, LIMIT - 1, LIMIT - 99, (1 << 29) + 1] {
            assert_eq!(to_cents(&units(&[sign * z])), Err((33, 0)), "{z}");
            assert_eq!(to_cents(&units(&[100, 0, sign * z, 200, z])), Err((33, 2)), "{z}");
            assert_eq!(to_cents(&[&units(&[0; 256])[..1531], &units(&[sign * z])[1..]].concat()), Err((33, 255)), "{z}");
        }
        assert!(to_cents(&units(&[sign * 100, sign * 200, 0])).is_ok());
        // of the way back no amount is refused by it
        assert!(from_cents(&cents(&[sign * 150, sign, sign * 99])).is_ok());
    }
}

#[test]
fn amounts_at_the_limit_of_cents() {
    for sign in [1, -1] {
        assert_eq!(from_cents(&cents(&[sign * CENT_LIMIT])), Ok(units(&[sign * LIMIT])));
        for z in [CENT_LIMIT + 1, CENT_LIMIT + 100, LIMIT - 1, LIMIT] {
            assert_eq!(from_cents(&cents(&[sign * z])), Err((34, 0)), "{z}");
            assert_eq!(from_cents(&cents(&[1, sign * CENT_LIMIT, sign * z, z])), Err((34, 2)), "{z}");
            assert_eq!(from_cents(&[&cents(&[0; 256])[..1531], &cents(&[sign * z])[1..]].concat()), Err((34, 255)), "{z}");
        }
        // an amount above the limit of row 27 is told by its first word, both ways
        for z in [LIMIT + 1, LIMIT + 100, 1 << 53, 1 << 58, (1 << 58) + 100, i64::MAX] {
            assert_eq!(from_cents(&cents(&[0, sign * z])), Err((27, 10)), "{z}");
            assert_eq!(to_cents(&units(&[0, sign * z])), Err((27, 10)), "{z}");
        }
    }
}

/// Row 20: the bit set on the way to cents or missing on the way back, and more than 256 records, both ways.
#[test]
fn headers() {
    let amounts = [300; 257];
    for n in [0, 1, 255, 256] {
        let (a, b) = (units(&amounts[..n]), cents(&[3; 257][..n]));
        assert_eq!(to_cents(&a).as_ref(), Ok(&b), "{n}");
        assert_eq!(from_cents(&b).as_ref(), Ok(&a), "{n}");
        assert_eq!(to_cents(&b), Err((20, 0)), "{n}");
        assert_eq!(from_cents(&a), Err((20, 0)), "{n}");
    }
    for (way, batch) in WAYS.into_iter().zip([units(&amounts), cents(&amounts)]) {
        assert_eq!(convert(way, &batch, 2000), Err((20, 0)), "{way:?}");
        assert_eq!(convert(way, &batch[..1], 2000), Err((20, 0)), "{way:?}");
        assert_eq!(convert(way, &[], 2000), Err((20, 0)), "{way:?}");
        // a length that does not follow from 256 is 21, from 257 still 20
        let mut short = batch.clone();
        short[0] -= 1;
        assert_eq!(convert(way, &short, 2000), Err((21, 0)), "{way:?}");
    }
    assert_eq!(to_cents(&[1 << 29]), Ok(vec![1 << 29 | CENTS]));
    assert_eq!(from_cents(&[1 << 29 | CENTS]), Ok(vec![1 << 29]));
    // the bit is looked at before the kind, and both before the length
    for header in [0, 2 << 29, 7 << 29, u32::MAX] {
        for bit in [0, CENTS] {
            assert_eq!(to_cents(&[header & !CENTS | bit, 0]), Err((20, 0)), "{header}");
            assert_eq!(from_cents(&[header & !CENTS | bit, 0]), Err((20, 0)), "{header}");
        }
    }
}

/// Each row over all records before the next, rows 33 and 34 behind 28 and before 40.
#[test]
fn rows_in_order() {
    for (way, own, refused) in [(Way::ToCents, 33, 150), (Way::FromCents, 34, CENT_LIMIT + 1)] {
        let of = |amounts: &[i64]| if way == Way::ToCents { units(amounts) } else { cents(amounts) };
        let minus_zero = |batch: &mut [u32], i: usize| batch[4 + 6 * i..7 + 6 * i].copy_from_slice(&amount_words(true, 0));
        let mut batch = of(&[refused, 0, refused, 0]);
        assert_eq!(convert(way, &batch, 0), Err((own, 0)), "{way:?}");
        minus_zero(&mut batch, 3);
        assert_eq!(convert(way, &batch, 0), Err((28, 22)), "{way:?}");
        minus_zero(&mut batch, 1);
        assert_eq!(convert(way, &batch, 0), Err((28, 10)), "{way:?}");
        // a quantity above its limit, a spare bit of a key, an amount above its limit
        batch[21] = 4 << 29 | 10_000_001;
        assert_eq!(convert(way, &batch, 0), Err((27, 21)), "{way:?}");
        batch[19] |= 1 << 10;
        assert_eq!(convert(way, &batch, 0), Err((27, 19)), "{way:?}");
        batch[16..19].copy_from_slice(&amount_words(false, LIMIT as u64 + 1));
        assert_eq!(convert(way, &batch, 0), Err((27, 16)), "{way:?}");
        batch[16] |= 1 << 5;
        assert_eq!(convert(way, &batch, 0), Err((27, 16)), "{way:?}");
        batch[24] = 5 << 29;
        assert_eq!(convert(way, &batch, 0), Err((22, 24)), "{way:?}");
        batch.push(6 << 29);
        assert_eq!(convert(way, &batch, 0), Err((21, 0)), "{way:?}");
        batch[0] ^= CENTS;
        assert_eq!(convert(way, &batch, 0), Err((20, 0)), "{way:?}");
    }
}

/// Row 40 is the last, and tells the words needed.
#[test]
fn short_memories() {
    for way in WAYS {
        for n in [0, 1, 3, 256] {
            let (batch, converted) = if way == Way::ToCents {
                (units(&vec![-100; n]), cents(&vec![-1; n]))
            } else {
                (cents(&vec![-1; n]), units(&vec![-100; n]))
            };
            let needed = 1 + 6 * n;
            assert_eq!(convert(way, &batch, needed - 1), Err((40, needed)), "{way:?}, {n}");
            assert_eq!(convert(way, &batch, 0), Err((40, needed)), "{way:?}, {n}");
            assert_eq!(convert(way, &batch, needed), Ok(converted), "{way:?}, {n}");
        }
    }
}
