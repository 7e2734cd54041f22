//! Batches to convert, with DVP amounts in units or in cents, and such batches damaged.
use crate::accounts::{amount_words, cut, damage_word, flip, room_about, word, WORD_WAYS};
use crate::cents::{Way, CENT, CENTS, MOST_CENTS};
use crate::layout::MOST_RECORDS;
use crate::reckoner::MOST_DVP;
use crate::records::batch_of;
use crate::rng::Rng;

/// A magnitude that is converted: none, a few cents, within the low word of an amount in cents, about where a low word is full, about the
/// limit, or any.
fn size(rng: &mut Rng, way: Way) -> u64 {
    let most = MOST_CENTS as u64;
    let cents = match rng.below(10) {
        0 => 0,
        1 => rng.below(1000),
        2 => rng.below(1 << 29),
        3 => (rng.within(1, 93_000) << 29) / rng.pick(&[1, 100]) + rng.below(3) - 1,
        4 => most - rng.below(3),
        _ => rng.below(most + 1),
    };
    match way {
        Way::ToCents => CENT as u64 * cents,
        Way::FromCents => cents,
    }
}

/// A magnitude within the limit of a DVP amount that row 33 or 34 refuses.
fn refused_size(rng: &mut Rng, way: Way) -> u64 {
    let (limit, cent, most) = (MOST_DVP as u64, CENT as u64, MOST_CENTS as u64);
    match way {
        Way::ToCents => match rng.below(4) {
            0 => rng.within(1, cent - 1),
            1 => limit - rng.within(1, cent - 1),
            2 => cent * rng.below(most) + rng.pick(&[1, cent / 2, cent - 1]),
            _ => cent * rng.below(most) + rng.within(1, cent - 1),
        },
        Way::FromCents => match rng.below(4) {
            0 => most + 1,
            1 => limit - rng.below(3),
            _ => rng.within(most + 1, limit),
        },
    }
}

fn signed(rng: &mut Rng, size: u64) -> [u32; 3] {
    amount_words(size > 0 && rng.once_in(2), size)
}

/// A record with any key and quantities, whose amount is converted.
fn record(rng: &mut Rng, way: Way) -> [u32; 6] {
    let quantity = |rng: &mut Rng| match rng.below(6) {
        0 => 0,
        1 => 10_000_000,
        _ => rng.below(10_000_001) as u32,
    };
    let size = size(rng, way);
    let [high, middle, low] = signed(rng, size);
    [word(2, rng.below(1024) as u32), word(4, quantity(rng)), word(4, quantity(rng)), high, middle, low]
}

/// A batch of so many records that is converted this way.
pub fn batch(rng: &mut Rng, way: Way, records: usize) -> Vec<u32> {
    let mut out = batch_of(&(0..records).map(|_| record(rng, way)).collect::<Vec<_>>());
    out[0] |= way.bit();
    out
}

/// One change of a batch: each row of the conversions refuses some of them.
fn damage(rng: &mut Rng, way: Way, batch: &mut Vec<u32>) {
    if batch.len() < 7 {
        match rng.below(4) {
            0 => batch.clear(),
            1 => batch.push(rng.next() as u32),
            _ => flip(rng, batch),
        }
        return;
    }
    let records = (batch.len() as u64 - 1) / 6;
    let at = 4 + 6 * rng.below(records) as usize;
    let amount = at..at + 3;
    match rng.below(12 + WORD_WAYS) {
        0 => flip(rng, batch),
        1 => {
            let at = rng.below(batch.len() as u64) as usize;
            batch[at] = rng.next() as u32;
        }
        2 => cut(rng, batch),
        3 => batch.extend(vec![word(6, 0); rng.pick(&[1, 5, 6, 7])]),
        4 => batch[0] ^= 1 << rng.below(29),
        5 => batch[0] ^= CENTS,
        6 => {
            // as many records as the header says, one more than a batch may have
            let longer = MOST_RECORDS + 1;
            *batch = [&[word(1, longer as u32 | way.bit())], &batch[1..7].repeat(longer)[..]].concat();
        }
        7 => batch[0] = batch[0] & 0x1fff_ffff | word(rng.below(8) as u32, 0),
        8 | 9 => {
            let size = refused_size(rng, way);
            batch[amount].copy_from_slice(&signed(rng, size));
        }
        10 => {
            let above = MOST_DVP as u64 + rng.pick(&[1, CENT as u64]);
            let size = rng.pick(&[above, 1 << 53, 1 << 58, (1 << 58) + CENT as u64, (1 << 63) - 1]);
            batch[amount].copy_from_slice(&signed(rng, size));
        }
        11 => batch[amount].copy_from_slice(&amount_words(true, 0)),
        way => damage_word(rng, batch, way - 12),
    }
}

/// Batch i of a run: of ten, one has up to 256 records and of forty one as many, and of nine, three are damaged once and one twice.
pub fn mixed_batch(rng: &mut Rng, way: Way, i: usize) -> Vec<u32> {
    let most = [MOST_RECORDS as u64, 40, 40, 1, 3, 12, 12, 12, 12, 12][i % 10];
    let records = if i % 40 == 20 { most } else { rng.below(most + 1) };
    let mut out = batch(rng, way, records as usize);
    for _ in 0..[0, 1, 0, 0, 1, 0, 1, 0, 2][i % 9] {
        damage(rng, way, &mut out);
    }
    out
}

/// A memory's length for a batch: mostly enough, else about the length that its conversion needs or any other.
pub fn room(rng: &mut Rng, batch: &[u32]) -> usize {
    room_about(rng, batch.len().max(1))
}
