//! A batch converted to cents, and back: each amount's sign stays.
use super::{bad, check_words, kind, packed, pass, payload, records_by_header, Refused, MOST_DVP};
use crate::cents::CENTS;
use crate::layout::LONGEST_BATCH;

const MOST_CENTS: u64 = 50_000_000_000_000;
/// Of the first word of an amount.
const SIGN: u32 = 1 << 28;

/// A word of the record, whose amount has this magnitude, is refused by row 22, 27 or 28.
fn bad_record(w: &[u32], size: u64) -> bool {
    bad(w[0], 2, 1023)
        || bad(w[1], 4, 10_000_000)
        || bad(w[2], 4, 10_000_000)
        || w[3] & !(SIGN | 31) != 5 << 29
        || kind(w[4]) != 6
        || kind(w[5]) != 6
        || size > MOST_DVP as u64
        || (size == 0 && w[3] & SIGN != 0)
}

/// Rows 20 to 40 of a batch whose header in units would be this one; the length of the batch with the bit changed and other magnitudes, which
/// is written. A magnitude that has no other is refused by the row.
#[inline]
fn converted(
    batch: &[u32],
    header: u32,
    magnitude: impl Fn(u64) -> Option<u64>,
    row: u64,
    out: &mut [u32],
) -> Result<usize, Refused> {
    let records = records_by_header(header, batch.len())?;
    let mut after = [0; LONGEST_BATCH];
    let after = &mut after[..batch.len()];
    after[0] = batch[0] ^ CENTS;
    for (r, (to, from)) in after[1..].chunks_exact_mut(6).zip(batch[1..].chunks_exact(6)).enumerate() {
        let before = u64::from(from[3] & 31) << 58 | u64::from(payload(from[4])) << 29 | u64::from(payload(from[5]));
        let Some(size) = magnitude(before).filter(|_| !bad_record(from, before)) else {
            pass(check_words(batch, records))?;
            return Err((row, r));
        };
        to[..3].copy_from_slice(&from[..3]);
        to[3] = from[3] & !31 | (size >> 58) as u32;
        to[4] = 6 << 29 | (size >> 29 & 0x1fff_ffff) as u32;
        to[5] = 6 << 29 | (size & 0x1fff_ffff) as u32;
    }
    if out.len() < after.len() {
        return Err((40, after.len()));
    }
    out[..after.len()].copy_from_slice(after);
    Ok(after.len())
}

/// The calls: number × 2^32 + value.
pub fn to_cents(batch: &[u32], out: &mut [u32]) -> u64 {
    let header = batch.first().copied().unwrap_or(0);
    packed(converted(batch, header, |units| (units / 100 * 100 == units).then_some(units / 100), 33, out))
}

pub fn from_cents(batch: &[u32], out: &mut [u32]) -> u64 {
    // a bit that is missing is set, and the header refused
    let header = batch.first().copied().unwrap_or(0) ^ CENTS;
    packed(converted(batch, header, |cents| (cents <= MOST_CENTS).then_some(cents.wrapping_mul(100)), 34, out))
}
