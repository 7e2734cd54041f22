//! A batch rewritten, with a record added too.
use super::{check_and_net, packed, put_amount, read_day, record_count, Day, Refused, MOST_DVP, NETS};
use crate::layout::{LONGEST_BATCH, MOST_RECORDS};

/// Rows 22 to 31 over so many records; the tables, zeros before, get the nets and DVPs.
#[inline]
pub(super) fn check_and_net_within(
    day: &Day,
    batch: &[u32],
    records: usize,
    nets: &mut [i64; NETS],
    dvps: &mut [i64; NETS],
) -> Result<(), Refused> {
    check_and_net(day, batch, records, nets, dvps)?;
    for r in 0..records {
        let k = (batch[1 + 6 * r] & 1023) as usize;
        if dvps[k].abs() > MOST_DVP {
            return Err((31, r));
        }
    }
    Ok(())
}

/// Rows 22 to 40 over so many records, one more than a batch has at the most; the length of the rewriting, which is written.
fn rewritten(day: &Day, batch: &[u32], records: usize, out: &mut [u32]) -> Result<usize, Refused> {
    let (mut nets, mut dvps) = ([0i64; NETS], [0i64; NETS]);
    check_and_net_within(day, batch, records, &mut nets, &mut dvps)?;
    let (mut held, mut count) = ([0; MOST_RECORDS + 1], 0);
    for s in 0..day.series {
        // open, exercised, fail: no series has the last two
        for k in [s, s + 256, s + 512] {
            if nets[k] != 0 || dvps[k] != 0 {
                held[count] = k;
                count += 1;
            }
        }
    }
    if count > MOST_RECORDS {
        return Err((32, 0));
    }
    let needed = 1 + 6 * count;
    if out.len() < needed {
        return Err((40, needed));
    }
    out[0] = 1 << 29 | count as u32;
    for (w, &k) in out[1..needed].chunks_exact_mut(6).zip(&held) {
        w[0] = 2 << 29 | k as u32;
        w[1] = 4 << 29 | (-nets[k]).max(0) as u32;
        w[2] = 4 << 29 | nets[k].max(0) as u32;
        put_amount(&mut w[3..], dvps[k]);
    }
    Ok(needed)
}

fn of_batch(day: &[u32], batch: &[u32], out: &mut [u32]) -> Result<usize, Refused> {
    let day = read_day(day)?;
    let records = record_count(batch)?;
    rewritten(&day, batch, records, out)
}

fn with_record(day: &[u32], batch: &[u32], record: &[u32], out: &mut [u32]) -> Result<usize, Refused> {
    let day = read_day(day)?;
    let records = record_count(batch)?;
    if record.len() != 6 {
        return Err((21, 0));
    }
    let mut joined = [0; LONGEST_BATCH + 6];
    let joined = &mut joined[..batch.len() + 6];
    joined[..batch.len()].copy_from_slice(batch);
    joined[batch.len()..].copy_from_slice(record);
    rewritten(&day, joined, records + 1, out)
}

/// The calls: number × 2^32 + value.
pub fn rewrite(day: &[u32], batch: &[u32], out: &mut [u32]) -> u64 {
    packed(of_batch(day, batch, out))
}

pub fn add_record(day: &[u32], batch: &[u32], record: &[u32], out: &mut [u32]) -> u64 {
    packed(with_record(day, batch, record, out))
}
