//! The calls that rewrite a batch: one record for each position that is held, of the batch alone or with a record added to it.
use crate::layout::MOST_RECORDS;
use crate::reckoner::{
    check_length, net, push_amount, read_day, read_records, refuse, write, DayFile, Key, Position, Refusal, MOST_DVP,
};
use crate::records::batch_of;

/// The record of a position: net long in the one quantity, net short in the other.
fn record((place, exercised, fail): Key, position: Position) -> [u32; 6] {
    let key = place as u32 | u32::from(exercised) << 8 | u32::from(fail) << 9;
    let (long, short) = ((-position.net).max(0), position.net.max(0));
    let mut out = vec![2 << 29 | key, 4 << 29 | long as u32, 4 << 29 | short as u32];
    push_amount(&mut out, position.dvp);
    out.try_into().expect("six words")
}

/// The records of the rewriting, or one of the rows 22 to 31. The batch's header is not looked at.
fn rewritten(day: &DayFile, batch: &[u32]) -> Result<Vec<[u32; 6]>, Refusal> {
    let records = read_records(day, batch)?;
    let positions = net(day, &records)?;
    if let Some(i) = records.iter().position(|r| positions[&r.key()].dvp.abs() > MOST_DVP) {
        return refuse(31, i);
    }
    // a key's parts stand in the order asked for, and false comes before true
    let held = positions.into_iter().filter(|(_, position)| position.is_held());
    Ok(held.map(|(key, position)| record(key, position)).collect())
}

/// The length of the rewriting, which is written into the memory, or the refusal.
pub fn rewrite(day: &[u32], batch: &[u32], memory: &mut [u32]) -> Result<usize, Refusal> {
    let day = read_day(day)?;
    check_length(batch)?;
    write(&batch_of(&rewritten(&day, batch)?), memory)
}

/// The same of the batch with this record as its last.
pub fn add_record(day: &[u32], batch: &[u32], record: &[u32], memory: &mut [u32]) -> Result<usize, Refusal> {
    let day = read_day(day)?;
    check_length(batch)?;
    if record.len() != 6 {
        return refuse(21, 0);
    }
    let records = rewritten(&day, &[batch, record].concat())?;
    if records.len() > MOST_RECORDS {
        return refuse(32, 0);
    }
    write(&batch_of(&records), memory)
}
