//! The calls that rewrite or convert a batch, and the worst moment of a day, made by the unit and by the reckoner on the same inputs.
use crate::accounts::{room_about, Account};
use crate::cents::Way;
use crate::layout::LONGEST_BATCH;
use crate::reckoner::Refusal;
use crate::rewriting::{add_record, rewrite};
use crate::rng::Rng;
use crate::unit;
use crate::worst_moment::{course, Course};

/// Words in front of a memory and behind it.
const GUARD: usize = 8;

/// A call made by both in equal memories of so many words: the words written, or the refusal. All other words of the memory and those around
/// it must stay.
fn compare_calls(
    room: usize,
    fill: &mut Rng,
    case: &str,
    theirs: impl FnOnce(&mut [u32]) -> Result<usize, Refusal>,
    ours: impl FnOnce(&mut [u32]) -> Result<usize, Refusal>,
) -> Result<Vec<u32>, Refusal> {
    let before: Vec<u32> = (0..room + 2 * GUARD).map(|_| fill.next() as u32).collect();
    let memory = GUARD..GUARD + room;
    let (mut around, mut expected) = (before.clone(), before[memory.clone()].to_vec());
    let (theirs, ours) = (theirs(&mut expected), ours(&mut around[memory.clone()]));
    assert_eq!(ours, theirs, "{case}");
    let written = GUARD..GUARD + ours.unwrap_or(0);
    assert!(around[memory] == expected, "memory: {case}");
    assert!(around[..GUARD] == before[..GUARD] && around[written.end..] == before[written.end..], "around: {case}");
    ours.map(|_| around[written].to_vec())
}

/// A batch rewritten, or with a record added to it. The inputs must stay.
pub fn compare(a: &Account, record: Option<&[u32]>, room: usize, fill: &mut Rng, case: &str) -> Result<Vec<u32>, Refusal> {
    let (day, batch, lent) = (a.day.clone(), a.batch.clone(), record.map(<[u32]>::to_vec));
    let theirs = |memory: &mut [u32]| match record {
        None => rewrite(&a.day, &a.batch, memory),
        Some(record) => add_record(&a.day, &a.batch, record, memory),
    };
    let ours = |memory: &mut [u32]| match &lent {
        None => unit::rewrite(&day, &batch, memory),
        Some(record) => unit::add_record(&day, &batch, record, memory),
    };
    let answer = compare_calls(room, fill, case, theirs, ours);
    assert!(day == a.day && batch == a.batch && lent.as_deref() == record, "inputs: {case}");
    answer
}

/// A batch converted. It must stay.
pub fn compare_conversion(way: Way, batch: &[u32], room: usize, fill: &mut Rng, case: &str) -> Result<Vec<u32>, Refusal> {
    let lent = batch.to_vec();
    let theirs = |memory: &mut [u32]| way.convert(batch, memory);
    let answer = compare_calls(room, fill, case, theirs, |memory| unit::convert(way, &lent, memory));
    assert!(lent == batch, "inputs: {case}");
    answer
}

/// The worst moment of a day, or the refusal, must be the reckoner's, and the inputs stay: the day step by step.
pub fn compare_day(a: &Account, trades: &[u32], case: &str) -> Result<Course, Refusal> {
    let course = course(&a.day, &a.batch, trades);
    let (day, batch, lent) = (a.day.clone(), a.batch.clone(), trades.to_vec());
    let ours = unit::worst_moment(&day, &batch, &lent);
    assert_eq!(ours, course.as_ref().map(Course::worst).map_err(|r| *r), "{case}");
    assert!(day == a.day && batch == a.batch && lent == trades, "inputs: {case}");
    course
}

/// The unit's rewriting, where it accepts the batch.
pub fn rewritten(a: &Account) -> Option<Vec<u32>> {
    let mut memory = [0; LONGEST_BATCH];
    let n = unit::rewrite(&a.day, &a.batch, &mut memory).ok()?;
    Some(memory[..n].to_vec())
}

/// A memory's length for a batch: mostly enough, else about the length that its rewriting needs or any other.
pub fn room(rng: &mut Rng, a: &Account) -> usize {
    let needed = rewrite(&a.day, &a.batch, &mut [0; LONGEST_BATCH]).unwrap_or(1);
    room_about(rng, needed)
}
