//! The unit's calls for a C host, linked from its static library; for the benchmark its netting alone.
use crate::cents::Way;
use crate::reckoner::Refusal;
use crate::text_reading::Said;
use crate::worst_moment::Moment;

extern "C" {
    fn mars_report(day: *const u8, day_len: usize, batch: *const u8, batch_len: usize, report: *mut u8, report_len: usize)
        -> u64;
    fn mars_report_words(
        day: *const u32,
        day_len: usize,
        batch: *const u32,
        batch_len: usize,
        deposits: *const u32,
        deposits_len: usize,
        report: *mut u32,
        report_len: usize,
    ) -> u64;
    fn mars_reports(
        day: *const u32,
        day_len: usize,
        batches: *const u32,
        batches_len: usize,
        lengths: *const u32,
        lengths_len: usize,
        results: *mut u32,
        results_len: usize,
        report: *mut u32,
        report_len: usize,
    ) -> u64;
    fn mars_rewrite(day: *const u32, day_len: usize, batch: *const u32, batch_len: usize, out: *mut u32, out_len: usize) -> u64;
    fn mars_add_record(
        day: *const u32,
        day_len: usize,
        batch: *const u32,
        batch_len: usize,
        record: *const u32,
        record_len: usize,
        out: *mut u32,
        out_len: usize,
    ) -> u64;
    fn mars_worst_moment(
        day: *const u32,
        day_len: usize,
        batch: *const u32,
        batch_len: usize,
        trades: *const u32,
        trades_len: usize,
        margin: *mut i64,
        step: *mut u32,
        applied: *mut u32,
        left_out: *mut u32,
    ) -> u64;
    fn mars_to_cents(batch: *const u32, batch_len: usize, out: *mut u32, out_len: usize) -> u64;
    fn mars_from_cents(batch: *const u32, batch_len: usize, out: *mut u32, out_len: usize) -> u64;
    fn mars_read_text(text: *const u8, text_len: usize, ordinary: *mut i64, fail: *mut i64, account: *mut i64) -> u64;
}

/// A result's two parts: number 0 and a value, or a refusal.
fn parts(result: u64) -> Result<usize, Refusal> {
    let (number, value) = ((result >> 32) as u32, (result & 0xffff_ffff) as usize);
    if number == 0 {
        Ok(value)
    } else {
        Err(Refusal { number, place: value })
    }
}

/// The call as a host makes it: number 0 and the report's length in words, or the refusal.
pub fn call(day: &[u8], batch: &[u8], memory: &mut [u8]) -> Result<usize, Refusal> {
    // The byte call has no precondition: any three byte slices may be lent.
    parts(unsafe { mars_report(day.as_ptr(), day.len(), batch.as_ptr(), batch.len(), memory.as_mut_ptr(), memory.len()) })
}

/// The call over words: the report's length in words, or the refusal.
pub fn call_words(day: &[u32], batch: &[u32], deposits: &[u32], memory: &mut [u32]) -> Result<usize, Refusal> {
    let room = memory.len();
    // No precondition: any three slices of words to read and any one to write, which overlaps none of them.
    parts(unsafe {
        mars_report_words(
            day.as_ptr(),
            day.len(),
            batch.as_ptr(),
            batch.len(),
            deposits.as_ptr(),
            deposits.len(),
            memory.as_mut_ptr(),
            room,
        )
    })
}

/// All accounts in one call: the words written in all, or row 60 or 61.
pub fn call_all(
    day: &[u32],
    batches: &[u32],
    lengths: &[u32],
    results: &mut [u32],
    memory: &mut [u32],
) -> Result<usize, Refusal> {
    let (entries, room) = (results.len(), memory.len());
    // No precondition: any three slices of words to read and any two to write, none overlapping.
    parts(unsafe {
        mars_reports(
            day.as_ptr(),
            day.len(),
            batches.as_ptr(),
            batches.len(),
            lengths.as_ptr(),
            lengths.len(),
            results.as_mut_ptr(),
            entries,
            memory.as_mut_ptr(),
            room,
        )
    })
}

/// A batch rewritten: the length of the rewriting in words, or the refusal.
pub fn rewrite(day: &[u32], batch: &[u32], memory: &mut [u32]) -> Result<usize, Refusal> {
    let room = memory.len();
    // No precondition: any two slices of words to read and any one to write, which overlaps neither.
    parts(unsafe { mars_rewrite(day.as_ptr(), day.len(), batch.as_ptr(), batch.len(), memory.as_mut_ptr(), room) })
}

/// The same of the batch with this record as its last.
pub fn add_record(day: &[u32], batch: &[u32], record: &[u32], memory: &mut [u32]) -> Result<usize, Refusal> {
    let room = memory.len();
    // No precondition: any three slices of words to read and any one to write, which overlaps none of them.
    parts(unsafe {
        mars_add_record(
            day.as_ptr(),
            day.len(),
            batch.as_ptr(),
            batch.len(),
            record.as_ptr(),
            record.len(),
            memory.as_mut_ptr(),
            room,
        )
    })
}

/// The worst moment of a day, or the refusal. The four numbers that are lent must then stay.
pub fn worst_moment(day: &[u32], batch: &[u32], trades: &[u32]) -> Result<Moment, Refusal> {
    let before = Moment { margin: i64::MIN, step: 7, applied: 77, left_out: 777 };
    let mut m = before;
    // No precondition: any three slices of words to read, and four distinct numbers.
    let answer = parts(unsafe {
        mars_worst_moment(
            day.as_ptr(),
            day.len(),
            batch.as_ptr(),
            batch.len(),
            trades.as_ptr(),
            trades.len(),
            &mut m.margin,
            &mut m.step,
            &mut m.applied,
            &mut m.left_out,
        )
    });
    match answer {
        Ok(value) => assert_eq!(value, 0),
        Err(refusal) => assert_eq!(m, before, "{refusal:?}, yet a number was stored"),
    }
    answer.map(|_| m)
}

/// A batch converted to cents: its length in words, or the refusal.
pub fn to_cents(batch: &[u32], memory: &mut [u32]) -> Result<usize, Refusal> {
    let room = memory.len();
    // No precondition: any slice of words to read and any one to write, which does not overlap it.
    parts(unsafe { mars_to_cents(batch.as_ptr(), batch.len(), memory.as_mut_ptr(), room) })
}

/// A batch in cents converted back.
pub fn from_cents(batch: &[u32], memory: &mut [u32]) -> Result<usize, Refusal> {
    let room = memory.len();
    // No precondition: any slice of words to read and any one to write, which does not overlap it.
    parts(unsafe { mars_from_cents(batch.as_ptr(), batch.len(), memory.as_mut_ptr(), room) })
}

/// The call that converts a batch this way.
pub fn convert(way: Way, batch: &[u32], memory: &mut [u32]) -> Result<usize, Refusal> {
    match way {
        Way::ToCents => to_cents(batch, memory),
        Way::FromCents => from_cents(batch, memory),
    }
}

/// A printed text read back. Numbers that are lent for the totals must stay unless the text is a report's.
pub fn read_text(text: &[u8]) -> Said {
    let before = [i64::MIN, 7, -7];
    let [mut ordinary, mut fail, mut account] = before;
    // No precondition: any bytes, and three distinct numbers.
    let r = unsafe { mars_read_text(text.as_ptr(), text.len(), &mut ordinary, &mut fail, &mut account) };
    let totals = [ordinary, fail, account];
    let (number, value) = ((r >> 32) as u32, (r & 0xffff_ffff) as u32);
    if number == 0 {
        return Said::Report(value, totals);
    }
    assert_eq!(totals, before, "no report, yet a total was stored");
    if number == u32::MAX {
        assert_eq!(value, 0);
        return Said::Unreadable;
    }
    Said::Refusal(number, value)
}

#[cfg(feature = "bench")]
extern "C" {
    fn mars_net_times(
        day: *const u32,
        day_len: usize,
        batch: *const u32,
        batch_len: usize,
        nets: *mut i64,
        nets_len: usize,
        dvps: *mut i64,
        dvps_len: usize,
        times: u32,
    ) -> u32;
}

/// The batch netted into both tables once and `times` times more, each time from zeros; false: refused, and no table changed.
#[cfg(feature = "bench")]
pub fn net_times(day: &[u32], batch: &[u32], nets: &mut [i64], dvps: &mut [i64], times: u32) -> bool {
    // No precondition: any two files of words and any two tables may be lent.
    let (n, m) = (nets.len(), dvps.len());
    let r = unsafe {
        mars_net_times(day.as_ptr(), day.len(), batch.as_ptr(), batch.len(), nets.as_mut_ptr(), n, dvps.as_mut_ptr(), m, times)
    };
    r == 1
}
