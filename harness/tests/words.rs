//! The call over words against cases of an outside reckoner; without deposits as one account of the call for many and in bytes too.
use harness::reckoner::{to_bytes, to_words, Refusal};
use harness::requests::{check_report, reports};
use harness::unit;

/// One account of the call for many: its answer stands in the result list.
fn one_of_many(day: &[u32], batch: &[u32], memory: &mut [u32]) -> Result<usize, Refusal> {
    let mut results = [0; 2];
    let written = unit::call_all(day, batch, &[batch.len() as u32], &mut results, memory).expect("neither 60 nor 61");
    let [number, value] = results;
    if number == 0 {
        assert_eq!(written, value as usize);
        return Ok(written);
    }
    assert_eq!(written, 0);
    Err(Refusal { number, place: value as usize })
}

/// The byte call on the same words; no case is longer than the longest forms, so that rows 1 and 2 never hold.
fn in_bytes(day: &[u32], batch: &[u32], memory: &mut [u32]) -> Result<usize, Refusal> {
    let mut bytes = to_bytes(memory);
    let answer = unit::call(&to_bytes(day), &to_bytes(batch), &mut bytes);
    memory.copy_from_slice(&to_words(&bytes));
    answer
}

#[test]
fn agrees_with_the_vectors() {
    let mut without = 0;
    for case in reports() {
        check_report(&case, unit::call_words);
        if case.words("deposits").is_empty() {
            check_report(&case, |day, batch, _, memory| one_of_many(day, batch, memory));
            check_report(&case, |day, batch, _, memory| in_bytes(day, batch, memory));
            without += 1;
        }
    }
    println!("{without} without deposits");
    assert!(without > 100);
}
