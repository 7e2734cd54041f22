//! The call for many accounts as the request has it: single calls in turn, each with the memory still left.
use crate::reckoner::{call_words, Refusal};

/// The words written in all, or row 60 or 61; the result list gets two numbers an account.
pub fn call_all(
    day: &[u32],
    batches: &[u32],
    lengths: &[u32],
    results: &mut [u32],
    memory: &mut [u32],
) -> Result<usize, Refusal> {
    let sum: u128 = lengths.iter().map(|&n| u128::from(n)).sum();
    if lengths.len() > 64 || sum != batches.len() as u128 {
        return Err(Refusal { number: 60, place: 0 });
    }
    if results.len() < 2 * lengths.len() {
        return Err(Refusal { number: 61, place: 0 });
    }
    let (mut behind, mut written) = (batches, 0);
    for (i, &length) in lengths.iter().enumerate() {
        let (batch, others) = behind.split_at(length as usize);
        behind = others;
        let pair = match call_words(day, batch, &[], &mut memory[written..]) {
            Ok(n) => {
                written += n;
                [0, n as u32]
            }
            Err(refusal) => [refusal.number, refusal.place as u32],
        };
        results[2 * i..2 * i + 2].copy_from_slice(&pair);
    }
    Ok(written)
}

/// The batches back to back, and their lengths.
pub fn joined(batches: &[Vec<u32>]) -> (Vec<u32>, Vec<u32>) {
    (batches.concat(), batches.iter().map(|b| b.len() as u32).collect())
}

/// The report words of each account, by the result list alone; none for a refused one.
pub fn reports<'a>(results: &[u32], memory: &'a [u32]) -> Vec<&'a [u32]> {
    let mut start = 0;
    let of = |pair: &[u32]| {
        let length = if pair[0] == 0 { pair[1] as usize } else { 0 };
        start += length;
        &memory[start - length..start]
    };
    results.chunks_exact(2).map(of).collect()
}
