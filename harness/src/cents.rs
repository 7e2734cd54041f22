//! The calls that convert a batch: its DVP amounts from units, ten-thousandths of a euro, into euro cents, and back.
use crate::reckoner::{check_length, check_words, refuse, write, Refusal};
use crate::records::{batch_of, dvp, records_of, set_dvp};

/// The bit of a batch's header that says that its DVP amounts are in cents.
pub const CENTS: u32 = 1 << 28;

/// The units of a cent.
pub const CENT: i128 = 100;

/// The largest magnitude of an amount in cents that is converted: as many units as a DVP amount may have.
pub const MOST_CENTS: i128 = 50_000_000_000_000;

/// Rows 20 to 28 of a batch in units.
fn checked(batch: &[u32]) -> Result<Vec<[u32; 6]>, Refusal> {
    check_length(batch)?;
    check_words(batch)?;
    Ok(records_of(batch))
}

/// The records with other amounts.
fn with_amounts(mut records: Vec<[u32; 6]>, amount: impl Fn(i128) -> i128) -> Vec<[u32; 6]> {
    for record in &mut records {
        let converted = amount(dvp(record));
        set_dvp(record, converted);
    }
    records
}

/// The length of the batch in cents, which is written into the memory, or the refusal.
pub fn to_cents(batch: &[u32], memory: &mut [u32]) -> Result<usize, Refusal> {
    let records = checked(batch)?;
    if let Some(i) = records.iter().position(|r| dvp(r) % CENT != 0) {
        return refuse(33, i);
    }
    let mut out = batch_of(&with_amounts(records, |units| units / CENT));
    out[0] |= CENTS;
    write(&out, memory)
}

/// The same of a batch in cents, back into units.
pub fn from_cents(batch: &[u32], memory: &mut [u32]) -> Result<usize, Refusal> {
    let mut in_units = batch.to_vec();
    match in_units.first_mut() {
        Some(header) if *header & CENTS != 0 => *header -= CENTS,
        _ => return refuse(20, 0),
    }
    let records = checked(&in_units)?;
    if let Some(i) = records.iter().position(|r| dvp(r).abs() > MOST_CENTS) {
        return refuse(34, i);
    }
    write(&batch_of(&with_amounts(records, |cents| cents * CENT)), memory)
}

/// Which way a batch is converted.
#[derive(Clone, Copy, Debug, PartialEq, Eq)]
pub enum Way {
    ToCents,
    FromCents,
}

pub const WAYS: [Way; 2] = [Way::ToCents, Way::FromCents];

impl Way {
    pub fn back(self) -> Way {
        match self {
            Way::ToCents => Way::FromCents,
            Way::FromCents => Way::ToCents,
        }
    }

    /// The header bit of a batch that is converted this way.
    pub fn bit(self) -> u32 {
        match self {
            Way::ToCents => 0,
            Way::FromCents => CENTS,
        }
    }

    /// The reckoner's call.
    pub fn convert(self, batch: &[u32], memory: &mut [u32]) -> Result<usize, Refusal> {
        match self {
            Way::ToCents => to_cents(batch, memory),
            Way::FromCents => from_cents(batch, memory),
        }
    }
}
