//! The files' layout and the unit of the day file's offsets, for all that reads or makes one here.

pub const CLASS_WORDS: usize = 20;
pub const SERIES_WORDS: usize = 15;

/// The places of a class's underlying price and of its ten projected prices, from downside 5 on.
pub const UNDERLYING: usize = 1;
pub const PROJECTED: usize = 10;

/// The place of a class's offset, and the offset that leaves a credit whole: 100 percent, in hundredths of a percent.
pub const OFFSET: usize = 9;
pub const WHOLE_OFFSET: u32 = 10_000;

/// The words of the longest day file.
pub const LONGEST_DAY: usize = series_at(64, 256);

/// The most records of a batch, and the words of the longest one.
pub const MOST_RECORDS: usize = 256;
pub const LONGEST_BATCH: usize = 1 + 6 * MOST_RECORDS;

/// The most trades of a day that are added one by one.
pub const MOST_TRADES: usize = 4096;

/// Where class c stands.
pub const fn class_at(c: usize) -> usize {
    1 + CLASS_WORDS * c
}

/// Where series s stands in a file of so many classes; with s the number of series, the words of the file.
pub const fn series_at(classes: usize, s: usize) -> usize {
    class_at(classes) + SERIES_WORDS * s
}

/// Classes and series by the header; none where there is no header.
pub fn counts(day: &[u32]) -> (usize, usize) {
    day.first().map_or((0, 0), |header| ((header & 127) as usize, (header >> 7 & 511) as usize))
}
