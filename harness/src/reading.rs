//! A report read back from its words, form and all.
use crate::reckoner::{Line, Report};

fn plain(w: u32, kind: u32) -> Option<u32> {
    (w >> 29 == kind).then_some(w & 0x1fff_ffff)
}

/// None where the three words are no amount.
pub fn amount(w: &[u32]) -> Option<i128> {
    let (first, middle, low) = (plain(w[0], 5)?, plain(w[1], 6)?, plain(w[2], 6)?);
    let size = i128::from(first & 31) << 58 | i128::from(middle) << 29 | i128::from(low);
    let negative = first >> 28 == 1;
    if first >> 5 & 0x7f_ffff != 0 || (negative && size == 0) {
        return None;
    }
    Some(if negative { -size } else { size })
}

/// None where the words are not a report: a wrong kind, a spare bit, a count or a line out of place.
pub fn read_report(words: &[u32]) -> Option<Report> {
    if words.len() < 13 || (words.len() - 13) % 19 != 0 {
        return None;
    }
    let maps = [plain(words[1], 4)?, plain(words[2], 4)?];
    let mut expected = Vec::new();
    for (map, fail) in maps.into_iter().zip([false, true]) {
        expected.extend((0..29).filter(|g| map >> g & 1 == 1).map(|g| (fail, g)));
    }
    let (lines, totals) = words[3..].split_at(words.len() - 13);
    if plain(words[0], 1)? as usize != expected.len() || lines.len() != 19 * expected.len() || totals[0] != 7 << 29 {
        return None;
    }
    let mut report = Report { lines: Vec::new(), totals: [0; 3] };
    for (w, (fail, group)) in lines.chunks(19).zip(expected) {
        if plain(w[0], 2)? != u32::from(fail) << 5 | group {
            return None;
        }
        let mut amounts = [0; 6];
        for (i, z) in amounts.iter_mut().enumerate() {
            *z = amount(&w[1 + 3 * i..4 + 3 * i])?;
        }
        report.lines.push(Line { fail, group, amounts });
    }
    for (i, z) in report.totals.iter_mut().enumerate() {
        *z = amount(&totals[1 + 3 * i..4 + 3 * i])?;
    }
    Some(report)
}
