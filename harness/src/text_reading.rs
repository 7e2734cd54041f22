//! What a printed text says, read by splitting it at its spaces and newlines; and texts to try.
use crate::rng::Rng;

#[derive(Debug, PartialEq, Eq)]
pub enum Said {
    /// The line count, and the totals of the ordinary book, of the fails and of the account.
    Report(u32, [i64; 3]),
    /// Number and place.
    Refusal(u32, u32),
    Unreadable,
}

/// 1 to 19 digits.
fn number(field: &[u8]) -> Option<u64> {
    let digits = (1..=19).contains(&field.len()) && field.iter().all(u8::is_ascii_digit);
    digits.then(|| String::from_utf8_lossy(field).parse().expect("digits"))
}

/// Below 2^63 in size, no minus zero.
fn amount(field: &[u8]) -> Option<i64> {
    match field.strip_prefix(b"-") {
        None => number(field)?.try_into().ok(),
        Some(size) => i64::try_from(number(size)?).ok().filter(|&n| n != 0).map(|n| -n),
    }
}

/// The fields of a line that begins with this head and ends the text.
fn fields<'a>(text: &'a [u8], head: &[u8]) -> Option<Vec<&'a [u8]>> {
    let line = text.strip_prefix(head)?.strip_prefix(b" ")?.strip_suffix(b"\n")?;
    Some(line.split(|&c| c == b' ').collect())
}

fn refusal(text: &[u8]) -> Option<Said> {
    let fields = fields(text, b"REFUSED")?;
    let [number_field, place_field] = fields[..] else { return None };
    let place = u32::try_from(number(place_field)?).ok()?;
    let number = u32::try_from(number(number_field)?).ok().filter(|&n| n != 0 && n != u32::MAX)?;
    Some(Said::Refusal(number, place))
}

fn report(text: &[u8]) -> Option<Said> {
    let mut lines = text.split_inclusive(|&c| c == b'\n');
    let head = fields(lines.next()?, b"MARGIN")?;
    let [count] = head[..] else { return None };
    let count = number(count).filter(|&n| n <= 58)?;
    let rest: Vec<&[u8]> = lines.skip(count as usize).collect();
    let totals = fields(&rest.concat(), b"TOTAL")?.into_iter().map(amount).collect::<Option<Vec<i64>>>()?;
    Some(Said::Report(count as u32, totals.try_into().ok()?))
}

pub fn said(text: &[u8]) -> Said {
    refusal(text).or_else(|| report(text)).unwrap_or(Said::Unreadable)
}

/// Numbers about the limits of what is read.
const EDGES: [&str; 17] = [
    "0",
    "-0",
    "-1",
    "00",
    "007",
    "58",
    "59",
    "4294967294",
    "4294967295",
    "4294967296",
    "9223372036854775807",
    "-9223372036854775807",
    "9223372036854775808",
    "-9223372036854775808",
    "9999999999999999999",
    "0000000000000000001",
    "00000000000000000001",
];

/// One change: a byte, a field, a line, or the end.
pub fn damage_text(rng: &mut Rng, text: &mut Vec<u8>) {
    let at = rng.below(text.len() as u64 + 1) as usize;
    let byte = rng.pick(b" -+0123456789\n\rMARGINTOTALREFUSED");
    match rng.below(7) {
        0 => text.insert(at, byte),
        1 if at < text.len() => text[at] = byte,
        2 if at < text.len() => drop(text.remove(at)),
        3 => text.truncate(at),
        4 => text.extend_from_within(at..),
        5 => {
            let mut lines: Vec<Vec<u8>> = text.split_inclusive(|&c| c == b'\n').map(<[u8]>::to_vec).collect();
            if !lines.is_empty() {
                let line = lines[rng.below(lines.len() as u64) as usize].clone();
                lines.insert(rng.below(lines.len() as u64) as usize, line);
            }
            *text = lines.concat();
        }
        _ => {
            // the field before or at this place, with another number in its stead
            let from = text[..at].iter().rposition(|&c| c == b' ').map_or(0, |i| i + 1);
            let to = text[at..].iter().position(|&c| c == b' ' || c == b'\n').map_or(text.len(), |i| at + i);
            text.splice(from..to, rng.pick(&EDGES).bytes());
        }
    }
}
