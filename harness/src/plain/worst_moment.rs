//! The worst moment of a day: a trade costs the line that it touches.
use super::rewriting::check_and_net_within;
use super::{added, bad_record, dvp, line, read_day, record_count, starts_of, too_large, Day, Refused, Starts, MOST_DVP, NETS};
use crate::layout::{MOST_RECORDS, MOST_TRADES};
use crate::worst_moment::Moment;

/// The account so far.
struct Account<'a> {
    day: &'a Day<'a>,
    starts: Starts,
    nets: [i64; NETS],
    dvps: [i64; NETS],
    /// How many positions are held.
    held: usize,
    /// The margin of each line, by book and group; 0 where there is none.
    lines: [[i64; 29]; 2],
    margin: i64,
}

impl<'a> Account<'a> {
    /// Rows 20 to 31.
    fn open(day: &'a Day<'a>, batch: &[u32]) -> Result<Self, Refused> {
        let records = record_count(batch)?;
        let (nets, dvps) = ([0; NETS], [0; NETS]);
        let mut out = Account { day, starts: starts_of(day), nets, dvps, held: 0, lines: [[0; 29]; 2], margin: 0 };
        check_and_net_within(day, batch, records, &mut out.nets, &mut out.dvps)?;
        out.held = (0..NETS).filter(|&k| out.is_held(k)).count();
        for book in 0..2 {
            for group in 0..29 {
                out.reckon(book, group);
            }
        }
        Ok(out)
    }

    fn is_held(&self, k: usize) -> bool {
        self.nets[k] != 0 || self.dvps[k] != 0
    }

    /// A line's margin anew, and the account's by its change.
    fn reckon(&mut self, book: usize, group: usize) {
        let margin = line(self.day, &self.starts, &self.nets, &self.dvps, book, group as u32)[4];
        self.margin += margin - self.lines[book][group];
        self.lines[book][group] = margin;
    }

    /// Rows 22 to 26 of a record.
    fn refuses(&self, w: &[u32]) -> bool {
        let place = (w[0] & 255) as usize;
        if bad_record(w) || place >= self.day.series {
            return true;
        }
        let t = self.day.series_type(place);
        let (option, security) = ((2..=3).contains(&t), (4..=6).contains(&t));
        !option && w[0] >> 8 & 1 == 1 || !security && (w[0] >> 9 & 1 == 1 || dvp(w) != 0)
    }

    /// False, and nothing changes, where rows 22 to 32 refuse the trade.
    fn add(&mut self, trade: &[u32]) -> bool {
        if self.refuses(trade) {
            return false;
        }
        let (k, net, dvp) = added(trade);
        let (net, dvp) = (self.nets[k] + net, self.dvps[k] + dvp);
        let held = self.held - usize::from(self.is_held(k)) + usize::from(net != 0 || dvp != 0);
        if too_large(self.day, k, net) || dvp.abs() > MOST_DVP || held > MOST_RECORDS {
            return false;
        }
        (self.nets[k], self.dvps[k], self.held) = (net, dvp, held);
        let class = self.day.class_of(self.day.one(k & 255, 0) >> 23).expect("row 15");
        self.reckon(k >> 9, (self.day.class(class, 0) & 31) as usize);
        true
    }
}

/// The worst moment, or the refusal's number and place.
pub fn worst_moment(day: &[u32], batch: &[u32], trades: &[u32]) -> Result<Moment, Refused> {
    let day = read_day(day)?;
    let mut account = Account::open(&day, batch)?;
    if trades.len() % 6 != 0 || trades.len() > 6 * MOST_TRADES {
        return Err((62, 0));
    }
    let mut worst = Moment { margin: account.margin, ..Moment::default() };
    for (step, trade) in (1..).zip(trades.chunks_exact(6)) {
        if !account.add(trade) {
            worst.left_out += 1;
            continue;
        }
        worst.applied += 1;
        if account.margin > worst.margin {
            (worst.margin, worst.step) = (account.margin, step);
        }
    }
    Ok(worst)
}
