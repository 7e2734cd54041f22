//! The worst moment of a day: trades added one by one to an opening batch, the account kept rewritten.
use crate::layout::{LONGEST_BATCH, MOST_TRADES};
use crate::reckoner::{reckon, refuse, Refusal};
use crate::rewriting::{add_record, rewrite};

/// What is answered of a day.
#[derive(Clone, Copy, Debug, Default, PartialEq, Eq)]
pub struct Moment {
    /// The highest account margin over the opening and all steps.
    pub margin: i64,
    /// The earliest step that has it, from 1; 0 is the opening.
    pub step: u32,
    /// How many steps were applied, and how many left out.
    pub applied: u32,
    pub left_out: u32,
}

/// A day step by step.
pub struct Course {
    /// The opening's account margin.
    pub opening: i64,
    /// The account margin behind each step, or the row that leaves it out.
    pub steps: Vec<Result<i64, Refusal>>,
}

/// The account margin of a batch that is accepted.
fn margin(day: &[u32], batch: &[u32]) -> i64 {
    reckon(day, batch).expect("accepted").totals[2].try_into().expect("64 bits")
}

/// The course of a day, or the row that refuses it.
pub fn course(day: &[u32], batch: &[u32], trades: &[u32]) -> Result<Course, Refusal> {
    let mut account = [0; LONGEST_BATCH];
    let mut length = rewrite(day, batch, &mut account)?;
    if trades.len() % 6 != 0 || trades.len() / 6 > MOST_TRADES {
        return refuse(62, 0);
    }
    let mut out = Course { opening: margin(day, &account[..length]), steps: Vec::new() };
    for trade in trades.chunks(6) {
        let before = account;
        let added = add_record(day, &before[..length], trade, &mut account);
        out.steps.push(added.map(|n| {
            length = n;
            margin(day, &account[..n])
        }));
    }
    Ok(out)
}

impl Course {
    pub fn worst(&self) -> Moment {
        let mut worst = Moment { margin: self.opening, ..Moment::default() };
        for (step, outcome) in (1..).zip(&self.steps) {
            match *outcome {
                Ok(margin) => {
                    worst.applied += 1;
                    if margin > worst.margin {
                        (worst.margin, worst.step) = (margin, step);
                    }
                }
                Err(_) => worst.left_out += 1,
            }
        }
        worst
    }
}

/// The call: the worst moment, or the row that refuses it.
pub fn worst_moment(day: &[u32], batch: &[u32], trades: &[u32]) -> Result<Moment, Refusal> {
    course(day, batch, trades).map(|course| course.worst())
}
