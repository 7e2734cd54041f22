//! Two calls timed beside each other: in short turns, so that a slow moment of the machine meets both, and in many rounds, each at
//! other places.
use crate::places::Places;
use std::time::{Duration, Instant};

/// How long a call warms up in a round.
const WARM_UP: Duration = Duration::from_millis(1);
/// A turn's length, where one call is not longer.
const TURN: Duration = Duration::from_micros(25);
/// A round's length, where two turns of each are not longer.
const ROUND: Duration = Duration::from_millis(6);

/// A call, and how many pieces of the work that is timed it does.
pub struct Call<'a>(pub u32, pub &'a mut dyn FnMut());

impl Call<'_> {
    /// Warms up and says how many calls make a turn.
    fn warm_up(&mut self) -> u32 {
        let start = Instant::now();
        let mut calls = 0;
        while start.elapsed() < WARM_UP {
            (self.1)();
            calls += 1;
        }
        (TURN * calls).div_duration_f64(start.elapsed()).max(1.0) as u32
    }

    /// A turn of so many calls: nanoseconds a piece of work.
    fn turn(&mut self, calls: u32) -> f64 {
        let start = Instant::now();
        for _ in 0..calls {
            (self.1)();
        }
        start.elapsed().as_nanos() as f64 / f64::from(calls) / f64::from(self.0)
    }
}

/// The times of two calls in nanoseconds a piece of work, turn by turn.
#[derive(Default)]
pub struct Times(pub [Vec<f64>; 2]);

/// What the turns say.
#[derive(Debug, PartialEq)]
pub struct Comparison {
    pub medians: [f64; 2],
    /// The quartiles of the turns' own ratios: the ratio and its spread. A turn's two times are of one moment; of two medians one may be of
    /// a slow second and the other not.
    pub ratios: [f64; 3],
    /// The ratio of the lower quartiles, for which three quarters of the turns may be slow.
    pub lower: f64,
}

/// The k-th quartile: k quarters of the numbers are not above it.
fn quartile(numbers: &[f64], k: usize) -> f64 {
    let mut sorted = numbers.to_vec();
    sorted.sort_by(f64::total_cmp);
    sorted[sorted.len() * k / 4]
}

impl Times {
    /// A round of turns, as many with the one first as with the other.
    pub fn round(&mut self, places: &mut Places, both: [Call; 2]) {
        let mut both = both.map(|call| Call(call.0, places.code(call.1)));
        places.stack(&mut || {
            let calls = both.each_mut().map(Call::warm_up);
            let mut order = [0, 1];
            let start = Instant::now();
            while order == [1, 0] || start.elapsed() < ROUND {
                for i in order {
                    self.0[i].push(both[i].turn(calls[i]));
                }
                order.reverse();
            }
        });
    }

    pub fn compared(&self) -> Comparison {
        let [ours, theirs] = &self.0;
        let ratios: Vec<f64> = ours.iter().zip(theirs).map(|(a, b)| a / b).collect();
        Comparison {
            medians: [quartile(ours, 2), quartile(theirs, 2)],
            ratios: [1, 2, 3].map(|k| quartile(&ratios, k)),
            lower: quartile(ours, 1) / quartile(theirs, 1),
        }
    }
}
