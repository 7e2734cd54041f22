//! What the benchmark makes of its turns, and that its places change.
use harness::places::Places;
use harness::timing::{Call, Comparison, Times};
use std::collections::BTreeSet;
use std::hint::black_box;

#[test]
fn turns_are_told_by_their_quartiles() {
    // sorted 10, 20, 30, 40 and 10, 10, 20, 20; turn by turn 2, 0.5, 3, 2
    let times = Times([vec![40.0, 10.0, 30.0, 20.0], vec![20.0, 20.0, 10.0, 10.0]]);
    assert_eq!(times.compared(), Comparison { medians: [30.0, 20.0], ratios: [2.0, 2.0, 3.0], lower: 2.0 });
}

#[test]
fn slow_seconds_move_the_medians_and_not_the_ratio() {
    let slow = |from: usize, to: usize| move |turn| if (from..to).contains(&turn) { 3.0 } else { 1.0 };
    let times = |ours: &dyn Fn(usize) -> f64, theirs: &dyn Fn(usize) -> f64| {
        Times([(0..100).map(|turn| 12.0 * ours(turn)).collect(), (0..100).map(|turn| 10.0 * theirs(turn)).collect()]).compared()
    };
    // slow for 52 and 48 of a hundred turns, for 48 of them both
    let c = times(&slow(0, 52), &slow(0, 48));
    assert_eq!(c.medians, [36.0, 10.0]);
    assert_eq!((c.ratios, c.lower), ([1.2, 1.2, 1.2], 1.2));
    // one of the two slow for more than half of the turns: the lower quartiles stay
    let c = times(&slow(0, 60), &slow(0, 0));
    assert_eq!((c.ratios, c.lower), ([1.2, 3.6, 3.6], 1.2));
}

/// Some microseconds of work.
fn work() {
    for i in 0..4_000u64 {
        black_box(i);
    }
}

#[test]
fn a_call_is_timed_by_the_pieces_of_its_work() {
    let (mut places, mut times) = (Places::new(1), Times::default());
    let mut eight = || (0..8).for_each(|_| work());
    (0..20).for_each(|_| times.round(&mut places, [Call(8, &mut eight), Call(2, &mut work)]));
    let ratio = times.compared().ratios[1];
    assert!(1.5 < ratio && ratio < 2.5, "eight pieces in eight, beside one counted as two: {ratio}");
}

fn somewhere() -> usize {
    black_box(somewhere as fn() -> usize) as usize
}

#[test]
fn places_are_drawn_anew() {
    let mut places = Places::new(3);
    let [mut memory, mut stack, mut code] = [(); 3].map(|_| BTreeSet::new());
    for _ in 0..400 {
        let content = [3u32, 1, 4, 1, 5];
        let placed = places.memory(&content);
        assert_eq!(*placed, content);
        memory.insert(placed.as_ptr() as usize % 4096);
        places.stack(&mut || {
            let local = 0u8;
            stack.insert(black_box(&local) as *const u8 as usize % 4096);
        });
        let mut function = 0;
        places.code(&mut || function = somewhere())();
        code.insert(function % 4096);
    }
    for (name, found) in [("memory", memory), ("stack", stack), ("code", code)] {
        assert!(found.len() > 40, "{name}: {} places in a page", found.len());
        let in_line: BTreeSet<usize> = found.iter().map(|place| place % 64 / 16).collect();
        assert_eq!(in_line.len(), 4, "{name}: not every place in a line of 64 bytes");
    }
}
