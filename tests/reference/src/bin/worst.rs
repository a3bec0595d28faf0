//! Looks for lists that cost many tests: for each length the best of some climbs, with the seed to store in `worst::CLIMBS`.

use reference::procedure::most_tests;
use reference::worst::{climb, tests_of};

const SEARCHES: [(usize, u64, usize); 11] = [
    (3, 10, 100),
    (4, 20, 300),
    (5, 40, 1_000),
    (6, 60, 1_000),
    (8, 200, 3_000),
    (12, 60, 3_000),
    (16, 40, 3_000),
    (24, 20, 3_000),
    (32, 20, 3_000),
    (48, 10, 3_000),
    (64, 10, 3_000),
];

fn main() {
    for (n, seeds, steps) in SEARCHES {
        let count = |seed| (tests_of(&climb(n, seed, steps)), seed);
        let (tests, seed) = (0..seeds).map(count).max().expect("at least one seed");
        println!("({n}, {seed}, {steps}): {tests} tests, bound {}", most_tests(n as u64));
    }
}
