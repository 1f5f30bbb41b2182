//! Periods in the way of document 000: log-uniform from 1 to 1,000 ms.

use crate::chance::Chance;

/// Document 000's periods, 1 to 1,000 ms, in ticks of a twentieth of a millisecond: fine enough for
/// times below the shortest period, and a cycle still has room for three of the longest.
const SHORTEST: u32 = 20;
const LONGEST: u32 = 20_000;

/// The highly composite numbers (none below has as many divisors) from the longest period up to
/// the longest cycle, 65,535.
const CYCLES: [u32; 6] = [20_160, 25_200, 27_720, 45_360, 50_400, 55_440];

/// Periods that are log-uniform, each then replaced by the nearest divisor of one cycle; none is below
/// the one before.
pub fn of_one_cycle(chance: &mut Chance, n: usize) -> Vec<u32> {
    let cycle = chance.pick(&CYCLES);
    let parts = (1..=cycle / SHORTEST).filter(|part| cycle % part == 0);
    let divisors = parts.map(|part| cycle / part).filter(|d| *d <= LONGEST);
    let divisors: Vec<u32> = divisors.collect();
    let mut nearest = || {
        let drawn = logarithm(chance);
        let distance = |d: &u32| (f64::from(*d).ln() - drawn).abs();
        let by_distance = |a: &&u32, b: &&u32| distance(a).total_cmp(&distance(b));
        *divisors.iter().min_by(by_distance).expect("there are some")
    };
    let mut periods: Vec<u32> = (0..n).map(|_| nearest()).collect();
    periods.sort();
    periods
}

/// The logarithm of a period that is log-uniform.
pub fn logarithm(chance: &mut Chance) -> f64 {
    let (low, high) = (f64::from(SHORTEST).ln(), f64::from(LONGEST).ln());
    low + (high - low) * fraction(chance)
}

/// A number from 0 up to 1.
pub fn fraction(chance: &mut Chance) -> f64 {
    (chance.number() >> 11) as f64 / (1_u64 << 53) as f64
}
