//! Candidate sets by the thousand, as a desk tries them, judged by the archive and in two plain ways side by side. Without an argument
//! it prints how long each takes; with `agree` it demands that all three answer alike, also where periods and their products pass 32
//! and 64 bits; with a side, a kind, a number of tasks and a number of times it asks that side alone, for counting what is executed.

#[allow(dead_code)]
mod archive;
#[allow(dead_code)]
#[path = "independent/chance.rs"]
mod chance;
mod judges;
mod periods;

use archive::{Judged, SLOTS};
use chance::Chance;
use judges::{by_factors, by_multiples, judge, Task};
use periods::{logarithm, of_one_cycle};
use std::hint::black_box;
use std::time::Instant;

const SEED: u64 = 3;
const SETS: usize = 4_000;
const COUNTED: usize = 400;
const TASKS: [usize; 3] = [4, 8, 16];
const ROUNDS: usize = 21;

/// The kinds of candidates by what their periods are, and what `agree` draws besides.
const KINDS: [(&str, Draw); 4] = [
    ("divisors", of_one_cycle),
    ("digits", two_digits),
    ("any", any),
    ("short", short),
];
const FAR: [Draw; 2] = [wide, limits];

/// The periods of a set of so many tasks.
type Draw = fn(&mut Chance, usize) -> Vec<u32>;

fn main() {
    let asked: Vec<String> = std::env::args().skip(1).collect();
    match asked.iter().map(String::as_str).collect::<Vec<_>>()[..] {
        [] => times(),
        ["agree"] => agree(),
        [side, kind, tasks, times] => {
            let [tasks, times] = [tasks, times].map(|number| number.parse().expect("a number"));
            repeat(side, kind, tasks, times);
        }
        _ => panic!("nothing, agree, or SIDE KIND TASKS TIMES"),
    }
}

// ---- Candidates ----

/// Lengths with two digits that are not 0 at most: 47, 1,300, 20,000.
fn two_digits(chance: &mut Chance, n: usize) -> Vec<u32> {
    let rounded = |length: f64| {
        let unit = 10_f64.powf(length.log10().floor() - 1.0);
        ((length / unit).round() * unit).round() as u32
    };
    (0..n).map(|_| rounded(logarithm(chance).exp())).collect()
}

/// Any whole number of ticks.
fn any(chance: &mut Chance, n: usize) -> Vec<u32> {
    let period = |_| logarithm(chance).exp().round() as u32;
    (0..n).map(period).collect()
}

/// Multiples of 4 up to 64 ticks.
fn short(chance: &mut Chance, n: usize) -> Vec<u32> {
    (0..n).map(|_| 4 * chance.between(1, 16) as u32).collect()
}

/// Numbers of up to 32 bits, many next to powers of two.
fn wide(chance: &mut Chance, n: usize) -> Vec<u32> {
    (0..n).map(|_| (chance.field() as u32).max(1)).collect()
}

/// Divisors of a number of ticks that is at the limit or close to it.
fn limits(chance: &mut Chance, n: usize) -> Vec<u32> {
    let cycle = chance.pick(&[65_280, 65_520, 65_534, 65_535, 65_536, 65_792, 131_070]);
    let divisors: Vec<u32> = (1..=cycle).filter(|d| cycle % d == 0).collect();
    (0..n).map(|_| chance.pick(&divisors)).collect()
}

/// A set that keeps the rules of its tasks, in the order of its periods.
fn set(chance: &mut Chance, draw: Draw, n: usize) -> Vec<Task> {
    let mut periods = draw(chance, n);
    periods.sort_unstable();
    let mut task = |period: u32| {
        let deadline = chance.between(1, period.into()) as u32;
        let offset = chance.below(u64::from(period - deadline) + 1) as u32;
        [
            offset,
            chance.between(1, deadline.into()) as u32,
            period,
            deadline,
        ]
    };
    periods.into_iter().map(&mut task).collect()
}

// ---- The sides ----

type Slots = [Task; SLOTS];

/// The three that judge, by their names.
const SIDES: [(&str, fn(u32, &Slots) -> Judged); 3] = [
    ("archive", asked),
    ("multiples", |n, tasks| judge(n, tasks, by_multiples)),
    ("factors", |n, tasks| judge(n, tasks, by_factors)),
];

/// The archive's answer.
fn asked(n: u32, tasks: &Slots) -> Judged {
    let (mut place, mut hyperperiod, mut jobs) = (0, 0, 0);
    let numbers = tasks.as_ptr().cast();
    // SAFETY: 64 numbers are lent, and no two regions overlap.
    match unsafe { archive::hv_judge_set(n, numbers, &mut place, &mut hyperperiod, &mut jobs) } {
        0 => Ok((hyperperiod, jobs)),
        number => Err((number, place)),
    }
}

/// So many sets of a kind with n tasks.
fn candidates(draw: Draw, n: usize, many: usize) -> Vec<Slots> {
    let mut chance = Chance::new(SEED);
    let mut slots = || {
        let mut slots = [[0; 4]; SLOTS];
        slots[..n].copy_from_slice(&set(&mut chance, draw, n));
        slots
    };
    (0..many).map(|_| slots()).collect()
}

/// How many of the sets a side finds good.
fn good(side: fn(u32, &Slots) -> Judged, n: usize, sets: &[Slots]) -> usize {
    let judged = sets.iter().map(|set| side(n as u32, black_box(set)));
    judged.filter(Judged::is_ok).count()
}

/// Asks one side the first sets so many times.
fn repeat(side: &str, kind: &str, n: usize, times: usize) {
    let (_, side) = SIDES.into_iter().find(|s| s.0 == side).expect("a side");
    let (_, draw) = KINDS.into_iter().find(|k| k.0 == kind).expect("a kind");
    let sets = candidates(draw, n, COUNTED);
    for _ in 0..times {
        black_box(good(side, n, &sets));
    }
}

/// For each kind and number of tasks: how many sets are good, or refused with 8 and with 9, and the least time of each side over all
/// rounds, in nanoseconds a set.
fn times() {
    println!("periods   tasks  good     8     9  archive ns  multiples ns  factors ns");
    for (kind, draw) in KINDS {
        for n in TASKS {
            let sets = candidates(draw, n, SETS);
            let numbers = sets
                .iter()
                .map(|set| number(judge(n as u32, set, by_factors)));
            let numbers: Vec<u32> = numbers.collect();
            let count = |number| numbers.iter().filter(|n| **n == number).count();
            let [passed, long, many] = [0, 8, 9].map(count);
            assert_eq!(passed + long + many, SETS, "another refusal");
            let mut least = [f64::INFINITY; 3];
            for _ in 0..ROUNDS {
                for ((_, side), least) in SIDES.into_iter().zip(&mut least) {
                    let begin = Instant::now();
                    let good = good(side, n, &sets);
                    *least = least.min(begin.elapsed().as_nanos() as f64 / SETS as f64);
                    assert_eq!(good, passed, "{kind}, {n} tasks");
                }
            }
            let [archive, multiples, factors] = least;
            println!(
                "{kind:<9} {n:>5} {passed:>5} {long:>5} {many:>5} {archive:>11.1} {multiples:>13.1} \
                 {factors:>11.1}"
            );
        }
    }
}

/// The number of a refusal, 0 where there is none.
fn number(judged: Judged) -> u32 {
    judged.map_or_else(|(number, _)| number, |_| 0)
}

// ---- Agreement ----

/// All three answer alike: for candidates, for wide periods and about the limits, and for each of these with one number changed.
fn agree() {
    let mut chance = Chance::new(SEED);
    let mut came = [0; 10];
    let mut above = [0; 2];
    let mut ask = |n: u32, tasks: &[Task]| {
        let case = format!("set {n} {tasks:?}");
        let answer = archive::judge_set(&case, n, tasks);
        for way in [by_multiples, by_factors] {
            assert_eq!(answer, judge(n, tasks, way), "{case}");
        }
        came[number(answer) as usize] += 1;
        if answer == Err((8, 0)) {
            for (bits, above) in [32, 64].into_iter().zip(&mut above) {
                *above += usize::from(passes(tasks, bits));
            }
        }
    };
    for draw in KINDS.map(|(_, draw)| draw).into_iter().chain(FAR) {
        for _ in 0..SETS {
            let n = chance.between(1, SLOTS as u64) as usize;
            let mut tasks = set(&mut chance, draw, n);
            ask(n as u32, &tasks);
            let (task, number) = (chance.index(n), chance.index(4));
            tasks[task][number] = chance.field() as u32;
            ask(n as u32, &tasks);
        }
    }
    for n in [0, 17, 257, u32::MAX] {
        ask(n, &[[0, 1, 1, 1]; SLOTS]);
    }
    for number in [0, 5, 6, 7, 8, 9] {
        assert!(came[number] > 0, "{number} never came");
    }
    assert!(above.iter().all(|sets| *sets > 0), "no product passes");
    let (all, good, [wide, wider]) = (came.iter().sum::<usize>(), came[0], above);
    println!(
        "{all} sets judged in three ways, 0 differ: {good} good, 5 to 9 {:?};",
        &came[5..]
    );
    println!("with more than 32 bits in the least common multiple {wide}, more than 64 {wider}");
}

/// Whether the least common multiple of the periods has more than so many bits.
fn passes(tasks: &[Task], bits: u32) -> bool {
    let mut multiple: u128 = 1;
    for task in tasks {
        let period = u128::from(task[2]);
        let (mut divisor, mut rest) = (multiple, period);
        while rest > 0 {
            (divisor, rest) = (rest, divisor % rest);
        }
        multiple *= period / divisor;
        if multiple >> bits > 0 {
            return true;
        }
    }
    false
}
