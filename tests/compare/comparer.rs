//! Compares the archive with a second opinion: over fixed cases at the edges of the rules, over
//! random cases, journeys of an intake and lines of images, and over every timetable and every table
//! image of some small sets; the table images of all these are also fed to the archive in fragments.
//! `compare SEED CASES [MOST]` asks so many random cases and ends early after so many differences,
//! 100 where nothing is said. A difference is a line `CASE => ANSWER` with the second opinion; the
//! archive's own answer is told on standard error, as is the progress. Then comes how often each
//! number was given and at how many places; it fails too where one never came, or a part of the
//! cases was not asked. The last line is the count, with that of the cases of 4 GiB.
//! `compare print SEED CASES` asks the archive nothing: it prints the fixed cases, so many random
//! ones, the intake's journeys and the lines, each with the second opinion.

#[path = "../archive.rs"]
mod archive;
mod asking;
mod came;
mod cuts;
mod edges;
#[path = "../every.rs"]
mod every;
mod far;
mod images;
mod intakes;
mod large;
mod limits;
mod lines;
mod orders;
mod shapes;
mod states;
mod stream;
mod sweeps;
mod watch;
#[path = "../written.rs"]
mod written;

// What the generators of cases use: the second opinion has a copy of its own, so that a slip in it
// changes answers and not what is asked.
#[path = "../independent/cases.rs"]
mod cases;
#[path = "../independent/chance.rs"]
mod chance;
#[path = "../independent/damage.rs"]
mod damage;
#[path = "../independent/dispatcher.rs"]
mod dispatcher;
#[allow(dead_code)]
#[path = "../independent/form.rs"]
mod form;
#[allow(dead_code)]
#[path = "../independent/independent.rs"]
mod independent;
#[path = "../independent/journeys.rs"]
mod journeys;
#[allow(dead_code)]
#[path = "../independent/landed.rs"]
mod landed;
#[path = "../independent/rides.rs"]
mod rides;
#[path = "../independent/sets.rs"]
mod sets;
#[allow(dead_code)]
#[path = "../independent/spare.rs"]
mod spare;

use asking::Asking;
use std::io::{stdout, BufWriter, Write};
use std::process::ExitCode;

/// An implementation's answer to a case in its written form; none where it cannot be read.
pub type Opinion = fn(&str) -> Option<String>;

const MOST_DIFFERENCES: u64 = 100;

/// Compares as the arguments say.
pub fn compare(arguments: &[String], second: Opinion) -> ExitCode {
    if let [print, seed, count] = arguments {
        if print == "print" {
            return print_cases(seed.parse().ok(), count.parse().ok(), second);
        }
    }
    let numbers: Vec<Option<u64>> = arguments.iter().map(|word| word.parse().ok()).collect();
    let (seed, count, most) = match numbers[..] {
        [Some(seed), Some(count)] => (seed, count, MOST_DIFFERENCES),
        [Some(seed), Some(count), Some(most)] => (seed, count, most),
        _ => {
            eprintln!("usage: compare SEED CASES [MOST] or compare print SEED CASES");
            return ExitCode::from(2);
        }
    };
    watch::begin();
    compare_all(seed, count, most, second)
}

/// Asks all parts, so many random cases among them.
fn compare_all(seed: u64, count: u64, most: u64, second: Opinion) -> ExitCode {
    let (journeys, lines) = (count / intakes::ONE_IN, count / lines::ONE_IN);
    let wanted = edges::ABOUT + count + journeys + lines + every::ABOUT;
    let mut asking = Asking::new(second, most, wanted);
    let random = stream::Stream::new(seed).take(count as usize);
    let intakes = intakes::journeys(seed, count);
    asking.bus.everywhere = true;
    let fixed = part(&mut asking, "fixed cases", |all| {
        all.ask_each(edges::cases())
    });
    asking.bus.everywhere = false;
    let drawn = part(&mut asking, "random cases", |all| all.ask_each(random));
    let went = part(&mut asking, "journeys of an intake", |all| {
        all.ask_each(intakes)
    });
    let in_line = part(&mut asking, "lines of images", |all| {
        all.ask_each(lines::random(seed, count))
    });
    let small = part(&mut asking, "cases of small sets", every::compare_all);
    let far = part(&mut asking, "cases of 4 GiB", far::compare_all);
    let (cut, in_two) = (asking.bus.cut, asking.bus.in_two);
    if !asking.over() {
        println!("{cut} images cut at random, {in_two} times a small one in two");
    }
    let least = [
        ("fixed cases", fixed, edges::ABOUT / 2),
        ("random cases", drawn, count),
        ("journeys of an intake", went, journeys),
        ("lines of images", in_line, lines),
        ("cases of small sets", small, every::ABOUT / 2),
        ("images cut at random", cut, wanted / 4),
        ("images cut in two", in_two, cuts::ABOUT_IN_TWO / 2),
    ];
    let few = least.iter().filter(|(_, asked, least)| asked < least);
    let few = few.map(|(name, asked, least)| format!("{asked} {name}, and not {least} at least"));
    verdict(&asking, few.collect(), far)
}

/// Prints the fixed cases, so many random ones, the intake's journeys and the lines, each with the second
/// opinion.
fn print_cases(seed: Option<u64>, count: Option<usize>, second: Opinion) -> ExitCode {
    let (Some(seed), Some(count)) = (seed, count) else {
        eprintln!("usage: compare print SEED CASES");
        return ExitCode::from(2);
    };
    let mut out = BufWriter::new(stdout().lock());
    let random = stream::Stream::new(seed).take(count);
    let cases = edges::cases().chain(random);
    let cases = cases.chain(intakes::journeys(seed, count as u64));
    for case in cases.chain(lines::random(seed, count as u64)) {
        let answer = second(&case).expect("the case can be read");
        writeln!(out, "{case} => {answer}").expect("standard output can be written");
    }
    out.flush().expect("standard output can be written");
    ExitCode::SUCCESS
}

/// Asks one part of the cases, unless the end has come, and tells how many they were.
fn part(asking: &mut Asking, name: &str, ask: impl FnOnce(&mut Asking)) -> u64 {
    let before = asking.cases;
    if !asking.over() {
        ask(asking);
    }
    let count = asking.cases - before;
    if !asking.over() {
        println!("{count} {name}");
    }
    count
}

/// What was asked and what differs, and on a whole run what never came.
fn verdict(asking: &Asking, mut missing: Vec<String>, far: u64) -> ExitCode {
    let count = format!("{} cases, {} differ", asking.cases, asking.differ);
    if asking.over() {
        println!("{count}");
        return ExitCode::FAILURE;
    }
    asking.came.print();
    missing.extend(asking.came.missing());
    for line in &missing {
        println!("{line}");
    }
    let (last, enough) = far::report(far);
    println!("{count}, {last}");
    let passed = asking.differ == 0 && missing.is_empty() && enough;
    ExitCode::from(u8::from(!passed))
}
