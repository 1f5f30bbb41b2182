//! Lines of images for the report program, each as a case with the report of the independent implementation: `lines SEED COUNT`
//! prints those of images of about 65,536 bytes and so many random ones.

#![allow(dead_code)]

#[path = "../independent/chance.rs"]
mod chance;
#[path = "../independent/damage.rs"]
mod damage;
#[path = "../independent/dispatcher.rs"]
mod dispatcher;
#[path = "../independent/form.rs"]
mod form;
#[path = "../compare/images.rs"]
mod images;
#[path = "../independent/independent.rs"]
mod independent;
#[path = "../independent/landed.rs"]
mod landed;
#[path = "../compare/lines.rs"]
mod lines;
#[path = "../independent/sets.rs"]
mod sets;
#[path = "../compare/shapes.rs"]
mod shapes;
#[path = "../independent/spare.rs"]
mod spare;

use chance::Chance;
use second::landed::LANDED;

fn main() {
    let numbers = std::env::args().skip(1);
    let numbers: Vec<u64> = numbers
        .map(|word| word.parse().expect("a number"))
        .collect();
    let [seed, count] = numbers[..] else {
        panic!("usage: lines SEED COUNT");
    };
    let mut chance = Chance::new(seed);
    let random = (0..count).map(|_| lines::line(&mut chance));
    let accepted = lines::longest().into_iter();
    let accepted = accepted.filter(|case| case.starts_with("report"));
    let fixed = lines::lengths().into_iter().chain(accepted);
    for case in fixed.chain(random) {
        let answer = second::answer(LANDED, &case).expect("the case can be read");
        println!("{case} => {answer}");
    }
}
