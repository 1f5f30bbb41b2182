//! Refusals of task sets in words: 6 to 9.

use crate::archive::Refusal;
use crate::records::{Image, Task};
use crate::wording::{at, by, explained, Broken, Explanation};

const LONGEST_HYPERPERIOD: u64 = 65_535;
const MOST_JOBS: u64 = 4_096;

pub fn task(image: &Image, refusal: Refusal) -> Option<Explanation> {
    let place = at(image, refusal);
    let tasks = image.tasks();
    let task = refusal.place.checked_sub(1)?;
    let own = *tasks.get(task)?;
    if refusal.number == 6 {
        let rule = "1 <= C <= D and O + D <= T";
        return explained(place, rule, own_rule(own));
    }
    let before = tasks.get(task.checked_sub(1)?)?.period;
    let below = before.checked_sub(own.period)?;
    let text = format!(
        "T is {}, {below} below the {before} of task {}",
        own.period,
        task - 1
    );
    let rule = "periods do not fall from one task to the next";
    explained(place, rule, vec![by(below, text)])
}

fn own_rule(task: Task) -> Vec<Broken> {
    let Task {
        offset: o,
        time: c,
        period: t,
        deadline: d,
    } = task;
    let mut broken = Vec::new();
    if c == 0 {
        broken.push(by(1, "C is 0, 1 too few".into()));
    }
    if c > d {
        broken.push(by(c - d, format!("C is {c}, {} above D, {d}", c - d)));
    }
    if o + d > t {
        let above = o + d - t;
        broken.push(by(
            above,
            format!("O + D is {}, {above} above T, {t}", o + d),
        ));
    }
    broken
}

pub fn cycle(image: &Image, number: u32) -> Option<Explanation> {
    let tasks = image.tasks();
    let periods: Vec<String> = tasks.iter().map(|task| task.period.to_string()).collect();
    let place = format!("the set as a whole: periods {}", periods.join(", "));
    let mut multiple = 1;
    for (index, task) in tasks.iter().enumerate() {
        multiple = multiple / common_divisor(multiple, task.period) * task.period;
        if multiple > LONGEST_HYPERPERIOD && number == 8 {
            let above = multiple - LONGEST_HYPERPERIOD;
            let text = format!("with task {index} it comes to {multiple}, {above} above");
            let rule =
                "the hyperperiod, the least common multiple of the periods, is at most 65535";
            return explained(place, rule, vec![by(above, text)]);
        }
    }
    let jobs: u64 = tasks.iter().map(|task| multiple / task.period).sum();
    let above = jobs.checked_sub(MOST_JOBS)?;
    let text = format!("in a cycle of {multiple} they have {jobs}, {above} above");
    let rule = "all tasks together have at most 4096 jobs a cycle";
    explained(place, rule, vec![by(above, text)])
}

fn common_divisor(a: u64, b: u64) -> u64 {
    if b == 0 {
        a
    } else {
        common_divisor(b, a % b)
    }
}
