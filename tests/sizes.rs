//! Measures what the technique is for: the bytes of a table image beside those of the timetable
//! image that it stands for, over random task sets made as far as the limits allow like document
//! 000's. Every timetable is checked, derived and rebuilt by the archive, and has to come back byte
//! for byte.

#[allow(dead_code)]
mod archive;
#[allow(dead_code)]
#[path = "independent/chance.rs"]
mod chance;
mod draws;
mod periods;

use archive::{check_timetable, derive, rebuild};
use chance::Chance;
use draws::{Job, Set, MOST_JOBS, TASKS};

const SEED: u64 = 1;
const SETS: usize = 1_000;

fn main() {
    let mut chance = Chance::new(SEED);
    let classes: Vec<Class> = TASKS.map(|n| Class::new(&mut chance, n)).collect();
    print_sizes(&classes);
    println!();
    print_draws(&classes);
}

/// The sets of so many tasks: what was drawn, and the sizes of their timetables.
#[derive(Default)]
struct Class {
    tasks: usize,
    too_many_jobs: usize,
    overloaded: usize,
    none_found: usize,
    priority: Vec<Sizes>,
    irregular: Vec<Sizes>,
    swapped: Vec<Sizes>,
}

impl Class {
    fn new(chance: &mut Chance, tasks: usize) -> Class {
        let mut class = Class {
            tasks,
            ..Class::default()
        };
        for number in 0..SETS {
            let set = class.draw(chance);
            class.add(&format!("set {number} of {tasks} tasks"), &set);
        }
        class
    }

    /// A set within the limits that does not ask for more than the processor has.
    fn draw(&mut self, chance: &mut Chance) -> Set {
        loop {
            let set = Set::draw(chance, self.tasks);
            if set.jobs() > MOST_JOBS {
                self.too_many_jobs += 1;
            } else if set.busy() > set.hyperperiod {
                self.overloaded += 1;
            } else {
                return set;
            }
        }
    }

    /// Measures the set's timetable by priority, or where that is late the one by CW-EDF.
    fn add(&mut self, case: &str, set: &Set) {
        if let Some(jobs) = set.timetable(Set::by_priority) {
            let sizes = measure(case, set, &jobs);
            assert_eq!(sizes.records(), 0, "a record by priority: {case}");
            self.priority.push(sizes);
        } else if let Some(jobs) = set.timetable(Set::by_cw_edf) {
            let before = measure(case, set, &jobs);
            let after = measure(case, set, &set.swapped(jobs));
            assert!(after.records() > 0, "it is that by priority: {case}");
            assert_eq!(after.idles, before.idles, "an idle is changed: {case}");
            assert!(after.inversions <= before.inversions, "added: {case}");
            self.irregular.push(before);
            self.swapped.push(after);
        } else {
            self.none_found += 1;
        }
    }
}

// ---- Sizes ----

/// What is counted of a timetable.
struct Sizes {
    utilization: f64,
    jobs: usize,
    gaps: usize,
    idles: usize,
    inversions: usize,
    timetable: usize,
    tables: usize,
}

impl Sizes {
    fn records(&self) -> usize {
        self.idles + self.inversions
    }

    /// The bytes of document 000's stored table: 4 for each job and for each gap.
    fn stored(&self) -> usize {
        4 * (self.jobs + self.gaps)
    }

    /// The bytes of document 000's irregularity tables: 6 a record.
    fn irregular(&self) -> usize {
        6 * self.records()
    }
}

/// The sizes of a timetable, which the archive has to accept and to rebuild from its tables.
fn measure(case: &str, set: &Set, jobs: &[Job]) -> Sizes {
    let image = set.image(jobs);
    assert_eq!(check_timetable(&case, &image), Ok(()), "{case}");
    // Room for an ID, 8 bytes, and a PV, 9, in the place of each SL, 7.
    let tables = derive(&case, image.len() + 10 * jobs.len(), &image).expect(case);
    let rebuilt = rebuild(&case, image.len(), &tables).expect(case);
    assert!(rebuilt == image, "another timetable is rebuilt: {case}");
    let (idles, inversions) = irregularities(&tables, set.tasks.len());
    Sizes {
        utilization: f64::from(set.busy()) / f64::from(set.hyperperiod),
        jobs: jobs.len(),
        gaps: set.gaps(jobs),
        idles,
        inversions,
        timetable: image.len(),
        tables: tables.len(),
    }
}

/// The ID and the PV records of a table image, which stand between the tasks and EN.
fn irregularities(tables: &[u8], n: usize) -> (usize, usize) {
    let records = &tables[5 + 18 * n..tables.len() - 6];
    let idles = records.chunks(8).take_while(|id| id.starts_with(b"ID"));
    let idles = idles.count();
    (idles, (records.len() - 8 * idles) / 9)
}

// ---- The tables that are printed ----

fn print_sizes(classes: &[Class]) {
    println!(
        "| tasks | timetable by | sets | utilization | jobs | records | records/jobs \
         | timetable image | table image | ratio | 10th | 90th | most \
         | mean idles | mean inversions | 000: stored | 000: irregular |"
    );
    println!("|{}", "---|".repeat(17));
    for class in classes {
        print_row(class.tasks, "priority", &class.priority);
        print_row(class.tasks, "CW-EDF", &class.irregular);
        print_row(class.tasks, "CW-EDF, swapped", &class.swapped);
    }
}

/// Medians, the ratio's percentiles, and means, which document 000 gives.
fn print_row(tasks: usize, made: &str, sizes: &[Sizes]) {
    assert!(!sizes.is_empty(), "no set of {tasks} tasks: {made}");
    let middle = |of: fn(&Sizes) -> usize| grouped(percentile(sizes, 50, |s| of(s) as f64));
    let share = |s: &Sizes| s.records() as f64 / s.jobs as f64;
    let ratio = |s: &Sizes| s.tables as f64 / s.timetable as f64;
    println!(
        "| {tasks} | {made} | {} | {:.2} | {} | {} | {:.3} | {} | {} | {:.3} | {:.3} | {:.3} | {:.3} \
         | {:.1} | {:.1} | {} | {} |",
        sizes.len(),
        percentile(sizes, 50, |s| s.utilization),
        middle(|s| s.jobs),
        middle(Sizes::records),
        percentile(sizes, 50, share),
        middle(|s| s.timetable),
        middle(|s| s.tables),
        percentile(sizes, 50, ratio),
        percentile(sizes, 10, ratio),
        percentile(sizes, 90, ratio),
        percentile(sizes, 100, ratio),
        mean(sizes, |s| s.idles),
        mean(sizes, |s| s.inversions),
        grouped(mean(sizes, Sizes::stored)),
        grouped(mean(sizes, Sizes::irregular)),
    );
}

fn print_draws(classes: &[Class]) {
    println!(
        "| tasks | drawn again: above 4,096 jobs | drawn again: utilization above 1 | sets \
         | by priority | by CW-EDF | none found |"
    );
    println!("|{}", "---|".repeat(7));
    for class in classes {
        println!(
            "| {} | {} | {} | {} | {} | {} | {} |",
            class.tasks,
            grouped(class.too_many_jobs as f64),
            grouped(class.overloaded as f64),
            grouped(SETS as f64),
            class.priority.len(),
            class.irregular.len(),
            class.none_found,
        );
    }
}

/// The value at so many hundredths of the way through the sorted values.
fn percentile(sizes: &[Sizes], percent: usize, of: impl Fn(&Sizes) -> f64) -> f64 {
    let mut values: Vec<f64> = sizes.iter().map(of).collect();
    values.sort_by(f64::total_cmp);
    values[(values.len() - 1) * percent / 100]
}

fn mean(sizes: &[Sizes], of: fn(&Sizes) -> usize) -> f64 {
    sizes.iter().map(of).sum::<usize>() as f64 / sizes.len() as f64
}

/// A whole number with a comma before its last three digits.
fn grouped(value: f64) -> String {
    let value = value.round() as u64;
    match value {
        0..=999 => value.to_string(),
        _ => format!("{},{:03}", value / 1_000, value % 1_000),
    }
}
