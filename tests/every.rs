//! Every timetable and every table image of some small sets. The valid timetables of a set are found
//! by search: a timetable image is accepted exactly where it is one of these, and derived into its
//! tables; a table image exactly where one of these has it, and it is rebuilt to that one and
//! dispatched as that one.

use crate::asking::Asking;
use crate::damage::recount;
use crate::form::image_text;
use crate::independent::{
    encode, irregularities, table_records, timetable_records, Entry, Idle, Inversion, Record, Set,
    Tables, Task, TODAY,
};
use std::collections::BTreeMap;

/// About so many cases are asked.
pub const ABOUT: u64 = 190_000;

/// The tasks of the sets, O, C, T and D.
const SETS: [&[[u64; 4]]; 7] = [
    &[[0, 1, 1, 1]],
    &[[2, 1, 7, 4]],
    &[[0, 1, 2, 2], [0, 1, 4, 4]],
    &[[1, 1, 3, 2], [0, 2, 6, 6]],
    &[[0, 1, 3, 3], [1, 1, 6, 5], [0, 1, 6, 6]],
    &[[0, 1, 5, 5], [1, 1, 5, 4], [0, 1, 5, 4]],
    &[[0, 1, 6, 6], [0, 1, 6, 6], [0, 2, 6, 6]],
];

/// Timetables are gone through where there are at most so many.
const MOST_TIMETABLES: usize = 15_000;

/// The entries of valid timetables, each under its table image.
type Timetables = BTreeMap<Vec<u8>, Vec<Entry>>;

/// Asks about every image of the sets.
pub fn compare_all(asking: &mut Asking) {
    for tasks in SETS {
        let set = set_of(tasks);
        let timetables = timetables_by_tables(&set);
        every_timetable(asking, &set, &timetables);
        every_tables(asking, &set, &timetables);
        for inner in short_lists(&set) {
            about_tables(asking, &set, &timetables, &image_of(&set, &inner));
        }
    }
}

fn set_of(tasks: &[[u64; 4]]) -> Set {
    let tasks: Vec<Task> = tasks
        .iter()
        .map(|&[offset, time, period, deadline]| Task {
            offset,
            time,
            period,
            deadline,
        })
        .collect();
    TODAY
        .judge_set(tasks.len() as u64, &tasks)
        .expect("the set is good")
}

/// Asks about every list of ID and PV records that keep their rule.
fn every_tables(asking: &mut Asking, set: &Set, timetables: &Timetables) {
    let mut found = 0;
    let inversions = inversion_lists(set);
    for idles in idle_lists(0, set.hyperperiod) {
        for inversions in &inversions {
            let (idles, inversions) = (idles.clone(), inversions.clone());
            let image = encode(&table_records(set, &Tables { idles, inversions }));
            found += usize::from(timetables.contains_key(&image));
            about_tables(asking, set, timetables, &image);
        }
    }
    assert_eq!(found, timetables.len(), "every table image is gone through");
}

/// Asks about every list of up to as many entries as there are jobs, with each task number up to n
/// and each start up to H, where they are not too many.
fn every_timetable(asking: &mut Asking, set: &Set, timetables: &Timetables) {
    let mut each = Vec::new();
    for task in 0..=set.tasks.len() {
        each.extend((0..=set.hyperperiod).map(|start| Entry { task, start }));
    }
    let jobs = set.all_jobs() as u32;
    if each.len().saturating_pow(jobs) > MOST_TIMETABLES {
        return;
    }
    let valid: BTreeMap<Vec<u8>, &Vec<u8>> = timetables
        .iter()
        .map(|(tables, entries)| (encode(&timetable_records(set, entries)), tables))
        .collect();
    let mut found = 0;
    let mut lists = vec![Vec::new()];
    for _ in 0..jobs {
        lists = longer(&lists, &each);
        for entries in &lists {
            let image = encode(&timetable_records(set, entries));
            found += usize::from(valid.contains_key(&image));
            about_timetable(asking, valid.get(&image).copied(), &image);
        }
    }
    assert_eq!(found, timetables.len(), "every timetable is gone through");
}

/// Each list with each entry behind it.
fn longer(lists: &[Vec<Entry>], each: &[Entry]) -> Vec<Vec<Entry>> {
    let with_each = |list: &Vec<Entry>| {
        let list = list.clone();
        each.iter()
            .map(move |entry| [&list[..], &[*entry]].concat())
    };
    lists.iter().flat_map(with_each).collect()
}

// ---- One image ----

/// A timetable image is accepted exactly where it is valid, and then derived into these tables.
fn about_timetable(asking: &mut Asking, tables: Option<&Vec<u8>>, image: &[u8]) {
    let text = image_text(image);
    demand(asking, &format!("check1 {text}"), tables.map(|_| "ok"));
    if let Some(tables) = tables {
        let (length, result) = (tables.len(), image_text(tables));
        let case = format!("derive {length} {text}");
        demand(asking, &case, Some(&format!("ok {length} {result}")));
    }
}

/// A table image is accepted exactly where a valid timetable has it, and is then turned into that
/// one, dispatched so over three cycles, and asked for its figures.
fn about_tables(asking: &mut Asking, set: &Set, timetables: &Timetables, image: &[u8]) {
    let text = image_text(image);
    let entries = timetables.get(image);
    demand(asking, &format!("check2 {text}"), entries.map(|_| "ok"));
    let Some(entries) = entries else {
        demand(asking, &format!("begin {text}"), None);
        return;
    };
    let timetable = encode(&timetable_records(set, entries));
    let (length, result) = (timetable.len(), image_text(&timetable));
    let case = format!("rebuild {length} {text}");
    demand(asking, &case, Some(&format!("ok {length} {result}")));
    let case = format!("run {} {text}", 3 * entries.len());
    demand(asking, &case, Some(&starts(set, entries)));
    let room = 3 + set.tasks.len() + 2 * entries.len() + 1;
    asking.ask_each(std::iter::once(format!("figures {room} {text}")));
}

/// Asks a case whose answer the search knows; none stands for a refusal.
fn demand(asking: &mut Asking, case: &str, expected: Option<&str>) {
    if asking.over() {
        return;
    }
    let before = asking.differ;
    let answer = asking.ask(case);
    let right = match expected {
        Some(expected) => answer == expected,
        None => answer.starts_with("refused"),
    };
    if !right && asking.differ == before {
        asking.compare(
            case,
            expected.unwrap_or("a refusal: no valid timetable"),
            &answer,
        );
    }
}

/// The starts of three cycles of the entries.
fn starts(set: &Set, entries: &[Entry]) -> String {
    let mut starts = Vec::new();
    for cycle in 0..3 {
        let mut next = vec![0; set.tasks.len()];
        for Entry { task, start } in entries {
            let time = cycle * set.hyperperiod + start;
            starts.push(format!("{task} {} {cycle} {time}", next[*task]));
            next[*task] += 1;
        }
    }
    starts.join("|")
}

// ---- The timetables ----

/// All valid timetables; no two have the same tables.
fn timetables_by_tables(set: &Set) -> Timetables {
    let mut found = BTreeMap::new();
    let mut next = vec![0; set.tasks.len()];
    search(set, &mut next, &mut Vec::new(), &mut |entries| {
        let tables = encode(&table_records(set, &irregularities(set, entries)));
        let other = found.insert(tables, entries.to_vec());
        assert_eq!(other, None, "two timetables have the same tables");
    });
    found
}

/// Calls `each` with every valid timetable that begins with these entries.
fn search(set: &Set, next: &mut [u64], entries: &mut Vec<Entry>, each: &mut impl FnMut(&[Entry])) {
    if entries.len() as u64 == set.all_jobs() {
        return each(entries);
    }
    let free = entries
        .last()
        .map_or(0, |entry| entry.start + set.tasks[entry.task].time);
    for task in 0..set.tasks.len() {
        if next[task] == set.jobs(task) {
            continue;
        }
        let (release, due) = (
            set.tasks[task].release(next[task]),
            set.tasks[task].due(next[task]),
        );
        for start in free.max(release)..=due - set.tasks[task].time {
            next[task] += 1;
            entries.push(Entry { task, start });
            search(set, next, entries, each);
            entries.pop();
            next[task] -= 1;
        }
    }
}

// ---- The table images ----

/// Every list of ID records that keep their rule, none of which starts before the instant.
fn idle_lists(from: u64, hyperperiod: u64) -> Vec<Vec<Idle>> {
    let mut lists = vec![Vec::new()];
    for start in from..hyperperiod {
        for length in 1..hyperperiod - start {
            for rest in idle_lists(start + length + 1, hyperperiod) {
                lists.push([vec![Idle { start, length }], rest].concat());
            }
        }
    }
    lists
}

/// Every list of PV records that keep their rule.
fn inversion_lists(set: &Set) -> Vec<Vec<Inversion>> {
    let mut lists = vec![Vec::new()];
    for (task, job) in all_jobs(set) {
        let most = set.tasks[task].deadline - set.tasks[task].time;
        let shorter = lists.clone();
        for delay in 0..=most {
            let inversion = Inversion { task, job, delay };
            let longer = shorter
                .iter()
                .map(|list| [&list[..], &[inversion]].concat());
            lists.extend(longer);
        }
    }
    lists
}

/// Each task with the number of each of its jobs.
fn all_jobs(set: &Set) -> Vec<(usize, u64)> {
    (0..set.tasks.len())
        .flat_map(|task| (0..set.jobs(task)).map(move |job| (task, job)))
        .collect()
}

/// Every list of up to two records, each of whose numbers goes up to one above its range.
fn short_lists(set: &Set) -> Vec<Vec<Record>> {
    let mut records = Vec::new();
    for start in 0..=set.hyperperiod {
        for length in 0..=set.hyperperiod {
            records.push(Record::Id(Idle { start, length }));
        }
    }
    for task in 0..=set.tasks.len() {
        let known = task.min(set.tasks.len() - 1);
        let most = set.tasks[known].deadline - set.tasks[known].time;
        for job in 0..=set.jobs(known) {
            for delay in 0..=most + 1 {
                records.push(Record::Pv(Inversion { task, job, delay }));
            }
        }
    }
    let mut lists = vec![Vec::new()];
    for first in &records {
        lists.push(vec![*first]);
        lists.extend(records.iter().map(|second| vec![*first, *second]));
    }
    lists
}

/// The table image of a set with these records between the TKs and EN.
fn image_of(set: &Set, inner: &[Record]) -> Vec<u8> {
    let mut records = table_records(set, &Tables::default());
    let en = records.len() - 1;
    records.splice(en..en, inner.iter().copied());
    recount(&mut records);
    encode(&records)
}
