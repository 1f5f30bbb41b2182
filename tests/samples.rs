//! The sample images, built from the numbers of documents 01, 000 and 001: `samples FOLDER` compares the files in the folder
//! with them, `samples --write FOLDER` writes those that are not there as they should be.

#[allow(dead_code)]
#[path = "independent/independent.rs"]
mod independent;
#[allow(dead_code)]
#[path = "independent/landed.rs"]
mod landed;

use independent::{
    encode, instant_with_waiting, irregularities, waiting, Entry, Idle, Inversion, Record, Set,
    Task, TABLES, TIMETABLE, TODAY,
};
use std::fs;
use std::path::Path;
use std::process::ExitCode;

type Tasks = [[u64; 4]];

/// O, C, T and D of the set to work by hand.
const BY_HAND: &Tasks = &[[0, 1, 5, 5], [0, 2, 10, 10], [0, 6, 20, 20]];

/// The set of document 000's figures 1 and 5, whose tasks have C, T and D alone, and the schedule of its figure 1 (samples/README.md says how
/// the starts follow from the words of the paper).
const FIGURE_1: &Tasks = &[[0, 3, 10, 10], [0, 6, 12, 12], [0, 8, 60, 60]];
const FIGURE_1_STARTS: [(usize, u64); 12] = [
    (0, 0),
    (1, 3),
    (0, 10),
    (1, 13),
    (2, 19),
    (0, 27),
    (1, 30),
    (0, 36),
    (1, 39),
    (0, 45),
    (1, 48),
    (0, 54),
];

/// The tasks of document 001's figure 2, part A, each with one job (samples/README.md has them by their names there).
const FIGURE_2: &Tasks = &[[0, 1, 16, 5], [0, 3, 16, 7], [7, 2, 16, 4], [13, 1, 16, 3]];

/// 200, 100, 50, 25, 16, 8 and 1 jobs in a cycle of 2,000 ticks.
const DRIVE: &Tasks = &[
    [0, 3, 10, 6],
    [3, 2, 20, 16],
    [0, 4, 40, 40],
    [3, 6, 80, 22],
    [10, 5, 125, 24],
    [25, 7, 250, 25],
    [60, 7, 2_000, 30],
];

const P1: [(usize, u64); 7] = [(0, 0), (1, 1), (2, 3), (0, 9), (0, 10), (1, 11), (0, 15)];
const P2: [(usize, u64); 7] = [(0, 0), (2, 1), (1, 7), (0, 9), (0, 12), (1, 13), (0, 15)];

/// The place of job 1 of task 0 among P2's entries.
const JOB_1: usize = 3;

fn main() -> ExitCode {
    let words: Vec<String> = std::env::args().skip(1).collect();
    let words: Vec<&str> = words.iter().map(String::as_str).collect();
    let differ = match words[..] {
        [folder] => compare(Path::new(folder)),
        ["--write", folder] => write(Path::new(folder)),
        _ => {
            eprintln!("usage: samples [--write] FOLDER");
            return ExitCode::from(2);
        }
    };
    ExitCode::from(u8::from(differ > 0))
}

/// Counts the samples that are not in the folder as they should be, and the images there that are no sample.
fn compare(folder: &Path) -> usize {
    let samples = samples();
    let mut differ = 0;
    for (name, image) in &samples {
        if fs::read(folder.join(name)).ok().as_ref() != Some(image) {
            println!("{name} is not as it should be");
            differ += 1;
        }
    }
    for file in fs::read_dir(folder).expect("the folder can be read") {
        let name = file.expect("the folder can be read").file_name();
        let name = name.to_string_lossy();
        let image = name.ends_with(".image") || name.ends_with(".images");
        if image && !samples.iter().any(|(known, _)| *known == name) {
            println!("{name} is no sample");
            differ += 1;
        }
    }
    println!("{} samples, {differ} differ", samples.len());
    differ
}

fn write(folder: &Path) -> usize {
    for (name, image) in samples() {
        let path = folder.join(name);
        if fs::read(&path).ok().as_ref() != Some(&image) {
            fs::write(path, image).expect("the folder can be written");
        }
    }
    0
}

fn samples() -> Vec<(&'static str, Vec<u8>)> {
    let p11 = &[
        [0, 1, 16, 16],
        [0, 1, 65_520, 65_520],
        [0, 1, 65_520, 65_520],
    ];
    let p2 = tables(BY_HAND, &[(10, 2)], &[(1, 0, 7), (2, 0, 1)]);
    let figure_1 = tables(FIGURE_1, &[(9, 1)], &[(1, 2, 6)]);
    let figure_2 = tables(FIGURE_2, &[], &[]);
    let line = [&p2[..], &figure_2, &figure_1].concat();
    let drive = drive_timetable();
    vec![
        ("p1.timetable.image", timetable(BY_HAND, &P1)),
        ("p1.tables.image", tables(BY_HAND, &[], &[])),
        ("p2.timetable.image", timetable(BY_HAND, &P2)),
        ("p2.image", p2),
        (
            "p3.timetable.image",
            timetable(BY_HAND, &p2_with_job_1_at(10)),
        ),
        (
            "p4.timetable.image",
            timetable(BY_HAND, &p2_with_job_1_at(8)),
        ),
        (
            "p5.tables.image",
            tables(BY_HAND, &[(10, 5)], &[(1, 0, 7), (2, 0, 1)]),
        ),
        (
            "p6.tables.image",
            tables(BY_HAND, &[(10, 1), (11, 1)], &[(1, 0, 7), (2, 0, 1)]),
        ),
        ("p7.tables.image", tables(BY_HAND, &[], &[(2, 0, 3)])),
        ("p8.tables.image", tables(BY_HAND, &[(16, 2)], &[])),
        ("p9.timetable.image", timetable(&[[0, 1, 1, 1]], &[(0, 0)])),
        ("p9.tables.image", tables(&[[0, 1, 1, 1]], &[], &[])),
        (
            "p10.jobs.tables.image",
            tables(&[[0, 1, 3, 3], [0, 1, 65_535, 65_535]], &[], &[]),
        ),
        (
            "p10.hyperperiod.tables.image",
            tables(&[[0, 1, 2, 2], [0, 1, 65_535, 65_535]], &[], &[]),
        ),
        ("p11.timetable.image", timetable(&p11[..2], &p11_entries())),
        ("p11.tables.image", tables(&p11[..2], &[], &[])),
        ("p11.third.tables.image", tables(p11, &[], &[])),
        ("p12.image", Vec::new()),
        (
            "figure1.timetable.image",
            timetable(FIGURE_1, &FIGURE_1_STARTS),
        ),
        ("figure1.tables.image", figure_1),
        ("figure2.tables.image", figure_2),
        ("drive.timetable.image", timetable(DRIVE, &drive)),
        ("drive.tables.image", drive_tables(&drive)),
        ("line.images", line),
    ]
}

// ---- Images ----

fn timetable(tasks: &Tasks, entries: &[(usize, u64)]) -> Vec<u8> {
    let entry = |&(task, start)| Record::Sl(Entry { task, start });
    image(TIMETABLE, tasks, entries.iter().map(entry).collect())
}

/// A table image with these idles, start and length, and inversions, task, job and delay.
fn tables(tasks: &Tasks, idles: &[(u64, u64)], inversions: &[(usize, u64, u64)]) -> Vec<u8> {
    let idle = |&(start, length)| Record::Id(Idle { start, length });
    let inversion = |&(task, job, delay)| Record::Pv(Inversion { task, job, delay });
    let mut inner: Vec<Record> = idles.iter().map(idle).collect();
    inner.extend(inversions.iter().map(inversion));
    image(TABLES, tasks, inner)
}

fn image(kind: u64, tasks: &Tasks, inner: Vec<Record>) -> Vec<u8> {
    let n = tasks.len() as u64;
    let mut records = vec![Record::Ts {
        edition: 1,
        kind,
        n,
    }];
    records.extend(tasks.iter().map(|task| Record::Tk(task_of(task))));
    records.extend(inner);
    records.push(Record::En(records.len() as u64));
    encode(&records)
}

fn task_of(&[offset, time, period, deadline]: &[u64; 4]) -> Task {
    Task {
        offset,
        time,
        period,
        deadline,
    }
}

// ---- Entries ----

fn p2_with_job_1_at(start: u64) -> [(usize, u64); 7] {
    let mut entries = P2;
    entries[JOB_1].1 = start;
    entries
}

/// Task 0 every 16 ticks, and the one job of task 1 behind the first of these.
fn p11_entries() -> Vec<(usize, u64)> {
    let mut entries: Vec<(usize, u64)> = (0..65_520 / 16).map(|job| (0, 16 * job)).collect();
    entries.insert(1, (1, 1));
    entries
}

/// Nearest deadline first, as a planner on the desk might do it, waiting for a release where a job that
/// starts now would make the released one late. So it has forced idles and inversions.
fn drive_timetable() -> Vec<(usize, u64)> {
    let set = drive_set();
    let mut next = vec![0; DRIVE.len()];
    let mut entries = Vec::new();
    let mut free = 0;
    while let Some(instant) = instant_with_waiting(&set, &next, free) {
        let due = |task: &usize| set.tasks[*task].due(next[*task]);
        let waiting = (0..DRIVE.len()).filter(|&task| waiting(&set, &next, task, instant));
        let task = waiting.min_by_key(due).expect("a job waits at the instant");
        let end = instant + set.tasks[task].time;
        let in_the_way = (0..DRIVE.len()).find(|&other| {
            let release = set.tasks[other].release(next[other]);
            release > instant && end + set.tasks[other].time > set.tasks[other].due(next[other])
        });
        match in_the_way {
            Some(other) => free = set.tasks[other].release(next[other]),
            None => {
                entries.push((task, instant));
                next[task] += 1;
                free = end;
            }
        }
    }
    entries
}

fn drive_set() -> Set {
    let tasks: Vec<Task> = DRIVE.iter().map(task_of).collect();
    TODAY
        .judge_set(tasks.len() as u64, &tasks)
        .expect("the set is good")
}

fn drive_tables(entries: &[(usize, u64)]) -> Vec<u8> {
    let entries: Vec<Entry> = entries
        .iter()
        .map(|&(task, start)| Entry { task, start })
        .collect();
    let found = irregularities(&drive_set(), &entries);
    let idles: Vec<(u64, u64)> = found
        .idles
        .iter()
        .map(|idle| (idle.start, idle.length))
        .collect();
    let inversions: Vec<(usize, u64, u64)> = found
        .inversions
        .iter()
        .map(|inversion| (inversion.task, inversion.job, inversion.delay))
        .collect();
    tables(DRIVE, &idles, &inversions)
}
