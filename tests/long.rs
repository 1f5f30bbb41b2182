//! A valid table image of more than 65,536 bytes: fifteen tasks of one period and one that comes once a cycle, 4,096 jobs. Each starts a
//! tick after it could have, and all but the last of a period before one of a lower number. The archive has to accept it and to rebuild
//! the timetable that it was made from; its bytes go to standard output.

#[allow(dead_code)]
mod archive;

use archive::{check_tables, rebuild};
use std::io::Write;

const TASKS: u32 = 16;
const PERIOD: u32 = 240;
const CYCLE: u32 = 65_520;

fn main() {
    let tables = image(2, &[idles(), inversions()].concat());
    assert!(tables.len() > 65_536, "{} bytes", tables.len());
    let timetable = image(1, &entries());
    let case = "the long image";
    assert_eq!(check_tables(&case, &tables), Ok(()));
    let rebuilt = rebuild(&case, timetable.len(), &tables);
    assert!(rebuilt == Ok(timetable), "another timetable is rebuilt");
    let mut stdout = std::io::stdout();
    stdout.write_all(&tables).expect("the output takes bytes");
}

/// The starts of a cycle, as task, job and instant: in each period the highest number comes first, and each job idles a tick and takes one.
fn starts() -> Vec<(u32, u32, u32)> {
    let mut starts = Vec::new();
    for job in 0..CYCLE / PERIOD {
        let tasks = if job == 0 { TASKS } else { TASKS - 1 };
        for (ahead, task) in (0..tasks).rev().enumerate() {
            starts.push((task, job, PERIOD * job + 1 + 2 * ahead as u32));
        }
    }
    starts
}

fn entries() -> Vec<Vec<u8>> {
    let entry =
        |(task, _, start): (u32, u32, u32)| record(b"SL", &[&[task as u8], &start.to_be_bytes()]);
    starts().into_iter().map(entry).collect()
}

fn idles() -> Vec<Vec<u8>> {
    let idle =
        |(_, _, start): (u32, u32, u32)| record(b"ID", &[&(start - 1).to_be_bytes(), &[0, 1]]);
    starts().into_iter().map(idle).collect()
}

/// All tasks but task 0 start while a lower one waits; in the order of tasks, then jobs.
fn inversions() -> Vec<Vec<u8>> {
    let mut inverting = starts();
    inverting.retain(|(task, ..)| *task > 0);
    inverting.sort();
    let inversion = |(task, job, start): (u32, u32, u32)| {
        let delay = start - PERIOD * job;
        record(
            b"PV",
            &[
                &[task as u8],
                &(job as u16).to_be_bytes(),
                &delay.to_be_bytes(),
            ],
        )
    };
    inverting.into_iter().map(inversion).collect()
}

fn record(mark: &[u8; 2], fields: &[&[u8]]) -> Vec<u8> {
    [mark, fields.concat().as_slice()].concat()
}

fn image(kind: u8, records: &[Vec<u8>]) -> Vec<u8> {
    let mut image = record(b"TS", &[&[1, kind, TASKS as u8]]);
    for task in 0..TASKS {
        let period = if task + 1 < TASKS { PERIOD } else { CYCLE };
        let numbers = [0, 1, period, period].map(u32::to_be_bytes);
        image.extend(record(b"TK", &[&numbers.concat()]));
    }
    image.extend(records.concat());
    let before = 1 + TASKS + records.len() as u32;
    image.extend(record(b"EN", &[&before.to_be_bytes()]));
    image
}
