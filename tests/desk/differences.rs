//! The differences of two images: taken out of the one and put into the other they leave the same records.

use crate::demand;
use crate::records::{decode, Job, Record};
use crate::why::{changes, differences, moves, Change};
use std::collections::BTreeSet;

/// Holds that the records without a change are the same in both images, and that no change is none.
pub fn hold(before: &[u8], after: &[u8], compared: &mut u64) {
    let (old, new) = (decode(before), decode(after));
    let (mut left, mut came) = (Vec::new(), Vec::new());
    let found = changes(&old.records, &new.records);
    for change in &found {
        match change {
            Change::Changed(was, is) => {
                let real = was.form.mark == is.form.mark && was.bytes != is.bytes;
                demand(
                    real,
                    after,
                    "a changed record is the same or has another mark",
                );
                left.push(was.index);
                came.push(is.index);
            }
            Change::Removed(was) => left.push(was.index),
            Change::Added(is) => came.push(is.index),
        }
    }
    let same = kept(&old.records, &left);
    demand(
        same == kept(&new.records, &came),
        after,
        "the other records are not the same",
    );
    let counted = format!(" {} the same\n", same.len());
    demand(
        differences(&old, &new).contains(&counted),
        after,
        "another number of records is the same",
    );
    if one_byte_in_a_body(before, after) && old.records.len() == new.records.len() {
        let one = matches!(found[..], [Change::Changed(..)]);
        demand(one, after, "one byte in a body is not one changed record");
    }
    let starts: BTreeSet<(usize, u64, u64)> = triples(old.jobs());
    let names: BTreeSet<(usize, u64)> = starts.iter().map(|(task, job, _)| (*task, *job)).collect();
    let moved = triples(new.jobs())
        .into_iter()
        .filter(|is| names.contains(&(is.0, is.1)) && !starts.contains(is));
    let count = format!("{} of ", moved.count());
    demand(
        moves(&old, &new).starts_with(&count),
        after,
        "another number of starts moved",
    );
    *compared += 1;
}

fn triples(jobs: Vec<Job>) -> BTreeSet<(usize, u64, u64)> {
    jobs.iter()
        .map(|job| (job.task, job.job, job.start))
        .collect()
}

/// The bytes of the records whose index is not named; an index may be named once only.
fn kept<'a>(records: &[Record<'a>], named: &[usize]) -> Vec<&'a [u8]> {
    let mut sorted = named.to_vec();
    sorted.sort();
    assert!(
        sorted.windows(2).all(|pair| pair[0] < pair[1]),
        "a record is named twice"
    );
    let others = records
        .iter()
        .filter(|record| !sorted.contains(&record.index));
    others.map(|record| record.bytes).collect()
}

/// Whether the images are as long as each other and differ in one byte, and that is no letter of a mark.
fn one_byte_in_a_body(before: &[u8], after: &[u8]) -> bool {
    let pairs = before.iter().zip(after);
    let differ: Vec<usize> = pairs
        .enumerate()
        .filter(|(_, (a, b))| a != b)
        .map(|(at, _)| at)
        .collect();
    let records = decode(before).records;
    let body = |at: usize| {
        let inside =
            |record: &&Record| record.offset + 2 <= at && at < record.offset + record.bytes.len();
        records.iter().any(|record| inside(&record))
    };
    before.len() == after.len() && matches!(differ[..], [at] if body(at))
}
