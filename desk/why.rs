//! Two images: which records differ, field by field. Records are lined up by the longest list of records
//! that both have in this order; what lies between is changed, removed or added. And which starts move.

use crate::records::{Body, Image, Record};
use crate::wording::{many, record_at, rest_text, ticks};
use std::collections::BTreeMap;

/// What became of a record.
pub enum Change<'a> {
    Changed(&'a Record<'a>, &'a Record<'a>),
    Removed(&'a Record<'a>),
    Added(&'a Record<'a>),
}

/// Above so many pairs of records they are lined up by their places instead.
const MOST_PAIRS: usize = 16_000_000;

/// The differences of two images in words.
pub fn differences(before: &Image, after: &Image) -> String {
    let found = changes(&before.records, &after.records);
    let mut text = count(&found, after.records.len());
    for change in &found {
        text += &match change {
            Change::Changed(old, new) => changed_lines(old, new),
            Change::Removed(old) => format!("  - {}\n", record_at(old)),
            Change::Added(new) => format!("  + {}\n", record_at(new)),
        };
    }
    text + &rest_lines(before, after)
}

fn count(found: &[Change], records: usize) -> String {
    let (mut changed, mut removed, mut added) = (0, 0, 0);
    for change in found {
        match change {
            Change::Changed(..) => changed += 1,
            Change::Removed(_) => removed += 1,
            Change::Added(_) => added += 1,
        }
    }
    let same = records as u64 - changed - added;
    let changed = many(changed, "record");
    format!("{changed} changed, {removed} removed, {added} added, {same} the same\n")
}

fn changed_lines(old: &Record, new: &Record) -> String {
    let moved = match old.index == new.index {
        true => String::new(),
        false => format!(" (record {} before)", old.index),
    };
    let mut text = format!("  ~ {}{moved}\n", record_at(new));
    for ((name, _, was), (_, _, is)) in old.fields().into_iter().zip(new.fields()) {
        if was != is {
            let (by, side) = (was.abs_diff(is), if is > was { "more" } else { "less" });
            text += &format!("      {name}: {was} -> {is}, {by} {side}\n");
        }
    }
    text
}

/// The bytes behind the last record of each image, where they differ.
fn rest_lines(before: &Image, after: &Image) -> String {
    let bytes = [before, after].map(|image| image.rest.as_ref().map_or(&[][..], |rest| rest.bytes));
    let mut text = String::new();
    if bytes[0] != bytes[1] {
        for (sign, bytes) in ["-", "+"].iter().zip(bytes) {
            if !bytes.is_empty() {
                text += &format!("  {sign} behind the records: {}\n", rest_text(bytes));
            }
        }
    }
    text
}

/// The starts that differ between two timetables, job by job.
pub fn moves(before: &Image, after: &Image) -> String {
    let (old, new) = (before.jobs(), after.jobs());
    let starts: BTreeMap<(usize, u64), u64> = old
        .iter()
        .map(|job| ((job.task, job.job), job.start))
        .collect();
    let (mut text, mut count) = (String::new(), 0);
    for job in &new {
        let was = starts.get(&(job.task, job.job));
        let Some(was) = was.filter(|was| **was != job.start) else {
            continue;
        };
        let side = if job.start > *was { "later" } else { "earlier" };
        let by = ticks(job.start.abs_diff(*was));
        let (task, number, start) = (job.task, job.job, job.start);
        text += &format!("  task {task}'s job {number}: {was} -> {start}, {by} {side}\n");
        count += 1;
    }
    format!(
        "{count} of {} moved\n{text}",
        many(new.len() as u64, "start")
    )
}

/// The changes that turn one list of records into the other.
pub fn changes<'a>(before: &'a [Record<'a>], after: &'a [Record<'a>]) -> Vec<Change<'a>> {
    // Two ENs belong together whatever they count.
    let (before, after, ends) = match (before.split_last(), after.split_last()) {
        (Some((old, olds)), Some((new, news)))
            if old.form.mark == "EN" && new.form.mark == "EN" =>
        {
            (olds, news, Some((old, new)))
        }
        _ => (before, after, None),
    };
    let mut found = Vec::new();
    let (mut i, mut j) = (0, 0);
    let behind_all = (before.len(), after.len());
    for (old, new) in common(before, after).into_iter().chain([behind_all]) {
        found.extend(gap(&before[i..old], &after[j..new]));
        (i, j) = (old + 1, new + 1);
    }
    let counts = ends.filter(|(old, new)| old.bytes != new.bytes);
    found.extend(counts.map(|(old, new)| Change::Changed(old, new)));
    found
}

/// The places, in both lists, of the records that they have in common.
fn common(before: &[Record], after: &[Record]) -> Vec<(usize, usize)> {
    let same = |(old, new): &(&Record, &Record)| old.bytes == new.bytes;
    let front = before.iter().zip(after).take_while(same).count();
    let (olds, news) = (&before[front..], &after[front..]);
    let back = olds
        .iter()
        .rev()
        .zip(news.iter().rev())
        .take_while(same)
        .count();
    let (olds, news) = (&olds[..olds.len() - back], &news[..news.len() - back]);
    let mut places: Vec<(usize, usize)> = (0..front).map(|i| (i, i)).collect();
    let middle = match olds.len() * news.len() <= MOST_PAIRS {
        true => longest_common(olds, news),
        false => by_place(olds, news),
    };
    places.extend(middle.iter().map(|(i, j)| (front + i, front + j)));
    let (old, new) = (before.len() - back, after.len() - back);
    places.extend((0..back).map(|k| (old + k, new + k)));
    places
}

fn by_place(olds: &[Record], news: &[Record]) -> Vec<(usize, usize)> {
    let shorter = olds.len().min(news.len());
    let same = |i: &usize| olds[*i].bytes == news[*i].bytes;
    (0..shorter).filter(same).map(|i| (i, i)).collect()
}

/// The longest list of records that both have in this order, by their places.
fn longest_common(olds: &[Record], news: &[Record]) -> Vec<(usize, usize)> {
    let width = news.len() + 1;
    // For each two places, the length of the longest list behind them: at most 4,000 by MOST_PAIRS.
    let mut lengths = vec![0u16; (olds.len() + 1) * width];
    for i in (0..olds.len()).rev() {
        for j in (0..news.len()).rev() {
            lengths[i * width + j] = match olds[i].bytes == news[j].bytes {
                true => lengths[(i + 1) * width + j + 1] + 1,
                false => lengths[(i + 1) * width + j].max(lengths[i * width + j + 1]),
            };
        }
    }
    let (mut i, mut j) = (0, 0);
    let mut places = Vec::new();
    while i < olds.len() && j < news.len() {
        if olds[i].bytes == news[j].bytes {
            places.push((i, j));
            (i, j) = (i + 1, j + 1);
        } else if lengths[(i + 1) * width + j] >= lengths[i * width + j + 1] {
            i += 1;
        } else {
            j += 1;
        }
    }
    places
}

/// What became of the records between two that are the same: each old one is paired with the next new
/// one of its sort, where there is one.
fn gap<'a>(olds: &'a [Record<'a>], news: &'a [Record<'a>]) -> Vec<Change<'a>> {
    let one_by_one = olds.len() == news.len()
        && olds
            .iter()
            .zip(news)
            .all(|(old, new)| old.form.mark == new.form.mark);
    let fits = |old: &Record, new: &Record| one_by_one || sort(old) == sort(new);
    let mut found = Vec::new();
    let mut left = news;
    for old in olds {
        match left.iter().position(|new| fits(old, new)) {
            None => found.push(Change::Removed(old)),
            Some(at) => {
                found.extend(left[..at].iter().map(Change::Added));
                found.push(Change::Changed(old, &left[at]));
                left = &left[at + 1..];
            }
        }
    }
    found.extend(left.iter().map(Change::Added));
    found
}

/// What a record is about: its mark, and its task, job or start.
fn sort<'a>(record: &Record<'a>) -> (&'static str, u64, u64) {
    let (first, second) = match record.body {
        Body::Sl { task, .. } => (task, 0),
        Body::Id { start, .. } => (start, 0),
        Body::Pv { task, job, .. } => (task, job),
        _ => (0, 0),
    };
    (record.form.mark, first, second)
}
