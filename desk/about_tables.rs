//! Refusals of tables in words: 17 to 19.

use crate::about_timetables::lateness;
use crate::archive::Refusal;
use crate::records::{Body, Image, Job, Set};
use crate::replay::{replay, Replay};
use crate::wording::{at, by, explained, many, named, otherwise, record_at, Broken, Explanation};

pub fn table_record(image: &Image, refusal: Refusal) -> Option<Explanation> {
    let set = Set::of(image)?;
    let record = image.record_at(refusal.offset)?;
    let before = image.records.get(record.index.checked_sub(1)?)?.body;
    let (rule, broken) = match record.body {
        Body::Id { start, length } => (
            "an ID has a length of at least 1, start + length below H, and a start above the end of the ID before",
            idle_faults(&set, before, start, length),
        ),
        Body::Pv { task, job, delay } => (
            "a PV has task below n, job below H/T, delay at most D - C, and a pair (task, job) above that of the PV before",
            inversion_faults(&set, before, task, job, delay),
        ),
        _ => return None,
    };
    explained(at(image, refusal), rule, broken)
}

fn idle_faults(set: &Set, before: Body, start: u64, length: u64) -> Vec<Broken> {
    let mut broken = Vec::new();
    let (end, h) = (start + length, set.hyperperiod);
    if length == 0 {
        broken.push(by(1, "the length is 0, 1 too few".into()));
    }
    if end >= h {
        let above = end - h + 1;
        let text = format!("start + length is {end}, {above} too many for H, {h}");
        broken.push(by(above, text));
    }
    if let Body::Id {
        start: first,
        length,
    } = before
    {
        let last = first + length;
        if start <= last {
            let below = last - start + 1;
            let text = format!("the ID before ends at {last}: the start is {below} too low");
            broken.push(by(below, text));
        }
    }
    broken
}

fn inversion_faults(set: &Set, before: Body, task: u64, job: u64, delay: u64) -> Vec<Broken> {
    let mut broken = Vec::new();
    match set.tasks.get(task as usize) {
        None => {
            let n = set.tasks.len() as u64;
            let above = task + 1 - n;
            let text = format!("task {task}: the last one is task {}, {above} below", n - 1);
            broken.push(by(above, text));
        }
        Some(of) => {
            let (jobs, most) = (set.jobs_of(task as usize), of.deadline - of.time);
            if job >= jobs {
                let above = job + 1 - jobs;
                let text = format!("job {job}: the last one is job {}, {above} below", jobs - 1);
                broken.push(by(above, text));
            }
            if delay > most {
                let above = delay - most;
                let text = format!("the delay is {delay}, {above} above D - C, {most}");
                broken.push(by(above, text));
            }
        }
    }
    if let Body::Pv {
        task: first,
        job: second,
        ..
    } = before
    {
        if (task, job) <= (first, second) {
            let text = format!("({task}, {job}) is not above ({first}, {second})");
            broken.push(otherwise(text));
        }
    }
    broken
}

pub fn late(image: &Image, place: usize) -> Option<Explanation> {
    let set = Set::of(image)?;
    let told = replay(&set, image);
    let job = told.late.filter(|_| told.starts.len() == place)?;
    let (late, text) = lateness(&set, job)?;
    Some(Explanation {
        place: format!(
            "start {place} of the cycle, counted from 0: {}, released at {}",
            named(job),
            set.release(job.task, job.job)
        ),
        rule: "in replay every job ends by its deadline".into(),
        broken: vec![by(late, format!("it would run {text}"))],
        before: right_before(&set, image, &told),
    })
}

/// What held the processor right before the end of a replay.
fn right_before(set: &Set, image: &Image, told: &Replay) -> Option<String> {
    if let Some(index) = told.idle_before_end {
        let record = image.records.get(index)?;
        let Body::Id { start, length } = record.body else {
            return None;
        };
        let end = start + length;
        return Some(format!(
            "forced idle from {start} to {end}, {}",
            record_at(record)
        ));
    }
    let running = told.starts.last()?;
    Some(format!(
        "{} runs from {} to {}",
        named(*running),
        running.start,
        set.end(running)
    ))
}

pub fn without_effect(image: &Image, refusal: Refusal) -> Option<Explanation> {
    let set = Set::of(image)?;
    let told = replay(&set, image);
    let useless = useless(image, &told);
    let record = image.record_at(refusal.offset)?;
    if useless.first() != Some(&record.index) {
        return None;
    }
    let reason = match record.body {
        Body::Id { start, .. } => idle_reason(&set, &told, start),
        Body::Pv { task, job, delay } => inversion_reason(&set, &told, task, job, delay)?,
        _ => return None,
    };
    let count = useless.len() as u64;
    let first = if count > 1 { ", this is the first" } else { "" };
    let text = format!("{reason}; {} too many{first}", many(count, "record"));
    let rule =
        "the tables are those of the timetable that they replay to: no record is without effect";
    explained(at(image, refusal), rule, vec![by(count, text)])
}

/// The indices of the ID and PV records that replay has no effect of.
pub fn useless(image: &Image, told: &Replay) -> Vec<usize> {
    let tables = image.records.iter();
    tables
        .filter(|record| matches!(record.body, Body::Id { .. } | Body::Pv { .. }))
        .map(|record| record.index)
        .filter(|index| !told.effective.contains(index))
        .collect()
}

fn idle_reason(set: &Set, told: &Replay, start: u64) -> String {
    let during = |job: &&Job| job.start < start && start < set.end(job);
    if let Some(job) = told.starts.iter().find(during) {
        let (from, to) = (job.start, set.end(job));
        return format!(
            "nothing is decided at {start}: {} runs from {from} to {to}",
            named(*job)
        );
    }
    let all_started = told.starts.iter().all(|job| job.start < start);
    match all_started {
        true => format!("nothing is decided at {start}: every job of the cycle has started"),
        false => format!("nothing is decided at {start}: no job waits then"),
    }
}

fn inversion_reason(set: &Set, told: &Replay, task: u64, job: u64, delay: u64) -> Option<String> {
    let same = |started: &&Job| started.task as u64 == task && started.job == job;
    let started = told.starts.iter().find(same)?;
    let (start, release) = (started.start, set.release(started.task, job));
    Some(if release + delay == start {
        format!(
            "{} starts at {start}, but no job of a lower task number waits then",
            named(*started)
        )
    } else {
        format!(
            "release {release} + delay {delay} is {}, but {} starts at {start}, by priority",
            release + delay,
            named(*started)
        )
    })
}
