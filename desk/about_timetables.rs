//! Refusals of timetables in words: 11 to 16.

use crate::archive::Refusal;
use crate::records::{Body, Image, Job, Set};
use crate::wording::{at, by, explained, many, named, ticks, Broken, Explanation};

pub fn entry(image: &Image, refusal: Refusal) -> Option<Explanation> {
    let place = at(image, refusal);
    let set = Set::of(image)?;
    let record = image.record_at(refusal.offset)?;
    let Body::Sl { task, start } = record.body else {
        return None;
    };
    let task = task as usize;
    let n = set.tasks.len();
    if refusal.number == 11 {
        let above = (task + 1).checked_sub(n)? as u64;
        let text = format!("task {task}: the last one is task {}, {above} below", n - 1);
        let rule = "a task number is below n";
        return explained(place, rule, vec![by(above, text)]);
    }
    let job = Job {
        task,
        job: image.job_numbers()[record.index],
        start,
    };
    let (rule, broken) = match refusal.number {
        12 => surplus(&set, job)?,
        13 => early(&set, job)?,
        14 => overlapping(&set, image, record.index, job)?,
        _ => overdue(&set, job)?,
    };
    explained(place, rule, vec![broken])
}

type Judged = Option<(&'static str, Broken)>;

fn surplus(set: &Set, job: Job) -> Judged {
    let jobs = set.jobs_of(job.task);
    let above = (job.job + 1).checked_sub(jobs)?;
    let text = format!(
        "task {} has {} a cycle, this is 1 more: job {}",
        job.task,
        many(jobs, "job"),
        job.job
    );
    Some(("a task has H/T jobs a cycle and no more", by(above, text)))
}

fn early(set: &Set, job: Job) -> Judged {
    let release = set.release(job.task, job.job);
    let before = release.checked_sub(job.start)?;
    let text = format!(
        "{} starts at {}, {} before its release at {release}",
        named(job),
        job.start,
        ticks(before)
    );
    Some(("no job starts before its release", by(before, text)))
}

fn overlapping(set: &Set, image: &Image, index: usize, job: Job) -> Judged {
    let before = index.checked_sub(1)?;
    let Body::Sl { task, start } = image.records.get(before)?.body else {
        return None;
    };
    let running = Job {
        task: task as usize,
        job: image.job_numbers()[before],
        start,
    };
    let end = set.end(&running);
    let overlap = end.checked_sub(job.start)?;
    let text = format!(
        "{} starts at {}, {} before the end of {}, which runs from {start} to {end}",
        named(job),
        job.start,
        ticks(overlap),
        named(running)
    );
    let rule = "no entry starts before the end of the one before it, its start + C";
    Some((rule, by(overlap, text)))
}

fn overdue(set: &Set, job: Job) -> Judged {
    let (late, text) = lateness(set, job)?;
    let text = format!("{} runs {text}", named(job));
    Some(("a job ends by its deadline", by(late, text)))
}

/// By how much a job ends after its deadline, with its times in words.
pub fn lateness(set: &Set, job: Job) -> Option<(u64, String)> {
    let (start, end) = (job.start, set.end(&job));
    let due = set.due(job.task, job.job);
    let late = end.checked_sub(due)?;
    let text = format!(
        "from {start} to {end}, {} past its deadline at {due}",
        ticks(late)
    );
    Some((late, text))
}

pub fn missing(image: &Image, task: usize) -> Option<Explanation> {
    let set = Set::of(image)?;
    let jobs = set.jobs_of(task);
    let there = image.jobs().iter().filter(|job| job.task == task).count() as u64;
    let missing = jobs.checked_sub(there)?;
    let text = format!(
        "task {task} has {there} of {}: {missing} missing, first job {there}, released at {} and due at {}",
        many(jobs, "job"),
        set.release(task, there),
        set.due(task, there)
    );
    let record = image.records.get(task + 1)?;
    let place = format!(
        "task {task}, the lowest one that lacks a job: {}",
        record.text()
    );
    explained(
        place,
        "every job of the cycle appears",
        vec![by(missing, text)],
    )
}
