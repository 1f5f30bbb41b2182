//! Document 01's listing of a timetable image that the archive accepted or rebuilt.

use crate::records::{decode, Set};

/// A line for each start: task, job, start and end; then how many there are.
pub fn lines(timetable: &[u8]) -> String {
    let image = decode(timetable);
    let set = Set::of_accepted(&image);
    let jobs = image.jobs();
    let mut text = String::new();
    for job in &jobs {
        text += &format!("{} {} {} {}\n", job.task, job.job, job.start, set.end(job));
    }
    text + &format!("ok {}\n", jobs.len())
}
