//! Pictures: every job, release, deadline, forced idle and inversion of an accepted image is in its picture,
//! every interval where these are wanted, and no two texts lie over each other.

use crate::archive::{derive, rebuild, Kind};
use crate::axes::Axis;
use crate::demand;
use crate::draw::picture;
use crate::independent::{Entry, TODAY};
use crate::records::decode;
use std::collections::{BTreeMap, BTreeSet};

/// Draws an image, where it is accepted, and holds the picture against the independent timetable.
pub fn hold(kind: Kind, image: &[u8], pictures: &mut u64) {
    let turned = match kind {
        Kind::Timetable => derive(image),
        Kind::Tables => rebuild(image),
    };
    let Ok(turned) = turned else {
        return;
    };
    let (timetable, tables) = match kind {
        Kind::Timetable => (image, &turned[..]),
        Kind::Tables => (&turned[..], image),
    };
    let axis = Axis::of_accepted(tables);
    for axis in [None, Some(&axis)] {
        let svg = picture("a & b", "<", &decode(timetable), &decode(tables), axis);
        demand(
            svg.contains("a &amp; b") && svg.contains(">&lt;<"),
            image,
            "names are not escaped",
        );
        let mut expected = expected_titles(tables);
        expected.extend(axis.map(interval_titles).into_iter().flatten());
        demand(
            titles(&svg) == expected,
            image,
            "the picture has other jobs, idles or intervals",
        );
        demand(
            marks(&svg) == expected_marks(tables),
            image,
            "the picture has other releases",
        );
        hold_texts_apart(image, &svg);
    }
    *pictures += 1;
}

fn interval_titles(axis: &Axis) -> Vec<String> {
    let title =
        |((from, to), capacity)| format!("interval from {from} to {to}: capacity {capacity}");
    let bounds = axis
        .intervals
        .iter()
        .map(|interval| (interval.from, interval.to));
    let capacities = &axis.figures[3 + axis.lateness.len()..];
    bounds.zip(capacities).map(title).collect()
}

/// The titles of boxes; a box that goes over the end of a band is there twice.
fn titles(svg: &str) -> BTreeSet<String> {
    let parts = svg.split("<title>").skip(1);
    parts
        .map(|part| part.split("</title>").next().unwrap_or("").to_string())
        .collect()
}

fn expected_titles(tables: &[u8]) -> BTreeSet<String> {
    let (set, tables, entries) = TODAY.check_tables(tables).expect("an accepted image");
    let mut next = vec![0; set.tasks.len()];
    let mut titles = BTreeSet::new();
    for Entry { task, start } in entries {
        let (job, of) = (next[task], set.tasks[task]);
        let inverted = tables
            .inversions
            .iter()
            .any(|pv| (pv.task, pv.job) == (task, job));
        let said = if inverted { ", an inversion" } else { "" };
        let (end, release, due) = (start + of.time, of.release(job), of.due(job));
        titles.insert(format!(
            "task {task}, job {job}: {start} to {end}, released {release}, due {due}{said}"
        ));
        next[task] += 1;
    }
    for idle in tables.idles {
        let end = idle.start + idle.length;
        titles.insert(format!("forced idle from {} to {end}", idle.start));
    }
    titles
}

/// The number of triangles for releases and for deadlines, those of the legend not counted.
fn marks(svg: &str) -> [usize; 2] {
    ["l-3.5 7h7z", "l-3.5 -7h7z"].map(|triangle| svg.matches(triangle).count() - 1)
}

/// Each job has one release and one deadline.
fn expected_marks(tables: &[u8]) -> [usize; 2] {
    let (_, _, entries) = TODAY.check_tables(tables).expect("an accepted image");
    [entries.len(); 2]
}

/// No two texts on one line of a band lie over each other, at 6 pixels a letter.
fn hold_texts_apart(image: &[u8], svg: &str) {
    for band in svg.split("<g ").skip(1) {
        let mut lines: BTreeMap<String, Vec<(f64, f64)>> = BTreeMap::new();
        for text in band.split("<text").skip(1) {
            let (head, words) = text.split_once('>').expect("a tag has an end");
            let words = words.split('<').next().unwrap_or("");
            let value = |name: &str| attribute(head, name);
            let x: f64 = value("x").parse().expect("a text has a place");
            let width = 6.0 * words.chars().count() as f64;
            let left = if head.contains("middle") {
                x - width / 2.0
            } else {
                x
            };
            lines
                .entry(value("y"))
                .or_default()
                .push((left, left + width));
        }
        for texts in lines.values_mut() {
            texts.sort_by(|a, b| a.0.total_cmp(&b.0));
            let apart = texts.windows(2).all(|pair| pair[0].1 <= pair[1].0);
            demand(apart, image, "two texts lie over each other");
        }
    }
}

fn attribute(tag: &str, name: &str) -> String {
    let quoted = tag.split(&format!(" {name}=\"")).nth(1).unwrap_or("");
    quoted.split('"').next().unwrap_or("").to_string()
}
