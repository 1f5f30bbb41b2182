//! A cycle as a picture (SVG): a row a task, time to the right. A long cycle is cut into bands, one below
//! the other, of about 40 jobs each, so that 400 jobs are as easy to read as 7. Where an axis is given, one more
//! row has the intervals of its cycle, each shaded by its spare capacity.

use crate::axes::{Axis, Interval};
use crate::records::{Body, Image, Job, Set};
use std::collections::BTreeSet;
use std::fmt::Write;

/// Widths and heights in pixels.
const RIGHT: f64 = 30.0;
const PLOT: f64 = 1200.0;
const LEAST_WIDTH: f64 = 900.0;
const WIDEST_TICK: f64 = 60.0;
const HEAD: f64 = 100.0;
const LEGEND_TOP: f64 = 60.0;
const LEGEND_LINE: f64 = 28.0;
const ROW: f64 = 40.0;
const AXIS: f64 = 44.0;
const BOX_TOP: f64 = 11.0;
const BOX_HEIGHT: f64 = 18.0;
const BASE: f64 = BOX_TOP + BOX_HEIGHT;
const LABEL: f64 = BOX_TOP + 13.0;
/// A digit of a job's number, and a letter below a task's name, at their widest.
const DIGIT: f64 = 6.6;
const SMALL_LETTER: f64 = 5.9;

const JOBS_A_BAND: u64 = 40;
const LONGEST_TITLE: usize = 140;

const STYLE: &str = "
text { font-family: Helvetica, Arial, sans-serif; font-size: 11px; fill: #222 }
.name { font-size: 16px; font-weight: bold }
.task { font-weight: bold; font-size: 12px }
.small { font-size: 10px; fill: #555 }
.paper { fill: #fff }
.row { fill: #f5f6f8 }
.grid { stroke: #dde1e6; fill: none }
.base { stroke: #8a929c }
.edge { stroke: #222; stroke-width: 1.5 }
.job { fill: #a6cbe8; stroke: #31648c }
.inversion { fill: #d4510c; stroke: #7c2d04 }
.idle { fill: #f5d90a; fill-opacity: 0.6; stroke: #a38f00; stroke-width: 0.7 }
.release { fill: #14701f }
.due { fill: #8e1b5b }
.on { fill: #fff }
.middle { text-anchor: middle }
.end { text-anchor: end }
";

/// What the row of intervals adds.
const INTERVAL_STYLE: &str = "
.spare { fill: #4fae68; stroke: #1f5a2d }
.short { fill: #c4183c; stroke: #fff }
.busiest { stroke: #222; stroke-width: 3 }
.bound { stroke: #9bbfa4; stroke-dasharray: 2 3 }
";

/// What is drawn: a good set, a valid timetable of it, its irregularities, and its axis where one is given.
struct Cycle<'a> {
    set: Set,
    jobs: Vec<Job>,
    idles: Vec<(u64, u64)>,
    inversions: BTreeSet<(usize, u64)>,
    axis: Option<&'a Axis>,
}

impl Cycle<'_> {
    /// The height of a band's rows: one a task, and one of intervals.
    fn height(&self) -> f64 {
        (self.set.tasks.len() + usize::from(self.axis.is_some())) as f64 * ROW
    }
}

/// A part of the cycle that is drawn as one band.
struct Band {
    from: u64,
    to: u64,
    left: f64,
    scale: f64,
}

impl Band {
    fn x(&self, instant: u64) -> f64 {
        self.left + (instant - self.from) as f64 * self.scale
    }

    /// The part of a stretch of time that lies in the band.
    fn part(&self, from: u64, to: u64) -> Option<(u64, u64)> {
        let (from, to) = (from.max(self.from), to.min(self.to));
        (from < to).then_some((from, to))
    }
}

/// The picture of an accepted timetable image, with the table image that belongs to it, and with its axis where
/// the intervals are wanted.
pub fn picture(
    name: &str,
    summary: &str,
    timetable: &Image,
    tables: &Image,
    axis: Option<&Axis>,
) -> String {
    let cycle = cycle(timetable, tables, axis);
    let bands = bands(&cycle.set);
    let (style, more_head) = match axis {
        Some(_) => (INTERVAL_STYLE, LEGEND_LINE),
        None => ("", 0.0),
    };
    let head_height = HEAD + more_head;
    let band_height = cycle.height() + AXIS;
    let plot = bands[0].x(bands[0].to) + RIGHT;
    let width = plot.max(LEAST_WIDTH);
    let height = head_height + bands.len() as f64 * band_height;
    let mut svg = format!(
        "<svg xmlns=\"http://www.w3.org/2000/svg\" width=\"{width:.0}\" height=\"{height:.0}\" \
         viewBox=\"0 0 {width:.0} {height:.0}\">\n<style>{STYLE}{style}</style>\n\
         <rect class=\"paper\" width=\"{width:.0}\" height=\"{height:.0}\"/>\n"
    );
    svg += &head(name, summary);
    if axis.is_some() {
        svg += &interval_legend();
    }
    for (index, band) in bands.iter().enumerate() {
        let top = head_height + index as f64 * band_height;
        let _ = writeln!(svg, "<g transform=\"translate(0,{top:.0})\">");
        svg += &band_content(&cycle, band);
        svg += "</g>\n";
    }
    svg + "</svg>\n"
}

fn cycle<'a>(timetable: &Image, tables: &Image, axis: Option<&'a Axis>) -> Cycle<'a> {
    let mut cycle = Cycle {
        set: Set::of_accepted(timetable),
        jobs: timetable.jobs(),
        idles: Vec::new(),
        inversions: BTreeSet::new(),
        axis,
    };
    for record in &tables.records {
        match record.body {
            Body::Id { start, length } => cycle.idles.push((start, start + length)),
            Body::Pv { task, job, .. } => {
                cycle.inversions.insert((task as usize, job));
            }
            _ => {}
        }
    }
    cycle
}

// ---- Bands and axis ----

/// The bands of a cycle: one where there are few jobs, else as many as are needed, each of a round
/// number of ticks.
fn bands(set: &Set) -> Vec<Band> {
    let count = set.jobs.div_ceil(JOBS_A_BAND);
    let ticks = match count {
        1 => set.hyperperiod,
        _ => round_below(set.hyperperiod.div_ceil(count)),
    };
    let scale = (PLOT / ticks as f64).min(WIDEST_TICK);
    let longest = (0..set.tasks.len())
        .map(|task| numbers(set, task).len())
        .max();
    let left = 22.0 + SMALL_LETTER * longest.unwrap_or(0) as f64;
    let band = |from| Band {
        from,
        to: (from + ticks).min(set.hyperperiod),
        left,
        scale,
    };
    (0..set.hyperperiod)
        .step_by(ticks as usize)
        .map(band)
        .collect()
}

/// The largest number that is at most the given one and has a single digit before its zeros.
fn round_below(number: u64) -> u64 {
    let mut unit = 1;
    while unit * 10 <= number {
        unit *= 10;
    }
    number / unit * unit
}

/// The distance of the numbers at the axis: 1, 2 or 5 with zeros, so that they stand clear of each other.
fn axis_step(band: &Band, hyperperiod: u64) -> u64 {
    let room = 18.0 + DIGIT * digits(hyperperiod);
    let mut unit = 1;
    loop {
        for step in [unit, 2 * unit, 5 * unit] {
            if step as f64 * band.scale >= room {
                return step;
            }
        }
        unit *= 10;
    }
}

fn digits(number: u64) -> f64 {
    number.to_string().len() as f64
}

fn time_axis(band: &Band, set: &Set, height: f64) -> String {
    let step = axis_step(band, set.hyperperiod);
    let last = band.to == set.hyperperiod;
    let first = band.from.div_ceil(step) * step;
    let mut svg = String::new();
    let mut instants: Vec<u64> = (first..=band.to).step_by(step as usize).collect();
    if last {
        // The end of the cycle has its number, and no other one close to it.
        instants.retain(|instant| instant + step <= band.to);
        instants.push(band.to);
    }
    for instant in instants {
        let x = band.x(instant);
        let _ = writeln!(
            svg,
            "<path class=\"grid\" d=\"M{x:.1} 0V{:.0}\"/><text class=\"middle\" x=\"{x:.1}\" y=\"{:.0}\">{instant}</text>",
            height + 4.0,
            height + 16.0
        );
    }
    if last {
        let x = band.x(band.to);
        let _ = writeln!(svg, "<path class=\"edge\" d=\"M{x:.1} 0V{height:.0}\"/>");
    }
    svg
}

// ---- One band ----

fn band_content(cycle: &Cycle, band: &Band) -> String {
    let rows = cycle.set.tasks.len();
    let bottom = rows as f64 * ROW;
    let height = cycle.height();
    let mut svg = String::new();
    for task in 0..rows {
        svg += &row_ground(
            band,
            task,
            &format!("task {task}"),
            &numbers(&cycle.set, task),
        );
    }
    if cycle.axis.is_some() {
        svg += &row_ground(band, rows, "intervals", "capacity");
    }
    svg += &time_axis(band, &cycle.set, height);
    if let Some(axis) = cycle.axis {
        svg += &interval_ends(axis, band, height);
        svg += &interval_row(axis, band, bottom);
    }
    for &(from, to) in &cycle.idles {
        if let Some(part) = band.part(from, to) {
            let (x, width) = stretch(band, part);
            let _ = writeln!(
                svg,
                "<rect class=\"idle\" x=\"{x:.1}\" y=\"0\" width=\"{width:.1}\" height=\"{bottom:.0}\">\
                 <title>forced idle from {from} to {to}</title></rect>"
            );
        }
    }
    for task in 0..rows {
        svg += &row(cycle, band, task);
    }
    svg
}

/// The left edge and the width of a stretch of time, never too narrow to be seen.
fn stretch(band: &Band, (from, to): (u64, u64)) -> (f64, f64) {
    let x = band.x(from);
    (x, (band.x(to) - x).max(1.5))
}

/// The ground of a row, with its name and what stands below that.
fn row_ground(band: &Band, row: usize, name: &str, below: &str) -> String {
    let top = row as f64 * ROW;
    let (left, width) = (band.left, band.x(band.to) - band.left);
    let shade = match row % 2 {
        0 => "row",
        _ => "paper",
    };
    format!(
        "<rect class=\"{shade}\" x=\"{left:.0}\" y=\"{top:.0}\" width=\"{width:.1}\" height=\"{ROW}\"/>\
         <text class=\"task\" x=\"10\" y=\"{:.0}\">{name}</text>\
         <text class=\"small\" x=\"10\" y=\"{:.0}\">{below}</text>\n",
        top + 17.0,
        top + 30.0
    )
}

/// A task's numbers, O only where it is not 0.
fn numbers(set: &Set, task: usize) -> String {
    let of = &set.tasks[task];
    let offset = match of.offset {
        0 => String::new(),
        offset => format!("O {offset} "),
    };
    format!("{offset}C {} T {} D {}", of.time, of.period, of.deadline)
}

fn row(cycle: &Cycle, band: &Band, task: usize) -> String {
    let top = task as f64 * ROW;
    let mut svg = marks(&cycle.set, band, task, top);
    let parts: Vec<(&Job, (u64, u64))> = cycle
        .jobs
        .iter()
        .filter(|job| job.task == task)
        .filter_map(|job| Some((job, band.part(job.start, cycle.set.end(job))?)))
        .collect();
    for (index, (job, part)) in parts.iter().enumerate() {
        let room = match parts.get(index + 1) {
            Some((_, next)) => band.x(next.0),
            None => band.x(band.to) + RIGHT,
        };
        svg += &job_box(cycle, band, job, *part, top, room);
    }
    svg
}

/// A job's box, with its number inside, or behind it where there is room only there.
fn job_box(cycle: &Cycle, band: &Band, job: &Job, part: (u64, u64), top: f64, room: f64) -> String {
    let Job {
        task,
        job: number,
        start,
    } = *job;
    let (x, width) = stretch(band, part);
    let inverted = cycle.inversions.contains(&(task, number));
    let (class, said) = match inverted {
        true => ("inversion", ", an inversion"),
        false => ("job", ""),
    };
    let (release, due) = (cycle.set.release(task, number), cycle.set.due(task, number));
    let end = cycle.set.end(job);
    let colour = if inverted { "middle on" } else { "middle" };
    let behind = x + width + 2.0;
    let label = match label_inside(&number.to_string(), colour, (x, width), top) {
        Some(label) => label,
        None if behind + digits(number) * DIGIT + 2.0 <= room => {
            let y = top + LABEL;
            format!("<text x=\"{behind:.1}\" y=\"{y:.0}\">{number}</text>")
        }
        None => String::new(),
    };
    format!(
        "<rect class=\"{class}\" x=\"{x:.1}\" y=\"{:.0}\" width=\"{width:.1}\" height=\"{BOX_HEIGHT}\">\
         <title>task {task}, job {number}: {start} to {end}, released {release}, due {due}{said}</title>\
         </rect>{label}\n",
        top + BOX_TOP
    )
}

/// A number in the middle of its box, where there is room for it.
fn label_inside(number: &str, class: &str, (x, width): (f64, f64), top: f64) -> Option<String> {
    let fits = number.len() as f64 * DIGIT + 3.0 <= width;
    let (middle, y) = (x + width / 2.0, top + LABEL);
    fits.then(|| format!("<text class=\"{class}\" x=\"{middle:.1}\" y=\"{y:.0}\">{number}</text>"))
}

/// The releases of a task below its row's line, its deadlines above the boxes.
fn marks(set: &Set, band: &Band, task: usize, top: f64) -> String {
    let (mut releases, mut dues) = (String::new(), String::new());
    for job in 0..set.jobs_of(task) {
        let (release, due) = (set.release(task, job), set.due(task, job));
        if band.from <= release && release < band.to {
            let _ = write!(
                releases,
                "M{:.1} {:.0}l-3.5 7h7z",
                band.x(release),
                top + BASE + 1.0
            );
        }
        if band.from < due && due <= band.to {
            let _ = write!(
                dues,
                "M{:.1} {:.0}l-3.5 -7h7z",
                band.x(due),
                top + BOX_TOP - 1.0
            );
        }
    }
    let (from, to, base) = (band.left, band.x(band.to), top + BASE);
    format!(
        "<path class=\"base\" d=\"M{from:.0} {base:.1}H{to:.1}\"/>\
         <path class=\"release\" d=\"{releases}\"/><path class=\"due\" d=\"{dues}\"/>\n"
    )
}

// ---- Intervals ----

/// The ends of intervals inside a band, through all of its rows.
fn interval_ends(axis: &Axis, band: &Band, height: f64) -> String {
    let mut svg = String::new();
    for end in axis.intervals.iter().map(|interval| interval.to) {
        if band.from < end && end <= band.to && end < axis.ticks {
            let x = band.x(end);
            let _ = writeln!(svg, "<path class=\"bound\" d=\"M{x:.1} 0V{height:.0}\"/>");
        }
    }
    svg
}

/// The row of intervals: the busiest comes last, so that its edge is seen whole.
fn interval_row(axis: &Axis, band: &Band, top: f64) -> String {
    let busiest = axis.busiest();
    let (mut svg, mut marked) = (String::new(), String::new());
    for interval in &axis.intervals {
        if let Some(part) = band.part(interval.from, interval.to) {
            match interval.from == busiest.from {
                true => marked += &interval_box(band, interval, part, top, " busiest"),
                false => svg += &interval_box(band, interval, part, top, ""),
            }
        }
    }
    svg + &marked
}

/// An interval's box with its capacity inside, where there is room: the more of its length is spare, the deeper
/// its colour.
fn interval_box(
    band: &Band,
    interval: &Interval,
    part: (u64, u64),
    top: f64,
    marked: &str,
) -> String {
    let Interval { from, to, capacity } = *interval;
    let (x, width) = stretch(band, part);
    let (class, opacity, colour) = match capacity < 0 {
        true => ("short", 1.0, "middle on"),
        false => ("spare", capacity as f64 / (to - from) as f64, "middle"),
    };
    let label = label_inside(&capacity.to_string(), colour, (x, width), top).unwrap_or_default();
    format!(
        "<rect class=\"{class}{marked}\" fill-opacity=\"{opacity:.2}\" x=\"{x:.1}\" y=\"{:.0}\" \
         width=\"{width:.1}\" height=\"{BOX_HEIGHT}\">\
         <title>interval from {from} to {to}: capacity {capacity}</title></rect>{label}\n",
        top + BOX_TOP
    )
}

// ---- Head ----

fn head(name: &str, summary: &str) -> String {
    let name: String = match name.chars().count() > LONGEST_TITLE {
        true => name
            .chars()
            .take(LONGEST_TITLE)
            .chain(['.', '.', '.'])
            .collect(),
        false => name.to_string(),
    };
    format!(
        "<text class=\"name\" x=\"10\" y=\"26\">{}</text>\n<text x=\"10\" y=\"46\">{}</text>\n{}",
        escaped(&name),
        escaped(summary),
        legend()
    )
}

fn legend() -> String {
    let y = LEGEND_TOP;
    let middle = y + 9.0;
    let release = format!(
        "<path class=\"release\" d=\"M674 {}l-3.5 7h7z\"/>",
        middle - 3.0
    );
    let due = format!(
        "<path class=\"due\" d=\"M752 {}l-3.5 -7h7z\"/>",
        middle + 3.0
    );
    [
        legend_box("job", 10.0, y),
        legend_text("job with its number", 38.0, y),
        legend_box("inversion", 160.0, y),
        legend_text(
            "inversion: starts before a waiting job of a lower task number",
            188.0,
            y,
        ),
        legend_box("idle", 546.0, y),
        legend_text("forced idle", 574.0, y),
        release,
        legend_text("release", 683.0, y),
        due,
        legend_text("deadline", 761.0, y),
    ]
    .concat()
}

fn interval_legend() -> String {
    let y = LEGEND_TOP + LEGEND_LINE;
    [
        legend_box("spare", 10.0, y),
        legend_text(
            "interval with its capacity, paler the less is spare",
            38.0,
            y,
        ),
        legend_box("short", 330.0, y),
        legend_text("below 0: it borrows from the one before", 358.0, y),
        legend_box("paper busiest", 596.0, y),
        legend_text("the busiest: the smallest capacity", 624.0, y),
    ]
    .concat()
}

fn legend_text(words: &str, x: f64, y: f64) -> String {
    format!("<text x=\"{x}\" y=\"{}\">{words}</text>\n", y + 13.0)
}

fn legend_box(class: &str, x: f64, y: f64) -> String {
    format!("<rect class=\"{class}\" x=\"{x}\" y=\"{y}\" width=\"22\" height=\"{BOX_HEIGHT}\"/>")
}

fn escaped(text: &str) -> String {
    text.replace('&', "&amp;")
        .replace('<', "&lt;")
        .replace('>', "&gt;")
}
