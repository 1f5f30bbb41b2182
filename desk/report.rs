//! The report on axes: a table for a person, rows for a spreadsheet, the documents' lines; and words about the
//! image that ends a line.

use crate::archive::Refusal;
use crate::axes::Axis;
use crate::explain::{explain, too_long, LONGEST_PRINTED};
use crate::line::{Line, MOST_IMAGES};
use crate::messages::{explained_lines, refused_as, Asked};

/// An axis with the file that it comes from and its index among that file's images.
pub struct Row {
    pub file: String,
    pub image: usize,
    pub axis: Axis,
}

/// The letters that a cycle has in the table.
const CYCLE: u64 = 20;

const HEADINGS: [&str; 9] = [
    "file",
    "image",
    "ticks",
    "busy",
    "forced idle",
    "other idle",
    "worst lateness",
    "smallest capacity",
    "busiest interval in the cycle",
];

/// Numbers stand at the right of their columns, words at the left.
const AT_RIGHT: [bool; 9] = [false, true, true, true, true, true, false, false, false];

const CSV_HEADINGS: &str =
    "file,image,ticks,busy,busy_percent,forced_idle,other_idle,worst_lateness,worst_task,\
                            intervals,smallest_capacity,from,to\n";

/// A table, a row an axis; nothing where there is none.
pub fn table(rows: &[Row]) -> String {
    if rows.is_empty() {
        return String::new();
    }
    let mut lines = vec![HEADINGS.map(String::from)];
    lines.extend(rows.iter().map(cells));
    let widths: [usize; 9] = std::array::from_fn(|column| {
        let lengths = lines.iter().map(|line| line[column].chars().count());
        lengths.max().unwrap_or(0)
    });
    lines.iter().map(|line| table_line(line, &widths)).collect()
}

fn cells(row: &Row) -> [String; 9] {
    let axis = &row.axis;
    let ((task, lateness), busiest) = (axis.worst(), axis.busiest());
    [
        row.file.clone(),
        row.image.to_string(),
        axis.ticks.to_string(),
        format!("{} %", percent(axis)),
        axis.forced.to_string(),
        axis.other.to_string(),
        format!("{lateness} by task {task}"),
        format!("{} in {}..{}", busiest.capacity, busiest.from, busiest.to),
        marked_cycle(axis),
    ]
}

fn table_line(cells: &[String; 9], widths: &[usize; 9]) -> String {
    let mut line = String::new();
    for ((cell, &width), at_right) in cells.iter().zip(widths).zip(AT_RIGHT) {
        line += &match at_right {
            true => format!("{cell:>width$}  "),
            false => format!("{cell:width$}  "),
        };
    }
    line.trim_end().to_string() + "\n"
}

/// Busy ticks of the cycle in percent, with one decimal.
fn percent(axis: &Axis) -> String {
    let per_mille = axis.busy_per_mille();
    format!("{}.{}", per_mille / 10, per_mille % 10)
}

/// The cycle as a row of letters, `#` wherever a part of the busiest interval lies.
fn marked_cycle(axis: &Axis) -> String {
    let busiest = axis.busiest();
    let letter = |at: u64| {
        let (from, to) = (at * axis.ticks, (at + 1) * axis.ticks);
        let inside = busiest.from * CYCLE < to && from < busiest.to * CYCLE;
        if inside {
            '#'
        } else {
            '-'
        }
    };
    (0..CYCLE).map(letter).collect()
}

/// A line of headings, and a line an axis, of plain numbers.
pub fn csv(rows: &[Row]) -> String {
    let mut text = CSV_HEADINGS.to_string();
    for Row { file, image, axis } in rows {
        let ((task, lateness), busiest) = (axis.worst(), axis.busiest());
        text += &format!(
            "{},{image},{},{},{},{},{},{lateness},{task},{},{},{},{}\n",
            quoted(file),
            axis.ticks,
            axis.busy,
            percent(axis),
            axis.forced,
            axis.other,
            axis.intervals.len(),
            busiest.capacity,
            busiest.from,
            busiest.to
        );
    }
    text
}

/// A word of a row: between quotes where it has a letter that would end it.
fn quoted(word: &str) -> String {
    match word.contains([',', '"']) {
        true => format!("\"{}\"", word.replace('"', "\"\"")),
        false => word.to_string(),
    }
}

/// Document 02's lines for an axis: a figure a line.
pub fn lines(axis: &Axis) -> String {
    axis.figures
        .iter()
        .map(|figure| format!("{figure}\n"))
        .collect()
}

/// The refusal of the image that comes next in a file's line: which image it is, of which of how many files, and
/// what is said of it where it is checked alone.
pub fn refused(
    name: &str,
    (file, files): (usize, usize),
    line: Line,
    asked: Asked,
    refusal: Refusal,
) -> Result<String, String> {
    let (image, begins) = (line.images, line.begins);
    let bytes = line.image().0.to_vec();
    let told = match refusal.number {
        20 if image == MOST_IMAGES => too_long(
            "line",
            format!("a line of at most {MOST_IMAGES} images is reported"),
        ),
        20 => too_long(
            "image",
            format!("an image of at most {LONGEST_PRINTED} bytes is reported"),
        ),
        _ => explain(&bytes, asked.kind, refusal),
    };
    let (images, all) = line.count()?;
    let mut text = refused_as(name, asked, refusal);
    if images > 1 || files > 1 {
        let least = if all { "" } else { "at least " };
        let images = images.max(1);
        let among = match files {
            1 => String::new(),
            _ => format!(" in file {file} of {files}"),
        };
        text += &format!(
            "  image   {image} of {least}{images}{among}, counted from 0; it begins at byte {begins} ({begins:#X})\n"
        );
    }
    Ok(text + &explained_lines(&bytes, asked, refusal, told))
}
