//! Whether the manual agrees with the samples: what its pages quote is there, byte for byte.

use crate::archive::Refusal;
use crate::faces::{Archive, Face, Independent, Kind};
use crate::{is_sample, place_of, refused, sample, Case};
use std::fs;
use std::path::Path;

const TABLES: &str = "../p2.image";
const TIMETABLE: &str = "20-no-room-to-derive.image";

/// What the C of docs/INTEGRATION.md is part of.
const PROGRAMS: [&str; 3] = ["tests/c/manual.c", "tests/c/axes.c", "firmware/main.c"];

/// All that is not so.
pub fn faults(root: &Path, cases: &[Case]) -> Result<Vec<String>, String> {
    let mut faults = readme(&text(root, "samples/refused/README.md")?, cases);
    let page = text(root, "docs/REFUSALS.md")?;
    faults.extend(refusals(&page, cases));
    faults.extend(quoted_bytes(root, &page, false)?);
    faults.extend(hand_edits(root, &page)?);
    let page = text(root, "docs/FORMAT.md")?;
    faults.extend(quoted_bytes(root, &page, true)?);
    faults.extend(numbers_of_state(&page));
    let page = text(root, "docs/INTEGRATION.md")?;
    let mut programs = String::new();
    for name in PROGRAMS {
        programs += &text(root, name)?;
    }
    faults.extend(quoted_program(&page, &programs));
    faults.extend(theorems(root, &page)?);
    Ok(faults)
}

pub fn text(root: &Path, name: &str) -> Result<String, String> {
    fs::read_to_string(root.join(name)).map_err(|fault| format!("{name}: {fault}"))
}

/// The fenced blocks of a page that open with this fence.
fn blocks<'a>(page: &'a str, fence: &str) -> Vec<Vec<&'a str>> {
    let mut found = Vec::new();
    let mut lines = page.lines();
    while let Some(line) = lines.next() {
        if line.starts_with("```") {
            let block = lines.by_ref().take_while(|line| *line != "```").collect();
            if line == fence {
                found.push(block);
            }
        }
    }
    found
}

/// The cells of a row of a table.
fn cells(row: &str) -> Vec<&str> {
    row.trim_matches('|').split('|').map(str::trim).collect()
}

/// What stands between backticks.
fn named(cell: &str) -> Vec<&str> {
    cell.split('`').skip(1).step_by(2).collect()
}

// ---- samples/refused/README.md ----

/// Samples without a row, and rows whose last cell is not the first answer of the sample.
fn readme(page: &str, cases: &[Case]) -> Vec<String> {
    let mut faults = Vec::new();
    let mut last = "";
    for case in cases {
        if case.file == last {
            continue;
        }
        last = &case.file;
        let opening = format!("| `{}` |", case.file);
        let row = page.lines().find(|line| line.starts_with(&opening));
        let told = row.and_then(|row| cells(row).last().copied().map(named));
        let answer = case.answer.split(" state").next().unwrap_or("");
        if told.unwrap_or_default() != [answer] {
            faults.push(format!("README.md of the samples has not: {}", case.line));
        }
    }
    faults
}

// ---- docs/REFUSALS.md ----

/// The sections of a page, each with what its heading begins with.
fn sections(page: &str) -> Vec<(&str, &str)> {
    let parts = page.split("\n## ").skip(1);
    parts
        .map(|part| (part.split([' ', ',', '\n']).next().unwrap_or(""), part))
        .collect()
}

/// Answers that do not stand in the section of their number, and quoted answers that are not stored.
fn refusals(page: &str, cases: &[Case]) -> Vec<String> {
    let mut faults = Vec::new();
    let sections = sections(page);
    for case in cases {
        let number = case.refusal().map(|refusal| refusal.number.to_string());
        let in_turn = |(heading, part): &(&str, &str)| {
            let section = number.as_deref().map_or(true, |number| number == *heading);
            section && part.lines().any(|line| line == case.line)
        };
        if !sections.iter().any(in_turn) {
            faults.push(format!("REFUSALS.md has not: {}", case.line));
        }
    }
    for line in blocks(page, "```").concat() {
        if line.contains(" => ") && !cases.iter().any(|case| case.line == line) {
            faults.push(format!("REFUSALS.md has, and answers.txt has not: {line}"));
        }
    }
    faults
}

/// A number that may be changed by hand: in which image, where, how wide, what it is.
struct Field {
    kind: Kind,
    at: usize,
    width: usize,
    name: String,
}

/// The starts of P2's timetable, and what its tables hold beside tasks and jobs.
fn fields() -> Vec<Field> {
    let field = |kind, at, width, name: String| Field {
        kind,
        at,
        width,
        name,
    };
    let start = |i: usize| {
        let name = format!("start of record {}", 4 + i);
        field(Kind::Timetable, 59 + 7 * i + 3, 4, name)
    };
    let mut fields: Vec<Field> = (0..7).map(start).collect();
    fields.push(field(Kind::Tables, 61, 4, "start of record 4".to_string()));
    fields.push(field(Kind::Tables, 65, 2, "length of record 4".to_string()));
    fields.push(field(Kind::Tables, 72, 4, "delay of record 5".to_string()));
    fields.push(field(Kind::Tables, 81, 4, "delay of record 6".to_string()));
    fields
}

/// Lines on one number changed by hand that the page has not, and faces that do not agree on them.
fn hand_edits(root: &Path, page: &str) -> Result<Vec<String>, String> {
    let images = [sample(root, TIMETABLE)?, sample(root, TABLES)?];
    let mut faults = Vec::new();
    for field in fields() {
        let image = &images[matches!(field.kind, Kind::Tables) as usize];
        let lines = [&Archive("a hand edit") as &dyn Face, &Independent]
            .map(|face| hand_edit(face, image, &field));
        if lines[0] != lines[1] || !page.lines().any(|line| line == lines[0]) {
            let [archive, independent] = lines;
            faults.push(format!(
                "REFUSALS.md on hand edits\n  archive: {archive}\n  independent: {independent}"
            ));
        }
    }
    Ok(faults)
}

/// What every value of the field gives. Values up to 40, past P2's cycle of 20 ticks, are all
/// tried; of those above, some.
fn hand_edit(face: &dyn Face, image: &[u8], field: &Field) -> String {
    let most = (1_u64 << (8 * field.width)) - 1;
    let values = (0..=40).chain([41, 255, 256, 32_768, 65_535, 65_536, 1 << 31, u64::MAX]);
    let mut runs: Vec<(u64, u64, Result<(), Refusal>)> = Vec::new();
    for value in values.map(|value| value.min(most)) {
        let mut image = image.to_vec();
        let bytes = &value.to_be_bytes()[8 - field.width..];
        image[field.at..field.at + field.width].copy_from_slice(bytes);
        let given = face.check(field.kind, &image);
        match runs.last_mut() {
            Some(run) if run.2 == given => run.1 = value,
            _ => runs.push((value, value, given)),
        }
    }
    let runs: Vec<String> = runs.iter().map(|run| run_text(run, most)).collect();
    format!("{}, byte {}: {}", field.name, field.at, runs.join("; "))
}

fn run_text((first, last, given): &(u64, u64, Result<(), Refusal>), most: u64) -> String {
    let values = match (first, last) {
        (first, last) if *last == most => format!("from {first}"),
        (first, last) if first == last => first.to_string(),
        (first, last) => format!("{first} to {last}"),
    };
    match given {
        Ok(()) => format!("{values} accepted"),
        Err(refusal) => format!("{values} {}", refused(*refusal)),
    }
}

// ---- Bytes of samples ----

/// Quoted bytes that are not those of the file; where whole files are wanted, also bytes that are
/// not quoted. In a fenced block a line that begins with the name of an image is followed by lines
/// `byte OFFSET: BYTES | WORDS`.
fn quoted_bytes(root: &Path, page: &str, whole: bool) -> Result<Vec<String>, String> {
    let mut faults = Vec::new();
    let mut quoted = 0;
    for block in blocks(page, "```") {
        let mut name = "";
        let mut image = Vec::new();
        let mut behind = 0;
        for line in &block {
            let first = line.split(' ').next().unwrap_or("");
            if is_sample(first) {
                name = first;
                image = sample(root, &name.replacen("samples/", "../", 1))?;
            } else if line.starts_with("byte ") {
                let read = bytes_in(line).ok_or_else(|| format!("cannot be read: {line}"))?;
                let (at, bytes) = read;
                let in_turn = !whole || at == behind;
                behind = at + bytes.len();
                quoted += 1;
                if !in_turn || image.get(at..behind) != Some(&bytes[..]) {
                    faults.push(format!("not so in {name}: {line}"));
                }
            }
        }
        if whole && behind != image.len() {
            faults.push(format!("{name} is not quoted to its end"));
        }
    }
    if quoted == 0 {
        faults.push("a page that is to quote bytes quotes none".to_string());
    }
    Ok(faults)
}

fn bytes_in(line: &str) -> Option<(usize, Vec<u8>)> {
    let (at, rest) = line.strip_prefix("byte ")?.split_once(':')?;
    let digits = rest.split('|').next()?;
    let bytes = digits
        .split_whitespace()
        .map(|pair| u8::from_str_radix(pair, 16).ok())
        .collect::<Option<_>>()?;
    Some((at.trim().parse().ok()?, bytes))
}

// ---- docs/FORMAT.md: the state ----

/// Rows `name | number | byte` of the dispatcher's record that are not so, or too few of them.
fn numbers_of_state(page: &str) -> Vec<String> {
    let mut faults = Vec::new();
    let mut rows = 0;
    for line in page.lines().filter(|line| line.starts_with("| `")) {
        let cells = cells(line);
        let [name] = named(cells[0])[..] else {
            continue;
        };
        let Some(place) = place_of(name) else {
            continue;
        };
        rows += 1;
        if cells[1..3] != [place.to_string(), (4 * place).to_string()] {
            faults.push(format!("not so in struct hv_dispatcher: {line}"));
        }
    }
    if rows != 11 {
        faults.push(format!("{rows} rows of the state in FORMAT.md, not 11"));
    }
    faults
}

// ---- docs/INTEGRATION.md ----

/// Pieces of C that are not pieces of the programs.
fn quoted_program(page: &str, programs: &str) -> Vec<String> {
    let pieces = blocks(page, "```c");
    if pieces.is_empty() {
        return vec!["INTEGRATION.md has no C".to_string()];
    }
    let absent = pieces
        .iter()
        .filter(|piece| !programs.contains(&format!("{}\n", piece.join("\n"))));
    absent
        .map(|piece| {
            let piece = piece.join("\n");
            format!("not in {}: {piece}", PROGRAMS.join(", "))
        })
        .collect()
}

/// Theorems that are not where the page says. In a row whose last cell names a file of proofs, the
/// cell before it names theorems.
fn theorems(root: &Path, page: &str) -> Result<Vec<String>, String> {
    let mut faults = Vec::new();
    let mut count = 0;
    for line in page.lines().filter(|line| line.ends_with(".antt` |")) {
        let cells = cells(line);
        let [.., names, file] = cells[..] else {
            return Err(format!("cannot be read: {line}"));
        };
        let proofs = text(root, named(file)[0])?;
        for name in named(names) {
            count += 1;
            let opening = format!("pub {name} : ");
            let states = |line: &str| line.trim_start().starts_with(&opening);
            if !proofs.lines().any(states) {
                faults.push(format!("no theorem `{name}` in {file}"));
            }
        }
    }
    if count == 0 {
        faults.push("INTEGRATION.md names no theorem".to_string());
    }
    Ok(faults)
}
