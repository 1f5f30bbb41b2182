//! Stored cases as they are today: `stored FILE...` prints every case of the files whose stage has
//! landed, in today's form and with the independent implementation's answer of today. It fails where a
//! file's name says no stage, where a file has no case, where the independent implementation does not
//! give a stored answer at the file's own stage, and where no file's stage has landed.

use second::landed::{Landed, LANDED};
use second::{answer, carried};
use std::fs::read_to_string;
use std::io::{stdout, BufWriter, Write};
use std::path::Path;
use std::process::ExitCode;

/// The cases of the files, how many of them are answered otherwise today than when they were stored,
/// and how many are not the independent implementation's.
#[derive(Default)]
struct Count {
    files: u64,
    cases: u64,
    moved: u64,
    differ: u64,
}

fn main() -> ExitCode {
    let mut count = Count::default();
    for file in std::env::args().skip(1) {
        if let Err(fault) = print_cases(&file, &mut count) {
            eprintln!("stored: {file}: {fault}");
            return ExitCode::FAILURE;
        }
    }
    let Count {
        files,
        cases,
        moved,
        differ,
    } = count;
    eprintln!(
        "{cases} stored cases in {files} files, {moved} with another answer today, {differ} differ"
    );
    ExitCode::from(u8::from(files == 0 || differ > 0))
}

/// Prints the cases of a file, unless its stage has not landed yet.
fn print_cases(file: &str, count: &mut Count) -> Result<(), String> {
    let name = Path::new(file).file_name().and_then(|name| name.to_str());
    let stage = name.and_then(Landed::of_file);
    let stage = stage.ok_or("the name says no stage")?;
    if !LANDED.reaches(stage) {
        eprintln!("{file}: has not landed");
        return Ok(());
    }
    let text = read_to_string(file).map_err(|fault| fault.to_string())?;
    let mut out = BufWriter::new(stdout().lock());
    let before = count.cases;
    for line in text.lines() {
        let unread = || format!("cannot be read: {line}");
        let (case, stored) = line.split_once(" => ").ok_or_else(unread)?;
        let then = answer(stage, case).ok_or_else(unread)?;
        if then != stored {
            count.differ += 1;
            eprintln!("{line}\n  independent implementation: {then}");
        }
        let case = carried(stage, LANDED, case).ok_or_else(unread)?;
        let now = if stage == LANDED {
            then
        } else {
            answer(LANDED, &case).ok_or_else(unread)?
        };
        count.moved += u64::from(now != stored);
        count.cases += 1;
        writeln!(out, "{case} => {now}").map_err(|fault| fault.to_string())?;
    }
    count.files += 1;
    if count.cases == before {
        return Err("has no case".to_string());
    }
    out.flush().map_err(|fault| fault.to_string())
}
