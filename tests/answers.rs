//! Answers cases from standard input, one a line, by the archive; with `--compare` it prints the
//! lines whose stored answer differs and counts them.

mod archive;
#[allow(dead_code)]
mod written;

use std::io::{stdin, stdout, BufRead, BufWriter, Write};
use std::process::ExitCode;
use written::archive_answer;

/// How many cases there were, and how many of them differ from what is stored.
#[derive(Default)]
struct Count {
    cases: u64,
    differ: u64,
}

fn main() -> ExitCode {
    let arguments: Vec<String> = std::env::args().skip(1).collect();
    let compare = arguments == ["--compare"];
    if !compare && !arguments.is_empty() {
        eprintln!("usage: answers [--compare] < cases");
        return ExitCode::from(2);
    }
    match answer_all(compare) {
        Ok(_) if !compare => ExitCode::SUCCESS,
        Ok(count) => verdict(count),
        Err(fault) => {
            eprintln!("answers: {fault}");
            ExitCode::from(2)
        }
    }
}

fn answer_all(compare: bool) -> Result<Count, String> {
    let mut out = BufWriter::new(stdout().lock());
    let mut count = Count::default();
    for (index, line) in stdin().lock().lines().enumerate() {
        let line = line.map_err(|fault| fault.to_string())?;
        if line.trim().is_empty() {
            continue;
        }
        let (case, stored) = parts(&line);
        let answer =
            archive_answer(case).map_err(|fault| format!("line {}: {fault}", index + 1))?;
        count.cases += 1;
        let differs = stored != Some(&answer);
        count.differ += u64::from(differs);
        let report = match (compare, differs) {
            (false, _) => format!("{case} => {answer}\n"),
            (true, true) => format!("{line}\n  archive: {answer}\n"),
            (true, false) => continue,
        };
        out.write_all(report.as_bytes())
            .map_err(|fault| fault.to_string())?;
    }
    out.flush().map_err(|fault| fault.to_string())?;
    Ok(count)
}

/// The case in a line, and the answer that is stored with it.
fn parts(line: &str) -> (&str, Option<&str>) {
    match line.split_once("=>") {
        Some((case, stored)) => (case.trim(), Some(stored.trim())),
        None => (line.trim(), None),
    }
}

fn verdict(count: Count) -> ExitCode {
    println!("{} cases, {} differ", count.cases, count.differ);
    ExitCode::from(u8::from(count.cases == 0 || count.differ > 0))
}
