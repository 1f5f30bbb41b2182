//! Runs the refused samples: `refused ROOT`, with ROOT the repository. Every line of
//! `samples/refused/answers.txt` is asked of the archive and of the independent implementation, and
//! both have to give it. Then every number has to have a sample, and the manual's pages have to agree
//! with the samples and with each other (`refused/pages.rs`). `refused ROOT questions` prints the
//! same calls as cases without an answer, in the written form of `tests/README.md`.

#[allow(dead_code)]
mod archive;
#[allow(dead_code)]
#[path = "independent/dispatcher.rs"]
mod dispatcher;
#[path = "refused/faces.rs"]
mod faces;
#[allow(dead_code)]
#[path = "independent/independent.rs"]
mod independent;
#[allow(dead_code)]
#[path = "independent/landed.rs"]
mod landed;
#[path = "refused/pages.rs"]
mod pages;
#[allow(dead_code)]
#[path = "independent/spare.rs"]
mod spare;

use archive::{Refusal, State, AT_START, CYCLE, NEXT, NOW, RUNNING, TASKS, TASK_NUMBERS};
use faces::{Archive, Face, Independent, Kind};
use std::collections::BTreeSet;
use std::fs;
use std::path::Path;
use std::process::ExitCode;

const FOLDER: &str = "samples/refused";

/// Room for the figures of any image.
const MOST_FIGURES: u64 = 3 + 16 + 2 * 4_096 + 1;

const NUMBERS: std::ops::RangeInclusive<u32> = 1..=25;

/// A line of answers.txt: `FILE FUNCTION [NAME=VALUE ...] => ANSWER`.
pub struct Case {
    pub line: String,
    pub file: String,
    function: String,
    settings: Vec<(String, String)>,
    pub answer: String,
}

impl Case {
    fn from(line: &str) -> Option<Case> {
        let (call, answer) = line.split_once(" => ")?;
        let mut words = call.split(' ');
        let (file, function) = (words.next()?, words.next()?);
        let settings: Option<Vec<(String, String)>> = words
            .map(|word| word.split_once('='))
            .map(|pair| pair.map(|(name, value)| (name.to_string(), value.to_string())))
            .collect();
        Some(Case {
            line: line.to_string(),
            file: file.to_string(),
            function: function.to_string(),
            settings: settings?,
            answer: answer.to_string(),
        })
    }

    fn setting(&self, name: &str) -> Result<&str, String> {
        let found = self.settings.iter().find(|(known, _)| known == name);
        found
            .map(|(_, value)| value.as_str())
            .ok_or_else(|| format!("{name} is missing: {}", self.line))
    }

    fn number_set(&self, name: &str) -> Result<u64, String> {
        let value = self.setting(name)?.parse();
        value.map_err(|_| format!("{name} is no number: {}", self.line))
    }

    /// The number, the place and the byte offset of a refusal.
    pub fn refusal(&self) -> Option<Refusal> {
        let mut words = self.answer.strip_prefix("refused ")?.split(' ');
        Some(Refusal {
            number: words.next()?.parse().ok()?,
            place: words.next()?.parse().ok()?,
            offset: words.next()?.parse().ok()?,
        })
    }
}

fn main() -> ExitCode {
    let arguments: Vec<String> = std::env::args().skip(1).collect();
    let words: Vec<&str> = arguments.iter().map(String::as_str).collect();
    let root = match words[..] {
        [root] => Path::new(root),
        [root, "questions"] => return print_questions(Path::new(root)),
        _ => {
            eprintln!("usage: refused ROOT [questions]");
            return ExitCode::from(2);
        }
    };
    match faults(root) {
        Ok((cases, faults)) => {
            faults.iter().for_each(|fault| println!("{fault}"));
            println!("{cases} answers of samples, {} faults", faults.len());
            ExitCode::from(u8::from(!faults.is_empty()))
        }
        Err(fault) => {
            eprintln!("refused: {fault}");
            ExitCode::from(2)
        }
    }
}

/// How many answers there are, and all that is not as it should be.
fn faults(root: &Path) -> Result<(usize, Vec<String>), String> {
    let cases = read_cases(root)?;
    let mut faults = Vec::new();
    for case in &cases {
        for face in [&Archive(&case.line) as &dyn Face, &Independent] {
            let given = answer(face, root, case)?;
            if given != case.answer {
                faults.push(format!("{}\n  {}: {given}", case.line, face.name()));
            }
        }
        faults.extend(other_functions(root, case)?);
    }
    faults.extend(without_sample(root, &cases)?);
    faults.extend(pages::faults(root, &cases)?);
    Ok((cases.len(), faults))
}

fn read_cases(root: &Path) -> Result<Vec<Case>, String> {
    let text = pages::text(root, &format!("{FOLDER}/answers.txt"))?;
    let lines = text.lines().filter(|line| !line.starts_with('#'));
    lines
        .map(|line| Case::from(line).ok_or_else(|| format!("cannot be read: {line}")))
        .collect()
}

/// Whether this is the name of a file of one image, or of a line of them.
pub fn is_sample(name: &str) -> bool {
    name.ends_with(".image") || name.ends_with(".images")
}

/// The bytes of a file that is named as in answers.txt.
pub fn sample(root: &Path, file: &str) -> Result<Vec<u8>, String> {
    let path = root.join(FOLDER).join(file);
    fs::read(&path).map_err(|fault| format!("{}: {fault}", path.display()))
}

// ---- The stored answers ----

/// What a face answers to a case.
fn answer(face: &dyn Face, root: &Path, case: &Case) -> Result<String, String> {
    let image = sample(root, &case.file)?;
    Ok(match case.function.as_str() {
        "hv_check_timetable" => told(face.check(Kind::Timetable, &image)),
        "hv_check_tables" => told(face.check(Kind::Tables, &image)),
        "hv_derive" => told(face.turn(Kind::Timetable, case.number_set("room")?, &image)),
        "hv_rebuild" => told(face.turn(Kind::Tables, case.number_set("room")?, &image)),
        "hv_figures" => {
            let room = case.number_set("room")?;
            told(face.figures(room, behind(face, case, &image)?))
        }
        "hv_go_on" => {
            let state = state_of(face, root, case)?;
            let (after, given) = face.go_on(&image, &state, case.number_set("end")?);
            match given {
                Ok([task, job, cycle, time]) => format!("start {task} {job} {cycle} {time}"),
                Err(refusal) => format!("{} state {}", refused(refusal), left(&state, &after)),
            }
        }
        _ => return Err(format!("no such function: {}", case.line)),
    })
}

/// What stands behind as many images of a line as a case says, behind none where it says nothing.
fn behind<'a>(face: &dyn Face, case: &Case, images: &'a [u8]) -> Result<&'a [u8], String> {
    let mut rest = images;
    if case.setting("behind").is_ok() {
        for _ in 0..case.number_set("behind")? {
            let given = face.figures(MOST_FIGURES, rest);
            let (_, used) = given.map_err(|_| format!("not behind an image: {}", case.line))?;
            rest = &rest[used..];
        }
    }
    Ok(rest)
}

fn told<T>(given: Result<T, Refusal>) -> String {
    given.map_or_else(refused, |_| "accepted".to_string())
}

pub fn refused(refusal: Refusal) -> String {
    let Refusal {
        number,
        place,
        offset,
    } = refusal;
    format!("refused {number} {place} {offset}")
}

/// How a refusal left the state.
fn left(before: &State, after: &State) -> &'static str {
    if after == before {
        "unchanged"
    } else if after.iter().all(|number| *number == 0) {
        "stopped"
    } else {
        "changed"
    }
}

/// The state that a case goes on from: begun, so many starts told, numbers then set.
fn state_of(face: &dyn Face, root: &Path, case: &Case) -> Result<State, String> {
    let image = sample(root, case.setting("begun")?)?;
    let (mut state, mut given) = face.begin(&image);
    for _ in 1..case.number_set("starts")? {
        let Ok([task, .., time]) = given else {
            return Err(format!("refused before those starts: {}", case.line));
        };
        let declared = state[TASKS + TASK_NUMBERS * task as usize + 1];
        (state, given) = face.go_on(&image, &state, time + u64::from(declared));
    }
    for (name, value) in &case.settings {
        if let Some(place) = place_of(name) {
            let value = value.parse();
            state[place] = value.map_err(|_| format!("{name} is no number: {}", case.line))?;
        }
    }
    Ok(state)
}

/// Where a number of `struct hv_dispatcher` stands among the record's, by the header's name for it.
pub fn place_of(name: &str) -> Option<usize> {
    let (name, slot) = match name.split_once('[') {
        Some((name, slot)) => (name, slot.strip_suffix(']')?.parse().ok()?),
        None => (name, 0),
    };
    let first = match name {
        "n" => 0,
        "tasks" => TASKS,
        "next_jobs" => NEXT,
        "cycle" => CYCLE,
        "running_task" => RUNNING,
        "running_job" => RUNNING + 1,
        "running_start" => RUNNING + 2,
        "id_offset" => NOW,
        "pv_offsets" => NOW + 1,
        "id_offset_at_start" => AT_START,
        "pv_offsets_at_start" => AT_START + 1,
        _ => return None,
    };
    Some(first + slot)
}

// ---- The same answer from other functions ----

/// What the functions that judge the same image give otherwise than checking does.
fn other_functions(root: &Path, case: &Case) -> Result<Vec<String>, String> {
    let kind = match case.function.as_str() {
        "hv_check_timetable" => Kind::Timetable,
        "hv_check_tables" => Kind::Tables,
        _ => return Ok(Vec::new()),
    };
    let Some(refusal) = case.refusal() else {
        return Ok(Vec::new());
    };
    let image = sample(root, &case.file)?;
    let mut faults = Vec::new();
    for face in [&Archive(&case.line) as &dyn Face, &Independent] {
        let mut demand = |held: bool, what: &str| {
            if !held {
                faults.push(format!("{}\n  {}: {what}", case.line, face.name()));
            }
        };
        for room in [0, 100, 65_536] {
            let given = face.turn(kind, room, &image);
            demand(given == Err(refusal), "turning gives another answer");
        }
        if matches!(kind, Kind::Tables) {
            let given = face.begin(&image);
            let stopped = ([0; archive::NUMBERS], Err(refusal));
            demand(given == stopped, "beginning gives another answer");
        }
        // Bytes behind EN are the next image's there: answers.txt has lines of its own for 10.
        if matches!(kind, Kind::Tables) && refusal.number != 10 {
            for room in [0, MOST_FIGURES] {
                let given = face.figures(room, &image);
                demand(given == Err(refusal), "figures give another answer");
            }
        }
        if (5..=9).contains(&refusal.number) {
            let (n, tasks) = tasks_of(&image);
            let given = face.judge_set(n, &tasks);
            let expected = Err((refusal.number, refusal.place));
            demand(given == expected, "judging the set gives another one");
        }
    }
    Ok(faults)
}

/// The tasks of an image whose TS and TK records are whole.
fn tasks_of(image: &[u8]) -> (u32, Vec<[u32; 4]>) {
    let number = |at: usize| u32::from_be_bytes([0, 1, 2, 3].map(|i| image[at + i]));
    let task = |i: usize| [0, 1, 2, 3].map(|field| number(5 + 18 * i + 2 + 4 * field));
    let n = u32::from(image[4]);
    (n, (0..n.min(16) as usize).map(task).collect())
}

// ---- The same calls as cases ----

fn print_questions(root: &Path) -> ExitCode {
    let questions: Result<Vec<String>, String> =
        read_cases(root).and_then(|cases| cases.iter().map(|case| question(root, case)).collect());
    match questions {
        Ok(questions) => {
            questions.iter().for_each(|question| println!("{question}"));
            ExitCode::SUCCESS
        }
        Err(fault) => {
            eprintln!("refused: {fault}");
            ExitCode::from(2)
        }
    }
}

/// The call of a line of answers.txt as a case without its answer.
fn question(root: &Path, case: &Case) -> Result<String, String> {
    let bytes = sample(root, &case.file)?;
    let image = hex(&bytes);
    Ok(match case.function.as_str() {
        "hv_check_timetable" => format!("check1 {image}"),
        "hv_check_tables" => format!("check2 {image}"),
        "hv_derive" => format!("derive {} {image}", case.number_set("room")?),
        "hv_rebuild" => format!("rebuild {} {image}", case.number_set("room")?),
        "hv_figures" => {
            let images = hex(behind(&Independent, case, &bytes)?);
            format!("figures {} {images}", case.number_set("room")?)
        }
        "hv_go_on" => {
            let state = state_of(&Independent, root, case)?;
            let numbers: Vec<String> = state.iter().map(u32::to_string).collect();
            format!(
                "go {image} {} {}",
                numbers.join(","),
                case.number_set("end")?
            )
        }
        _ => return Err(format!("no such function: {}", case.line)),
    })
}

/// Bytes in hex, `-` for none.
fn hex(bytes: &[u8]) -> String {
    match bytes {
        [] => "-".to_string(),
        _ => bytes.iter().map(|byte| format!("{byte:02x}")).collect(),
    }
}

// ---- Whether all is there ----

/// Numbers without a sample of their own, and images that no line of answers.txt names.
fn without_sample(root: &Path, cases: &[Case]) -> Result<Vec<String>, String> {
    let mut faults = Vec::new();
    for number in NUMBERS {
        let opening = format!("{number:02}-");
        let of_number = |case: &Case| {
            let refusal = case.refusal();
            case.file.starts_with(&opening) && refusal.is_some_and(|told| told.number == number)
        };
        if !cases.iter().any(of_number) {
            faults.push(format!("number {number} has no sample"));
        }
    }
    let named: BTreeSet<&str> = cases.iter().map(|case| case.file.as_str()).collect();
    let folder = fs::read_dir(root.join(FOLDER)).map_err(|fault| fault.to_string())?;
    for entry in folder {
        let name = entry.map_err(|fault| fault.to_string())?.file_name();
        let name = name.to_string_lossy();
        if is_sample(&name) && !named.contains(name.as_ref()) {
            faults.push(format!("{name} has no line in answers.txt"));
        }
    }
    Ok(faults)
}
