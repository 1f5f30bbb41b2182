//! Holds what the desk program decodes for display against the archive's answers: `agree SAMPLES SEED COUNT`.
//! Over every sample, also with single bytes changed, over those that are refused, and over random images,
//! good and damaged: for each refusal the words have to be about the record at its place and the byte at
//! which that begins, and an image that is put right by the amount in the words has to be free of that
//! refusal, one that is put right by one less has to have it still.

#[path = "../../desk/about_framing.rs"]
mod about_framing;
#[path = "../../desk/about_sets.rs"]
mod about_sets;
#[path = "../../desk/about_tables.rs"]
mod about_tables;
#[path = "../../desk/about_timetables.rs"]
mod about_timetables;
#[path = "../../desk/archive.rs"]
mod archive;
#[allow(dead_code)]
#[path = "../../desk/axes.rs"]
mod axes;
#[path = "../../desk/draw.rs"]
mod draw;
#[path = "../../desk/explain.rs"]
mod explain;
#[path = "../../desk/list.rs"]
mod list;
#[allow(dead_code)]
#[path = "../../desk/messages.rs"]
mod messages;
#[path = "../../desk/records.rs"]
mod records;
#[path = "../../desk/replay.rs"]
mod replay;
#[path = "../../desk/rows.rs"]
mod rows;
#[path = "../../desk/show.rs"]
mod show;
#[path = "../../desk/why.rs"]
mod why;
#[path = "../../desk/wording.rs"]
mod wording;

#[allow(dead_code)]
#[path = "../independent/cases.rs"]
mod cases;
#[path = "../independent/chance.rs"]
mod chance;
#[path = "../independent/damage.rs"]
mod damage;
#[allow(dead_code)]
#[path = "../independent/dispatcher.rs"]
mod dispatcher;
#[allow(dead_code)]
#[path = "../independent/form.rs"]
mod form;
#[allow(dead_code)]
#[path = "../independent/independent.rs"]
mod independent;
#[allow(dead_code)]
#[path = "../independent/landed.rs"]
mod landed;
#[allow(dead_code)]
#[path = "../independent/rides.rs"]
mod rides;
#[path = "../independent/sets.rs"]
mod sets;

mod differences;
mod intervals;
mod mend;
mod pictures;
mod words;

use archive::{check, rebuild, Kind, Refusal};
use axes::Axis;
use chance::Chance;
use form::image_from;
use independent::TODAY;
use records::{decode, kind_of, Set};
use std::collections::BTreeMap;
use std::fs;
use std::path::PathBuf;
use std::process::ExitCode;

/// Of these numbers an image can be put right by an amount, or by what the words name.
const MENDED: [u32; 15] = [1, 2, 3, 4, 5, 6, 7, 10, 11, 13, 14, 15, 17, 18, 19];
const NUMBERS: std::ops::RangeInclusive<u32> = 1..=19;

/// How often each number was explained, and how often an image was put right after it.
#[derive(Default)]
struct Count {
    samples: u64,
    accepted: u64,
    explained: BTreeMap<u32, u64>,
    mended: BTreeMap<u32, u64>,
    pictures: u64,
    compared: u64,
}

fn main() -> ExitCode {
    let words: Vec<String> = std::env::args().skip(1).collect();
    let [samples, seed, cases] = &words[..] else {
        eprintln!("usage: agree SAMPLES SEED COUNT");
        return ExitCode::from(2);
    };
    let mut chance = Chance::new(seed.parse().expect("a seed"));
    let mut count = Count::default();
    for image in images(samples) {
        hold_sample(&image, &mut count);
        changed_sample(&image, &mut chance, &mut count);
    }
    for image in images(&format!("{samples}/refused")) {
        hold_sample(&image, &mut count);
    }
    random_images(cases.parse().expect("a count"), &mut chance, &mut count);
    report(&count)
}

/// The images in a folder, in the order of their names.
fn images(folder: &str) -> Vec<Vec<u8>> {
    let files = fs::read_dir(folder).expect("the folder can be read");
    let mut paths: Vec<PathBuf> = files
        .map(|file| file.expect("the folder can be read").path())
        .filter(|path| path.extension() == Some("image".as_ref()))
        .collect();
    paths.sort();
    let read = |path: &PathBuf| fs::read(path).expect("a sample can be read");
    paths.iter().map(read).collect()
}

/// A sample, asked as either kind.
fn hold_sample(image: &[u8], count: &mut Count) {
    count.samples += 1;
    for kind in [Kind::Timetable, Kind::Tables] {
        hold(kind, image, count);
        pictures::hold(kind, image, &mut count.pictures);
    }
}

/// A sample with single bytes changed: each byte of a short one, some of a long one.
fn changed_sample(image: &[u8], chance: &mut Chance, count: &mut Count) {
    let kind = kind_of(image).unwrap_or(Kind::Tables);
    let places: Vec<usize> = match image.len() {
        0..=200 => (0..image.len()).collect(),
        length => (0..5).map(|_| chance.index(length)).collect(),
    };
    for at in places {
        for byte in changed_bytes(image[at]) {
            let mut changed = image.to_vec();
            changed[at] = byte;
            hold(kind, &changed, count);
            differences::hold(image, &changed, &mut count.compared);
        }
    }
}

/// A byte with each of its bits turned, a little larger and smaller, and at its limits.
fn changed_bytes(byte: u8) -> Vec<u8> {
    let mut bytes: Vec<u8> = (0..8).map(|bit| byte ^ (1 << bit)).collect();
    bytes.extend([byte.wrapping_add(1), byte.wrapping_sub(1), 0, 255]);
    bytes.retain(|changed| *changed != byte);
    bytes
}

fn random_images(cases: u64, chance: &mut Chance, count: &mut Count) {
    let mut before = Vec::new();
    for _ in 0..cases {
        let case = cases::case(chance);
        let words: Vec<&str> = case.split(' ').collect();
        let (kind, text) = match words[..] {
            ["check1", image] | ["derive", _, image] => (Kind::Timetable, image),
            ["check2" | "list" | "begin", image] | ["rebuild", _, image] => (Kind::Tables, image),
            _ => continue,
        };
        let image = image_from(text).expect("a case has an image");
        hold(kind, &image, count);
        if chance.one_in(8) {
            pictures::hold(kind, &image, &mut count.pictures);
            differences::hold(&before, &image, &mut count.compared);
            let mut changed = image.clone();
            damage::change_byte(chance, &mut changed);
            differences::hold(&image, &changed, &mut count.compared);
        }
        before = image;
    }
}

/// Holds the words about an image against the archive's answer.
fn hold(kind: Kind, image: &[u8], count: &mut Count) {
    let verdict = check(kind, image);
    words::hold_dump(image, verdict.err());
    match verdict {
        Ok(()) => {
            count.accepted += 1;
            hold_accepted(kind, image);
        }
        Err(refusal) => {
            let told = explain::explain(image, kind, refusal);
            words::hold(image, refusal, &told);
            words::hold_rows(kind, image, refusal);
            *count.explained.entry(refusal.number).or_default() += 1;
            if mend::hold(kind, image, refusal, &told) {
                *count.mended.entry(refusal.number).or_default() += 1;
            }
        }
    }
}

/// The replay for display of accepted tables is the archive's timetable, no record is without effect, the
/// listing is the independent one, and the intervals are those of the archive's capacities.
fn hold_accepted(kind: Kind, image: &[u8]) {
    let tables = match kind {
        Kind::Timetable => archive::derive(image),
        Kind::Tables => Ok(image.to_vec()),
    };
    let tables = tables.expect("what is accepted can be derived");
    let timetable = rebuild(&tables).expect("what is accepted can be rebuilt");
    let decoded = decode(&tables);
    let set = Set::of(&decoded).expect("what is accepted has a set");
    let told = replay::replay(&set, &decoded);
    demand(told.late.is_none(), image, "the replay has a late job");
    let same = told.starts == decode(&timetable).jobs();
    demand(same, image, "the replay is another timetable");
    let useless = about_tables::useless(&decoded, &told);
    demand(useless.is_empty(), image, "a record has no effect");
    let lines: String = TODAY
        .listing(&tables)
        .iter()
        .map(|line| format!("{line}\n"))
        .collect();
    let long = tables.len() > explain::LONGEST_PRINTED;
    let listed = long || list::lines(&timetable) == lines;
    demand(listed, image, "the listing is another one");
    intervals::hold(image, &set, &Axis::of_accepted(&tables));
}

fn demand(held: bool, image: &[u8], fault: &str) {
    assert!(held, "{fault}: {}", form::image_text(image));
}

/// Whether the archive gives this refusal for these bytes.
fn refused_so(kind: Kind, image: &[u8], refusal: Refusal) -> bool {
    check(kind, image) == Err(refusal)
}

fn report(count: &Count) -> ExitCode {
    let explained: u64 = count.explained.values().sum();
    println!(
        "{} samples; {} accepted, {explained} refused and explained, {} pictures, {} pairs compared",
        count.samples, count.accepted, count.pictures, count.compared
    );
    let times = |map: &BTreeMap<u32, u64>, number| map.get(&number).copied().unwrap_or(0);
    let parts = [
        count.samples,
        count.accepted,
        count.pictures,
        count.compared,
    ];
    let mut complete = parts.iter().all(|part| *part > 0);
    for number in NUMBERS {
        let (told, mended) = (
            times(&count.explained, number),
            times(&count.mended, number),
        );
        println!("{number}: explained {told}, put right {mended}");
        complete &= told > 0 && (mended > 0 || !MENDED.contains(&number));
    }
    if !complete {
        println!("there was no sample, or a number never came, or was never put right");
    }
    ExitCode::from(u8::from(!complete))
}
