//! Measures the archive and an implementation written for speed side by side, on valid timetables
//! with forced idles and inversions that are made from a fixed seed, on their tables, and on
//! dispatching from these; beside them, for accepting tables, one that need not keep the archive's
//! limits; taking fragments beside copying them; and the figures of a line of images.

#[allow(dead_code)]
mod archive;
#[allow(dead_code)]
#[path = "independent/chance.rs"]
mod chance;
#[allow(dead_code)]
mod draws;
#[allow(dead_code)]
mod fast;
mod making;
#[allow(dead_code)]
mod periods;

use archive::{Check, Turn, NUMBERS};
use chance::Chance;
use draws::{Job, Set, MOST_JOBS, TASKS};
use fast::dispatcher::{self, Start, State};
use fast::{intake, spare, unlimited, Refusal};
use making::{common_multiple, image_of, made, tasks_of, timetable, SEED, SETS};
use std::hint::black_box;
use std::io::{stdin, stdout, Read, Write};
use std::time::{Duration, Instant};

const ROUNDS: usize = 101;
const SHORTEST_ROUND: Duration = Duration::from_micros(200);
const ROOM: usize = 131_072;
const DAMAGES: usize = 300;
const CYCLES: usize = 3;

/// The lengths of the fragments that are taken, and of the buffer that they fill.
const FRAGMENTS: [usize; 3] = [8, 64, 4_096];
const BUFFER: usize = 65_536;

/// A line has so many images, of which so many are different, and so much room for the figures of one.
const IMAGES: usize = 10_000;
const DIFFERENT: usize = 1_000;
const FIGURES: usize = 8_212;
const LINE_ROUNDS: usize = 3;

fn main() {
    let mut chance = Chance::new(SEED);
    let asked: Vec<String> = std::env::args().skip(1).collect();
    if let [call, side, set, times] = &asked[..] {
        let [set, times] = [set, times].map(|number| number.parse().expect("a number"));
        if call == "take" {
            return repeat_take(side, set, times);
        }
        if call == "figures" {
            return repeat_figures(side, set, times);
        }
        return repeat(call, side == "archive", set, times);
    }
    if let [call, images] = &asked[..] {
        assert_eq!(call, "line", "there is no such call");
        let line = line(images.parse().expect("a number"));
        return stdout().write_all(&line).expect("the output takes bytes");
    }
    if asked == ["learnt"] {
        return learnt();
    }
    if asked == ["take"] {
        return take();
    }
    if asked == ["figures"] {
        return figures();
    }
    if asked == ["report"] {
        return report();
    }
    println!(
        "archive/fast  call    tasks  jobs idles  inversions  bytes  archive ns   fast ns  \
         unlimited ns"
    );
    for periods in SETS {
        let tasks = tasks_of(&mut chance, periods);
        let entries = timetable(&mut chance, &tasks);
        let image = image_of(&tasks, &entries);
        let tables = same_answers(&TIMETABLES, &image);
        assert_eq!(same_answers(&TABLES, &tables), image);
        same_refusals(&TIMETABLES, &mut chance, &image);
        same_refusals(&TABLES, &mut Chance::new(SEED), &tables);
        let (idles, inversions) = irregularities(&tables, tasks.len());
        let shape = [tasks.len(), entries.len(), idles, inversions];
        let [check, derive] = TIMETABLES.times(&image);
        print_row("check", shape, &image, &check);
        print_row("derive", shape, &image, &derive);
        let [accept, rebuild] = TABLES.times(&tables);
        print_row("accept", shape, &tables, &accept);
        print_row("rebuild", shape, &tables, &rebuild);
        let run = Run::new(&tasks, &tables, CYCLES * entries.len());
        run.same_refusals(&mut Chance::new(SEED));
        print_row("go", shape, &tables, &run.times());
    }
}

/// Asks one side the same so many times, on the image of one set: for counting what is executed.
fn repeat(call: &str, archive: bool, set: usize, times: usize) {
    let (tasks, entries) = made().nth(set).expect("there is such a set");
    let image = image_of(&tasks, &entries);
    let mut out = vec![0; ROOM];
    let length = fast::derive(&image, &mut out).expect("the image is good");
    let tables = out[..length].to_vec();
    let run = Run::new(&tasks, &tables, CYCLES * entries.len());
    let mut ask = || match (call, archive) {
        ("check", true) => TIMETABLES.check(black_box(&image)).is_ok(),
        ("check", false) => fast::check_timetable(black_box(&image)).is_ok(),
        ("derive", true) => TIMETABLES.turn(black_box(&image), &mut out).is_ok(),
        ("derive", false) => fast::derive(black_box(&image), &mut out).is_ok(),
        ("accept", true) => TABLES.check(black_box(&tables)).is_ok(),
        ("accept", false) => fast::check_tables(black_box(&tables)).is_ok(),
        ("rebuild", true) => TABLES.turn(black_box(&tables), &mut out).is_ok(),
        ("rebuild", false) => fast::rebuild(black_box(&tables), &mut out).is_ok(),
        ("go", true) => run.goes_on(archive_go_on),
        ("go", false) => run.goes_on(dispatcher::go_on),
        _ => panic!("there is no call {call}"),
    };
    for _ in 0..times {
        assert!(black_box(ask()), "a call that was good is refused");
    }
}

// ---- What a processor learns of an image ----

/// Deriving with 16 tasks, over images in turn: of one short image that is asked again and again a
/// processor learns every branch, of many or of a long one it does not. The last images are as many
/// and as long as the longest, but each period of each is like the first.
fn learnt() {
    println!("jobs  images  archive ns a job  fast ns a job");
    for (set, counts) in [(3, &[1, 4, 16, 64][..]), (4, &[1, 4, 16]), (5, &[1, 4])] {
        for count in counts {
            let tasks = tasks_of(&mut Chance::new(SEED), SETS[set]);
            let seeds = (0..*count).map(|image| SEED + 1 + image);
            let entries = seeds.map(|seed| timetable(&mut Chance::new(seed), &tasks));
            let images: Vec<Vec<u8>> = entries.map(|all| image_of(&tasks, &all)).collect();
            print_times(&tasks, &images);
        }
    }
    let tasks = tasks_of(&mut Chance::new(SEED), SETS[5]);
    println!("each period like the first:");
    let image = image_of(&tasks, &like_the_first(&tasks));
    for count in [1, 4] {
        print_times(&tasks, &vec![image.clone(); count]);
    }
}

/// A timetable in which the tasks but the last start in each period as in the first; the last has the
/// first gap that is long enough.
fn like_the_first(tasks: &[[u32; 4]]) -> Vec<(usize, u32)> {
    let (last, others) = tasks.split_last().expect("there are tasks");
    let period = others[0][2];
    let first = timetable(&mut Chance::new(SEED + 1), others);
    let mut entries: Vec<(usize, u32)> = (0..last[2] / period)
        .flat_map(|k| {
            first
                .iter()
                .map(move |(task, start)| (*task, start + k * period))
        })
        .collect();
    let end = |(task, start): (usize, u32)| start + tasks[task][1];
    let fits = |at: &usize| {
        let start = end(entries[*at]);
        start >= last[0] && start + last[1] <= entries[at + 1].1
    };
    let at = (0..entries.len() - 1).find(fits).expect("there is a gap");
    entries.insert(at + 1, (others.len(), end(entries[at])));
    entries
}

/// The times of deriving, for each job of the images.
fn print_times(tasks: &[[u32; 4]], images: &[Vec<u8>]) {
    let (mut one, mut other) = (vec![0; ROOM], vec![0; ROOM]);
    let all = |mut derive: Box<dyn FnMut(&[u8]) -> bool>| -> Call {
        Box::new(move || images.iter().all(|image| derive(black_box(image))))
    };
    let times = side_by_side(vec![
        all(Box::new(move |image| {
            TIMETABLES.turn(image, &mut one).is_ok()
        })),
        all(Box::new(move |image| {
            fast::derive(image, &mut other).is_ok()
        })),
    ]);
    let periods = tasks.iter().map(|task| task[2]);
    let hyperperiod = periods.clone().fold(1, common_multiple);
    let jobs: u32 = periods.map(|period| hyperperiod / period).sum();
    let [archive, fast] = [0, 1].map(|side| times[side] / (images.len() * jobs as usize) as f64);
    println!(
        "{jobs:>4}  {:>6}  {archive:>16.1}  {fast:>13.1}",
        images.len()
    );
}

/// The last of the times is there only for accepting.
fn print_row(call: &str, shape: [usize; 4], image: &[u8], times: &[f64]) {
    let ([tasks, jobs, idles, inversions], bytes) = (shape, image.len());
    let (archive, fast) = (times[0], times[1]);
    let ratio = archive / fast;
    let unlimited = times
        .get(2)
        .map_or(String::new(), |time| format!("{time:.0}"));
    println!(
        "{ratio:>12.2}  {call:<7} {tasks:>5} {jobs:>5} {idles:>5} {inversions:>11} {bytes:>6} \
         {archive:>11.0} {fast:>9.0} {unlimited:>13}"
    );
}

// ---- The sides ----

type FastCheck = fn(&[u8]) -> Result<(), Refusal>;
type FastTurn = fn(&[u8], &mut [u8]) -> Result<usize, Refusal>;

/// What images of a kind are asked: the archive's functions and the others'.
struct Sides {
    archive_check: Check,
    archive_turn: Turn,
    fast_check: FastCheck,
    fast_turn: FastTurn,
    unlimited_check: Option<FastCheck>,
}

const TIMETABLES: Sides = Sides {
    archive_check: archive::hv_check_timetable,
    archive_turn: archive::hv_derive,
    fast_check: fast::check_timetable,
    fast_turn: fast::derive,
    unlimited_check: None,
};

const TABLES: Sides = Sides {
    archive_check: archive::hv_check_tables,
    archive_turn: archive::hv_rebuild,
    fast_check: fast::check_tables,
    fast_turn: fast::rebuild,
    unlimited_check: Some(unlimited::check_tables),
};

impl Sides {
    fn check(&self, image: &[u8]) -> Result<(), Refusal> {
        let mut location = [0; 2];
        let at = location.as_mut_ptr();
        // SAFETY: the image has as many bytes as is said, and the two regions do not overlap.
        match unsafe { (self.archive_check)(image.as_ptr(), image.len(), at) } {
            0 => Ok(()),
            number => Err(refusal(number, location)),
        }
    }

    fn turn(&self, image: &[u8], out: &mut [u8]) -> Result<usize, Refusal> {
        let (mut location, mut length) = ([0; 2], 0);
        let (from, to, at) = (image.as_ptr(), out.as_mut_ptr(), location.as_mut_ptr());
        let (len, room) = (image.len(), out.len());
        // SAFETY: image and output have as many bytes as is said, and no two regions overlap.
        match unsafe { (self.archive_turn)(from, len, to, room, at, &mut length) } {
            0 => Ok(length as usize),
            number => Err(refusal(number, location)),
        }
    }

    /// The times of checking and of turning an image, the archive's first.
    fn times(&self, image: &[u8]) -> [Vec<f64>; 2] {
        let image = || black_box(image);
        let mut checks: Vec<Call> = vec![
            Box::new(|| self.check(image()).is_ok()),
            Box::new(|| (self.fast_check)(image()).is_ok()),
        ];
        if let Some(check) = self.unlimited_check {
            checks.push(Box::new(move || check(image()).is_ok()));
        }
        let (mut one, mut other) = (vec![0; ROOM], vec![0; ROOM]);
        let turns: Vec<Call> = vec![
            Box::new(|| self.turn(image(), &mut one).is_ok()),
            Box::new(|| (self.fast_turn)(image(), &mut other).is_ok()),
        ];
        [side_by_side(checks), side_by_side(turns)]
    }
}

/// What the archive told of a refusal.
fn refusal(number: u32, [place, offset]: [u64; 2]) -> Refusal {
    Refusal {
        number,
        place,
        offset,
    }
}

/// Demands that all sides answer the same, bytes included, and gives back the answer.
fn same(sides: &Sides, image: &[u8], room: usize) -> Result<Vec<u8>, Refusal> {
    let (mut one, mut other) = (vec![0x5A; room], vec![0x5A; room]);
    let checked = sides.check(image);
    assert_eq!(checked, (sides.fast_check)(image));
    if let Some(check) = sides.unlimited_check {
        assert_eq!(checked, check(image));
    }
    let turned = sides.turn(image, &mut one);
    assert_eq!(turned, (sides.fast_turn)(image, &mut other));
    assert!(one == other, "the outputs differ");
    turned.map(|length| one[..length].to_vec())
}

/// What a good image is turned into, on which all sides agree whatever the room.
fn same_answers(sides: &Sides, image: &[u8]) -> Vec<u8> {
    let result = same(sides, image, ROOM).expect("the image is good");
    assert_eq!(same(sides, image, result.len()).as_ref(), Ok(&result));
    let short = same(sides, image, result.len() - 1);
    assert_eq!(short, Err(refusal(20, [0, 0])));
    result
}

/// All sides refuse the same in truncated images and in such with a changed byte.
fn same_refusals(sides: &Sides, chance: &mut Chance, image: &[u8]) {
    for i in 0..DAMAGES {
        let _ = same(sides, &image[..image.len() * i / DAMAGES], ROOM);
        let mut damaged = image.to_vec();
        damaged[chance.index(image.len())] ^= 1 << chance.below(8);
        let _ = same(sides, &damaged, ROOM);
    }
}

/// The ID and the PV records of a table image; both are to occur.
fn irregularities(tables: &[u8], n: usize) -> (usize, usize) {
    let body = &tables[5 + 18 * n..tables.len() - 6];
    let idles = body
        .chunks(8)
        .take_while(|record| record.starts_with(b"ID"))
        .count();
    let inversions = (body.len() - 8 * idles) / 9;
    assert!(idles > 0 && inversions > 0, "the timetable is too regular");
    (idles, inversions)
}

// ---- Dispatching ----

/// Going on: the state is changed in place, and the number of a refusal is given back.
type GoOn = fn(&mut State, &[u8], u64) -> Result<Start, u32>;

fn archive_begin(state: &mut State, image: &[u8]) -> Result<Start, Refusal> {
    let (mut start, mut location) = ([0; 4], [0; 2]);
    let (d, s) = (state.as_mut_ptr(), start.as_mut_ptr());
    let at = location.as_mut_ptr();
    // SAFETY: every pointer is to as much as the header asks for, and none overlap.
    match unsafe { archive::hv_begin(d, image.as_ptr(), image.len(), s, at) } {
        0 => Ok(start),
        number => Err(refusal(number, location)),
    }
}

fn archive_go_on(state: &mut State, image: &[u8], end: u64) -> Result<Start, u32> {
    let mut start = [0; 4];
    let (d, s) = (state.as_mut_ptr(), start.as_mut_ptr());
    // SAFETY: every pointer is to as much as the header asks for, and none overlap.
    match unsafe { archive::hv_go_on(d, image.as_ptr(), image.len(), end, s) } {
        0 => Ok(start),
        number => Err(number),
    }
}

/// An honest run: the states in which its calls are made, and the ends that are reported.
struct Run<'a> {
    image: &'a [u8],
    states: Vec<State>,
    ends: Vec<u64>,
}

impl Run<'_> {
    /// A run of so many calls, on all of which both sides agree.
    fn new<'a>(tasks: &[[u32; 4]], image: &'a [u8], calls: usize) -> Run<'a> {
        let (mut state, mut other) = ([1; NUMBERS], [2; NUMBERS]);
        let mut start = archive_begin(&mut state, image).expect("the image is good");
        assert_eq!(dispatcher::begin(&mut other, image), Ok(start));
        let mut run = Run {
            image,
            states: Vec::new(),
            ends: Vec::new(),
        };
        for _ in 0..calls {
            let end = start[3] + u64::from(tasks[start[0] as usize][1]);
            run.states.push(state);
            run.ends.push(end);
            let went = dispatcher::go_on(&mut other, image, end);
            start = archive_go_on(&mut state, image, end).expect("the run is honest");
            assert_eq!(went, Ok(start));
            assert!(state == other, "the states differ");
        }
        run
    }

    /// Both sides answer the same, and leave the same state, where the image, a number of the
    /// state or the end is another one.
    fn same_refusals(&self, chance: &mut Chance) {
        for i in 0..4 * DAMAGES {
            let call = chance.index(self.ends.len());
            let (mut state, mut end) = (self.states[call], self.ends[call]);
            let mut image = self.image.to_vec();
            let byte = chance.index(image.len());
            match i % 4 {
                0 => image.truncate(byte),
                1 => image[byte] ^= 1 << chance.below(8),
                2 => state[chance.index(NUMBERS)] ^= 1 << chance.below(32),
                _ => end = chance.near(end),
            }
            let mut other = state;
            let went = archive_go_on(&mut state, &image, end);
            assert_eq!(went, dispatcher::go_on(&mut other, &image, end));
            assert!(state == other, "the states differ");
        }
    }

    /// The times of a call of going on, the archive's first.
    fn times(&self) -> Vec<f64> {
        let sides: [GoOn; 2] = [archive_go_on, dispatcher::go_on];
        let runs = sides.map(|go_on| -> Call { Box::new(move || self.goes_on(go_on)) });
        let times = side_by_side(runs.into());
        let calls = self.ends.len() as f64;
        times.into_iter().map(|time| time / calls).collect()
    }

    /// The whole run in one record.
    fn goes_on(&self, go_on: GoOn) -> bool {
        let mut state = self.states[0];
        let image = black_box(self.image);
        let mut ends = self.ends.iter();
        ends.all(|end| go_on(&mut state, image, *end).is_ok())
    }
}

// ---- Fragments ----

/// Puts a fragment into the buffer behind what it holds; whether it was taken.
type Take = fn(&mut intake::Intake, &mut [u8], &[u8]) -> bool;

const TAKES: [(&str, Take); 3] = [
    ("archive", archive_take),
    ("fast", fast_take),
    ("memcpy", copy),
];

fn archive_take(intake: &mut intake::Intake, buffer: &mut [u8], fragment: &[u8]) -> bool {
    let (k, b, room) = (intake.as_mut_ptr(), buffer.as_mut_ptr(), buffer.len());
    // SAFETY: buffer and fragment have as many bytes as is said, and no two regions overlap.
    unsafe { archive::hv_intake_take(k, b, room, fragment.as_ptr(), fragment.len()) == 0 }
}

fn fast_take(intake: &mut intake::Intake, buffer: &mut [u8], fragment: &[u8]) -> bool {
    intake::take(intake, buffer, fragment).is_ok()
}

/// Copies without a test.
#[inline(never)]
fn copy([_, count]: &mut intake::Intake, buffer: &mut [u8], fragment: &[u8]) -> bool {
    // SAFETY: the fragments fill the buffer, and it is not one of them.
    unsafe {
        let to = buffer.as_mut_ptr().add(*count as usize);
        to.copy_from_nonoverlapping(fragment.as_ptr(), fragment.len());
    }
    *count += fragment.len() as u64;
    true
}

/// Fills the buffer with a fragment again and again.
fn fill(take: Take, buffer: &mut [u8], fragment: &[u8]) -> bool {
    let mut intake = intake::begin();
    let take = black_box(take);
    let mut calls = 0..buffer.len() / fragment.len();
    calls.all(|_| take(&mut intake, buffer, fragment)) && intake[1] == buffer.len() as u64
}

/// The times of taking a fragment.
fn take() {
    println!("archive/memcpy  bytes  archive ns   fast ns  memcpy ns");
    for bytes in FRAGMENTS {
        let fragment: Vec<u8> = (0..bytes).map(|byte| byte as u8).collect();
        let fills = TAKES.map(|(_, take)| -> Call {
            let (mut buffer, fragment) = (vec![0; BUFFER], &fragment);
            Box::new(move || fill(take, black_box(&mut buffer), black_box(fragment)))
        });
        let calls = (BUFFER / bytes) as f64;
        let times: Vec<f64> = side_by_side(fills.into())
            .into_iter()
            .map(|time| time / calls)
            .collect();
        let (archive, fast, memcpy) = (times[0], times[1], times[2]);
        let ratio = archive / memcpy;
        println!("{ratio:>14.2}  {bytes:>5}  {archive:>10.2}  {fast:>8.2}  {memcpy:>9.2}");
    }
}

/// Fills the buffer so many times by one side, with fragments of so many bytes: for counting what is executed.
fn repeat_take(side: &str, bytes: usize, times: usize) {
    let known = TAKES.into_iter().find(|(name, _)| *name == side);
    let (_, take) = known.expect("there is such a side");
    let (mut buffer, fragment) = (vec![0; BUFFER], vec![1; bytes]);
    for _ in 0..times {
        let filled = fill(take, black_box(&mut buffer), black_box(&fragment));
        assert!(filled, "a fragment that fits is refused");
    }
}

// ---- Figures ----

/// A line of so many images: sets like document 000's, as many of each number of tasks, with their timetables
/// by priority or, where that is late, by CW-EDF; the different ones again and again.
fn line(images: usize) -> Vec<u8> {
    let mut chance = Chance::new(SEED);
    let mut out = vec![0; ROOM];
    let mut different = Vec::new();
    for tasks in TASKS.cycle().take(DIFFERENT) {
        let (set, jobs) = with_timetable(&mut chance, tasks);
        let length = fast::derive(&set.image(&jobs), &mut out).expect("the image is good");
        different.extend(&out[..length]);
    }
    different.repeat(images / DIFFERENT)
}

/// Stores the figures of the image at the front; gives back how many they are and how many bytes it has.
type Figures = fn(&[u8], &mut [i64]) -> Result<(usize, usize), Refusal>;

const FIGURES_OF: [(&str, Figures); 2] = [("archive", archive_figures), ("fast", spare::figures)];

fn archive_figures(images: &[u8], out: &mut [i64]) -> Result<(usize, usize), Refusal> {
    let (mut location, mut count, mut used) = ([0; 2], 0, 0);
    let (from, len, at) = (images.as_ptr(), images.len(), location.as_mut_ptr());
    let (to, room) = (out.as_mut_ptr(), out.len());
    // SAFETY: images and output have as many bytes and figures as is said, and no two regions overlap.
    match unsafe { archive::hv_figures(from, len, to, room, at, &mut count, &mut used) } {
        0 => Ok((count as usize, used as usize)),
        number => Err(refusal(number, location)),
    }
}

/// Asks for the figures of image after image; gives back how many images and figures they were.
fn go_along(figures: Figures, line: &[u8], out: &mut [i64]) -> Result<(usize, usize), Refusal> {
    let (mut images, mut all) = (0, 0);
    let mut rest = line;
    while !rest.is_empty() {
        let (count, used) = figures(rest, out)?;
        images += 1;
        all += count;
        rest = &rest[used..];
    }
    Ok((images, all))
}

/// The images a second of both sides, whose figures have to be the same.
fn figures() {
    let line = line(IMAGES);
    let (mut one, mut other) = (vec![0; FIGURES], vec![0; FIGURES]);
    let mut rest = &line[..line.len() / (IMAGES / DIFFERENT)];
    while !rest.is_empty() {
        let told = archive_figures(rest, &mut one);
        assert_eq!(told, spare::figures(rest, &mut other));
        assert!(one == other, "the figures differ");
        rest = &rest[told.expect("the image is good").1..];
    }
    let (images, all) = go_along(spare::figures, &line, &mut one).expect("the line is good");
    assert_eq!(images, IMAGES);
    let sides = FIGURES_OF.map(|(_, figures)| -> Call {
        let (line, mut out) = (&line, vec![0; FIGURES]);
        Box::new(move || go_along(figures, black_box(line), &mut out).is_ok())
    });
    let times = in_turn(sides.into(), LINE_ROUNDS);
    let per_image = |many: usize| many as f64 / images as f64;
    let [archive, fast] = [0, 1].map(|side| images as f64 / times[side] * 1e9);
    println!(
        "archive/fast  images  bytes an image  figures an image  archive images/s  fast images/s"
    );
    println!(
        "{:>12.2}  {images:>6}  {:>14.0}  {:>16.0}  {archive:>16.0}  {fast:>13.0}",
        fast / archive,
        per_image(line.len()),
        per_image(all),
    );
}

/// Goes along a line of so many images so many times by one side: for counting what is executed.
fn repeat_figures(side: &str, images: usize, times: usize) {
    let known = FIGURES_OF.into_iter().find(|(name, _)| *name == side);
    let (_, figures) = known.expect("there is such a side");
    let (line, mut out) = (line(images), vec![0; FIGURES]);
    for _ in 0..times {
        let answer = go_along(figures, black_box(&line), &mut out);
        assert!(answer.is_ok(), "an image that was good is refused");
    }
}

/// The report of a good line on standard input, written for speed.
fn report() {
    let (mut line, mut out) = (Vec::new(), vec![0; FIGURES]);
    stdin()
        .read_to_end(&mut line)
        .expect("the input gives bytes");
    let mut text = Vec::with_capacity(2 * BUFFER);
    let mut rest = &line[..];
    while !rest.is_empty() {
        let (count, used) = spare::figures(rest, &mut out).expect("the image is good");
        out[..count]
            .iter()
            .for_each(|figure| put_line(&mut text, *figure));
        rest = &rest[used..];
        if text.len() >= BUFFER || rest.is_empty() {
            stdout().write_all(&text).expect("the output takes bytes");
            text.clear();
        }
    }
}

/// Puts a figure behind the text, as a line.
fn put_line(text: &mut Vec<u8>, figure: i64) {
    let mut digits = [b'\n'; 21];
    let mut first = 20;
    let mut left = figure.unsigned_abs();
    loop {
        first -= 1;
        digits[first] = b'0' + (left % 10) as u8;
        left /= 10;
        if left == 0 {
            break;
        }
    }
    if figure < 0 {
        text.push(b'-');
    }
    text.extend_from_slice(&digits[first..]);
}

/// A set within the limits, and its timetable by priority, else by CW-EDF without the inversions that can be
/// taken out.
fn with_timetable(chance: &mut Chance, tasks: usize) -> (Set, Vec<Job>) {
    loop {
        let set = Set::draw(chance, tasks);
        if set.jobs() > MOST_JOBS || set.busy() > set.hyperperiod {
            continue;
        }
        let by_priority = set.timetable(Set::by_priority);
        let by_cw_edf = || set.timetable(Set::by_cw_edf).map(|jobs| set.swapped(jobs));
        if let Some(jobs) = by_priority.or_else(by_cw_edf) {
            return (set, jobs);
        }
    }
}

// ---- Time ----

/// A call that is to succeed.
type Call<'a> = Box<dyn FnMut() -> bool + 'a>;

/// The least times of all sides in nanoseconds a call, measured in turn: what else runs on the machine only
/// adds to a time.
fn side_by_side(sides: Vec<Call>) -> Vec<f64> {
    in_turn(sides, ROUNDS)
}

/// The same over so many rounds.
fn in_turn(mut sides: Vec<Call>, rounds: usize) -> Vec<f64> {
    let calls: Vec<u32> = sides.iter_mut().map(calls_in_a_round).collect();
    let mut times = vec![Vec::new(); sides.len()];
    for _ in 0..rounds {
        for (i, side) in sides.iter_mut().enumerate() {
            times[i].push(round(side, calls[i]));
        }
    }
    times.into_iter().map(least).collect()
}

/// How many calls take at least the shortest round.
fn calls_in_a_round(call: &mut Call) -> u32 {
    let mut calls = 1;
    while round(call, calls) * f64::from(calls) < SHORTEST_ROUND.as_nanos() as f64 {
        calls *= 2;
    }
    calls
}

/// Nanoseconds a call, over so many calls.
fn round(call: &mut Call, calls: u32) -> f64 {
    let begin = Instant::now();
    for _ in 0..calls {
        assert!(black_box(call()), "a call that was good is refused");
    }
    begin.elapsed().as_nanos() as f64 / f64::from(calls)
}

fn least(times: Vec<f64>) -> f64 {
    times.into_iter().fold(f64::INFINITY, f64::min)
}
