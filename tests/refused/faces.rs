//! The archive and the independent implementation behind one face, with the archive's types.

use crate::archive::{self, Figures, Judged, Refusal, State, Step};
use crate::dispatcher;
use crate::independent::{self, Task, TODAY};

/// What an image is asked as: to be checked, or turned into the other kind.
#[derive(Clone, Copy)]
pub enum Kind {
    Timetable,
    Tables,
}

pub trait Face {
    fn name(&self) -> &'static str;
    fn judge_set(&self, n: u32, tasks: &[[u32; 4]]) -> Judged;
    fn check(&self, kind: Kind, image: &[u8]) -> Result<(), Refusal>;
    fn turn(&self, kind: Kind, room: u64, image: &[u8]) -> Result<Vec<u8>, Refusal>;
    fn figures(&self, room: u64, images: &[u8]) -> Result<Figures, Refusal>;
    fn begin(&self, image: &[u8]) -> Step;
    fn go_on(&self, image: &[u8], state: &State, end: u64) -> Step;
}

/// Every call is made between guards; a byte that changes where it may not ends the program with
/// this text.
pub struct Archive<'a>(pub &'a str);

impl Face for Archive<'_> {
    fn name(&self) -> &'static str {
        "archive"
    }

    fn judge_set(&self, n: u32, tasks: &[[u32; 4]]) -> Judged {
        archive::judge_set(&self.0, n, tasks)
    }

    fn check(&self, kind: Kind, image: &[u8]) -> Result<(), Refusal> {
        match kind {
            Kind::Timetable => archive::check_timetable(&self.0, image),
            Kind::Tables => archive::check_tables(&self.0, image),
        }
    }

    fn turn(&self, kind: Kind, room: u64, image: &[u8]) -> Result<Vec<u8>, Refusal> {
        match kind {
            Kind::Timetable => archive::derive(&self.0, room as usize, image),
            Kind::Tables => archive::rebuild(&self.0, room as usize, image),
        }
    }

    fn figures(&self, room: u64, images: &[u8]) -> Result<Figures, Refusal> {
        archive::figures(&self.0, room as usize, images)
    }

    fn begin(&self, image: &[u8]) -> Step {
        archive::begin(&self.0, image)
    }

    fn go_on(&self, image: &[u8], state: &State, end: u64) -> Step {
        archive::go_on(&self.0, image, state, end)
    }
}

pub struct Independent;

impl Face for Independent {
    fn name(&self) -> &'static str {
        "independent"
    }

    fn judge_set(&self, n: u32, tasks: &[[u32; 4]]) -> Judged {
        let tasks: Vec<Task> = tasks.iter().map(task).collect();
        let judged = TODAY.judge_set(u64::from(n), &tasks);
        let figures = judged.map(|set| (set.hyperperiod as u32, set.all_jobs() as u32));
        figures.map_err(|given| (given.number as u32, given.place as u64))
    }

    fn check(&self, kind: Kind, image: &[u8]) -> Result<(), Refusal> {
        match kind {
            Kind::Timetable => TODAY.check_timetable(image).map(|_| ()),
            Kind::Tables => TODAY.check_tables(image).map(|_| ()),
        }
        .map_err(|given| refusal(given, image))
    }

    fn turn(&self, kind: Kind, room: u64, image: &[u8]) -> Result<Vec<u8>, Refusal> {
        match kind {
            Kind::Timetable => TODAY.derive(image, room),
            Kind::Tables => TODAY.rebuild(image, room),
        }
        .map_err(|given| refusal(given, image))
    }

    fn figures(&self, room: u64, images: &[u8]) -> Result<Figures, Refusal> {
        let given = TODAY.figures(images, room);
        given.map_err(|given| refusal(given, images))
    }

    fn begin(&self, image: &[u8]) -> Step {
        step(TODAY.begin(image), image)
    }

    fn go_on(&self, image: &[u8], state: &State, end: u64) -> Step {
        let state = dispatcher::State::from_numbers(&state.map(u64::from));
        step(TODAY.go_on(image, &state, end), image)
    }
}

fn task(&[offset, time, period, deadline]: &[u32; 4]) -> Task {
    Task {
        offset: u64::from(offset),
        time: u64::from(time),
        period: u64::from(period),
        deadline: u64::from(deadline),
    }
}

fn refusal(given: independent::Refusal, image: &[u8]) -> Refusal {
    Refusal {
        number: given.number as u32,
        place: given.place as u64,
        offset: given.offset(image) as u64,
    }
}

fn step((state, given): dispatcher::Step, image: &[u8]) -> Step {
    let numbers = state.numbers().map(|number| number as u32);
    let start = given.map(|start| [start.task, start.job, start.cycle, start.time]);
    (numbers, start.map_err(|given| refusal(given, image)))
}
