//! Document 01's dispatcher written down plainly a second time: its state, beginning and going on.

use crate::independent::{
    decide, front, idle_in_range, instant_with_waiting, inversion_in_range, offset_of,
    record_length, refuse, Decision, Front, Idle, Inversion, Mark, Record, Refusal, Rules, Set,
    Task, MOST_TASKS, TABLES, TODAY,
};

pub const SLOTS: usize = MOST_TASKS as usize;

/// Where the cycle stands among today's numbers of a state, behind n, the tasks and the next jobs; the
/// running job's three and the ID offset come after it.
pub const CYCLE: usize = 1 + 4 * SLOTS + SLOTS;

/// How many numbers a state has today: the offsets, now and as at a cycle's start, are the last.
pub const NUMBERS: usize = CYCLE + 4 + 2 * (1 + SLOTS);

pub const LAST_CYCLE: u64 = 4_294_967_295;
const LAST_OFFSET: u64 = 4_294_967_295;

/// Byte offsets into the image: of the ID to be used next and of each task's next PV.
#[derive(Clone, Copy, PartialEq, Eq, Debug, Default)]
pub struct Offsets {
    pub idle: u64,
    pub inversions: [u64; SLOTS],
}

/// The running job, with its start in the cycle.
#[derive(Clone, Copy, PartialEq, Eq, Debug, Default)]
pub struct Running {
    pub task: u64,
    pub job: u64,
    pub start: u64,
}

/// The dispatcher's state; the stopped one is the default, all numbers 0.
#[derive(Clone, Copy, PartialEq, Eq, Debug, Default)]
pub struct State {
    pub n: u64,
    pub tasks: [Task; SLOTS],
    pub next: [u64; SLOTS],
    pub cycle: u64,
    pub running: Running,
    pub now: Offsets,
    pub at_start: Offsets,
}

impl Rules {
    /// The numbers of a state in the order in which it is shown.
    pub fn numbers_of(&self, state: &State) -> Vec<u64> {
        let mut numbers = vec![state.n];
        for task in &state.tasks {
            numbers.extend([task.offset, task.time, task.period, task.deadline]);
        }
        numbers.extend(state.next);
        numbers.push(state.cycle);
        numbers.extend([state.running.task, state.running.job, state.running.start]);
        for offsets in [&state.now, &state.at_start] {
            numbers.push(offsets.idle);
            numbers.extend(offsets.inversions);
        }
        numbers
    }

    /// The state with these numbers in that order; none where they are too few or too many.
    pub fn state_of(&self, numbers: &[u64]) -> Option<State> {
        let mut left = numbers.iter().copied();
        let mut number = || left.next();
        let state = State {
            n: number()?,
            tasks: slots(|| {
                Some(Task {
                    offset: number()?,
                    time: number()?,
                    period: number()?,
                    deadline: number()?,
                })
            })?,
            next: slots(&mut number)?,
            cycle: number()?,
            running: Running {
                task: number()?,
                job: number()?,
                start: number()?,
            },
            now: Offsets {
                idle: number()?,
                inversions: slots(&mut number)?,
            },
            at_start: Offsets {
                idle: number()?,
                inversions: slots(&mut number)?,
            },
        };
        left.next().is_none().then_some(state)
    }
}

impl State {
    /// The numbers of the state, today's.
    pub fn numbers(&self) -> [u64; NUMBERS] {
        let numbers = TODAY.numbers_of(self).try_into();
        numbers.expect("a state has that many numbers")
    }

    /// The state with these numbers, today's.
    pub fn from_numbers(numbers: &[u64; NUMBERS]) -> State {
        let state = TODAY.state_of(numbers);
        state.expect("a state has that many numbers")
    }
}

/// A value for each slot.
fn slots<T: Copy + Default>(mut next: impl FnMut() -> Option<T>) -> Option<[T; SLOTS]> {
    let mut slots = [T::default(); SLOTS];
    for slot in &mut slots {
        *slot = next()?;
    }
    Some(slots)
}

/// A start: task, job, cycle and absolute time.
#[derive(Clone, Copy, PartialEq, Eq, Debug)]
pub struct Start {
    pub task: u64,
    pub job: u64,
    pub cycle: u64,
    pub time: u64,
}

/// An answer with the state after it.
pub type Step = (State, Result<Start, Refusal>);

/// A refusal that leaves the stopped state.
fn stopped(number: u64) -> Step {
    (State::default(), refuse(number, 0))
}

impl Rules {
    /// Beginning: full acceptance of a table image, then the first start.
    pub fn begin(&self, image: &[u8]) -> Step {
        let set = match self.check_tables(image) {
            Ok((set, _, _)) => set,
            Err(refusal) => return (State::default(), Err(refusal)),
        };
        let offsets = self.offsets_at_start(image, &set);
        let mut state = State {
            n: set.tasks.len() as u64,
            now: offsets,
            at_start: offsets,
            ..State::default()
        };
        state.tasks[..set.tasks.len()].copy_from_slice(&set.tasks);
        start_or_stop(image, &set, state, 0)
    }

    /// The offsets as at a cycle's start, in an accepted table image of this set.
    fn offsets_at_start(&self, image: &[u8], set: &Set) -> Offsets {
        let records = self.frame(image, TABLES).expect("the image is accepted");
        let mut offsets = Offsets {
            idle: offset_of(image, set.head()) as u64,
            ..Offsets::default()
        };
        for task in 0..set.tasks.len() {
            let index = records.iter().position(|record| match record {
                Record::Pv(inversion) => inversion.task >= task,
                record => record.mark() == Mark::En,
            });
            let index = index.expect("an image ends with EN");
            offsets.inversions[task] = offset_of(image, index) as u64;
        }
        offsets
    }

    /// Going on, with the reported end as an absolute time.
    pub fn go_on(&self, image: &[u8], state: &State, end: u64) -> Step {
        if *state == State::default() {
            return (*state, refuse(23, 0));
        }
        let Some(set) = self.possible(state) else {
            return stopped(25);
        };
        let start = running_start(&set, state).time;
        let time = state.tasks[state.running.task as usize].time;
        if end < start {
            return (*state, refuse(21, 0));
        }
        if end > start + time {
            return stopped(22);
        }
        if !all_started(&set, state) {
            return start_or_stop(image, &set, *state, state.running.start + time);
        }
        if state.cycle == LAST_CYCLE {
            return (*state, refuse(24, 0));
        }
        start_or_stop(image, &set, next_cycle(&set, state), 0)
    }

    /// The set of a state that is not impossible in itself.
    fn possible(&self, state: &State) -> Option<Set> {
        let set = self.judge_set(state.n, &state.tasks).ok()?;
        let n = set.tasks.len();
        if (0..n).any(|task| state.next[task] > set.jobs(task)) {
            return None;
        }
        let Running { task, job, start } = state.running;
        if task >= state.n || state.next[task as usize] != job + 1 {
            return None;
        }
        let task = set.tasks[task as usize];
        if start < task.release(job) || start + task.time > task.due(job) {
            return None;
        }
        Some(set)
    }
}

fn all_started(set: &Set, state: &State) -> bool {
    (0..set.tasks.len()).all(|task| state.next[task] == set.jobs(task))
}

/// The state in which the next cycle begins.
fn next_cycle(set: &Set, state: &State) -> State {
    let mut state = *state;
    state.cycle += 1;
    state.now.idle = state.at_start.idle;
    for task in 0..set.tasks.len() {
        state.next[task] = 0;
        state.now.inversions[task] = state.at_start.inversions[task];
    }
    state
}

fn start_or_stop(image: &[u8], set: &Set, state: State, free: u64) -> Step {
    match next_start(image, set, state, free) {
        Some((state, start)) => (state, Ok(start)),
        None => stopped(25),
    }
}

/// The next start by the decision rule from a free instant on; none for impossible bytes.
fn next_start(image: &[u8], set: &Set, mut state: State, mut free: u64) -> Option<(State, Start)> {
    let n = set.tasks.len();
    loop {
        let instant = instant_with_waiting(set, &state.next[..n], free)?;
        let idle = idle_at(image, set, state.now.idle)?;
        let delays = own_delays(image, set, &state)?;
        match decide(set, &state.next[..n], instant, idle, &delays) {
            Decision::Idle(length) => {
                state.now.idle += record_length(Mark::Id) as u64;
                free = instant + length;
            }
            Decision::Start(task) => {
                return started(set, state, task, delays[task].is_some(), instant);
            }
        }
    }
}

/// The state and the answer once the task's next job has started; none if it is late. `own` says
/// whether the record at the task's offset is that job's.
fn started(
    set: &Set,
    mut state: State,
    task: usize,
    own: bool,
    start: u64,
) -> Option<(State, Start)> {
    let job = state.next[task];
    if start + set.tasks[task].time > set.tasks[task].due(job) {
        return None;
    }
    if own {
        state.now.inversions[task] += record_length(Mark::Pv) as u64;
    }
    let task = task as u64;
    state.running = Running { task, job, start };
    state.next[task as usize] += 1;
    Some((state, running_start(set, &state)))
}

/// The start of the running job.
fn running_start(set: &Set, state: &State) -> Start {
    Start {
        task: state.running.task,
        job: state.running.job,
        cycle: state.cycle,
        time: state.cycle * set.hyperperiod + state.running.start,
    }
}

/// The whole record at an offset.
fn record_at(image: &[u8], offset: u64) -> Option<Record> {
    let bytes = image.get(usize::try_from(offset).ok()?..)?;
    match front(bytes) {
        Front::Whole(record) => {
            let end = offset + record_length(record.mark()) as u64;
            (end <= LAST_OFFSET).then_some(record)
        }
        _ => None,
    }
}

/// The idle record at the ID offset, if one is left; the outer none is for impossible bytes.
fn idle_at(image: &[u8], set: &Set, offset: u64) -> Option<Option<Idle>> {
    match record_at(image, offset)? {
        Record::Id(idle) => idle_in_range(set, idle).then_some(Some(idle)),
        Record::Pv(inversion) => inversion_in_range(set, inversion).then_some(None),
        Record::En(_) => Some(None),
        _ => None,
    }
}

/// The inversion record at a task's offset; the outer none is for impossible bytes.
fn inversion_at(image: &[u8], set: &Set, offset: u64) -> Option<Option<Inversion>> {
    match record_at(image, offset)? {
        Record::Pv(inversion) => inversion_in_range(set, inversion).then_some(Some(inversion)),
        Record::En(_) => Some(None),
        _ => None,
    }
}

/// For each task the delay in its next job's own inversion record; none for impossible bytes.
fn own_delays(image: &[u8], set: &Set, state: &State) -> Option<Vec<Option<u64>>> {
    let mut delays = Vec::new();
    for task in 0..set.tasks.len() {
        let found = inversion_at(image, set, state.now.inversions[task])?;
        let own = found.filter(|pv| pv.task == task && pv.job == state.next[task]);
        delays.push(own.map(|pv| pv.delay));
    }
    Some(delays)
}
