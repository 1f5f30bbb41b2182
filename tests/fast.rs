//! Checking and deriving, checking tables, rebuilding, taking in, dispatching and the figures, written for speed under the
//! archive's limits: no heap, records read in place, no more memory than a few numbers for each task, safe
//! code alone.

pub mod dispatcher;
pub mod intake;
pub mod spare;
pub mod unlimited;

#[derive(Clone, Copy, PartialEq, Eq, Debug)]
pub struct Refusal {
    pub number: u32,
    pub place: u64,
    pub offset: u64,
}

const SLOTS: usize = 16;
const MOST_HYPERPERIOD: u32 = 65_535;
const MOST_JOBS: u32 = 4_096;

/// The lengths of records, their marks included.
const TS: usize = 5;
const TK: usize = 18;
const SL: usize = 7;
const ID: usize = 8;
const PV: usize = 9;
const EN: usize = 6;

const TIMETABLE: u8 = 1;
const TABLES: u8 = 2;

/// Checks a timetable image.
#[inline(never)]
pub fn check_timetable(image: &[u8]) -> Result<(), Refusal> {
    let (tks, rest) = head(image, TIMETABLE)?;
    scan(jobs_of(tks, rest, frame_entries)?, rest, |_, _| {})?;
    Ok(())
}

/// Derives the table image of a timetable image and gives back its length.
#[inline(never)]
pub fn derive(image: &[u8], out: &mut [u8]) -> Result<usize, Refusal> {
    let (tks, rest) = head(image, TIMETABLE)?;
    let jobs = jobs_of(tks, rest, frame_entries)?;
    if jobs.n <= 3 {
        derive_entries::<1>(image, jobs, rest, out)
    } else {
        derive_entries::<6>(image, jobs, rest, out)
    }
}

/// Checks a table image.
#[inline(never)]
pub fn check_tables(image: &[u8]) -> Result<(), Refusal> {
    replay(&tables_of(image)?, |_, _, _| {})
}

/// Rebuilds the timetable image of a table image and gives back its length.
#[inline(never)]
pub fn rebuild(image: &[u8], out: &mut [u8]) -> Result<usize, Refusal> {
    let tables = tables_of(image)?;
    replay(&tables, |_, _, _| {})?;
    let front = TS + TK * tables.jobs.n;
    let length = front + SL * tables.jobs.all + EN;
    let Some(out) = out.get_mut(..length) else {
        return refuse(20, no_record(0));
    };
    let (sls, en) = out[front..].split_at_mut(SL * tables.jobs.all);
    put_en(en, 1 + tables.jobs.n + tables.jobs.all);
    let mut sls = sls.chunks_exact_mut(SL);
    replay(&tables, |slot, start, _| {
        if let Some(sl) = sls.next() {
            put_sl(sl, slot as u8, start);
        }
    })?;
    out[..front].copy_from_slice(&image[..front]);
    out[3] = TIMETABLE;
    Ok(length)
}

#[cold]
fn refuse<T>(number: u32, at: At) -> Result<T, Refusal> {
    Err(Refusal {
        number,
        place: at.place as u64,
        offset: at.offset as u64,
    })
}

/// Where a refusal is: the index of a record, and the byte at which it begins or would begin.
#[derive(Clone, Copy)]
struct At {
    place: usize,
    offset: usize,
}

impl At {
    /// The record behind so many of this length, of which this one is the first. Not inlined: loops
    /// over records would count bytes beside records.
    #[inline(never)]
    fn behind(self, count: usize, length: usize) -> At {
        At {
            place: self.place + count,
            offset: self.offset + count * length,
        }
    }
}

/// A place that is no record's.
fn no_record(place: usize) -> At {
    At { place, offset: 0 }
}

/// The TS record.
const HEAD: At = At {
    place: 0,
    offset: 0,
};

/// The TK record of a task; for n the record behind the last of them.
fn at_task(i: usize) -> At {
    At {
        place: 1 + i,
        offset: TS + TK * i,
    }
}

// ---- Framing ----

/// The TK records of an image and the bytes behind them: numbers 1 to 5.
fn head(image: &[u8], kind: u8) -> Result<(&[u8], &[u8]), Refusal> {
    let (ts, mut rest) = record::<TS>(image, b"TS", HEAD)?;
    if ts[2] != 1 {
        return refuse(3, HEAD);
    }
    if ts[3] != kind {
        return refuse(4, HEAD);
    }
    let n = usize::from(ts[4]);
    if n < 1 || n > SLOTS {
        return refuse(5, HEAD);
    }
    for i in 0..n {
        (_, rest) = record::<TK>(rest, b"TK", at_task(i))?;
    }
    Ok((&image[TS..TS + TK * n], rest))
}

/// The record of L bytes at the front, and the bytes behind it: numbers 1 and 2.
fn record<'a, const L: usize>(
    bytes: &'a [u8],
    mark: &[u8; 2],
    at: At,
) -> Result<(&'a [u8; L], &'a [u8]), Refusal> {
    if bytes.len() >= 2 && !bytes.starts_with(mark) {
        return refuse(2, at);
    }
    match bytes.split_first_chunk() {
        Some(parts) => Ok(parts),
        None => refuse(1, at),
    }
}

/// How many whole records of L bytes with this mark are at the front.
fn whole<const L: usize>(bytes: &[u8], mark: &[u8; 2]) -> usize {
    let records = bytes.chunks_exact(L);
    records
        .take_while(|record| record.starts_with(mark))
        .count()
}

/// The framing from an SL or EN on that stands there: numbers 1, 2 and 10.
fn frame_entries(rest: &[u8], at: At) -> Result<(), Refusal> {
    let count = whole::<SL>(rest, b"SL");
    frame_end(&rest[SL * count..], b"SL", at.behind(count, SL))
}

/// The framing from an ID, PV or EN on that stands there: numbers 1, 2 and 10.
fn frame_tables(rest: &[u8], at: At) -> Result<(), Refusal> {
    let count = whole::<ID>(rest, b"ID");
    let (rest, at) = (&rest[ID * count..], at.behind(count, ID));
    if rest.starts_with(b"ID") {
        return refuse(1, at);
    }
    frame_inversions(rest, at)
}

/// The framing from a PV or EN on that stands there: numbers 1, 2 and 10.
fn frame_inversions(rest: &[u8], at: At) -> Result<(), Refusal> {
    let count = whole::<PV>(rest, b"PV");
    frame_end(&rest[PV * count..], b"PV", at.behind(count, PV))
}

/// The framing behind the last whole record with this mark: numbers 1, 2 and 10.
fn frame_end(rest: &[u8], mark: &[u8; 2], at: At) -> Result<(), Refusal> {
    if rest.starts_with(mark) {
        return refuse(1, at);
    }
    let (en, behind) = record::<EN>(rest, b"EN", at)?;
    if four(en, 2) as usize != at.place || !behind.is_empty() {
        return refuse(10, at);
    }
    Ok(())
}

/// The number in the four bytes from there on.
#[inline(always)]
fn four(bytes: &[u8], at: usize) -> u32 {
    u32::from_be_bytes([bytes[at], bytes[at + 1], bytes[at + 2], bytes[at + 3]])
}

// ---- Sets ----

/// The jobs of a cycle that have not started yet. A task without such a job, and a slot that is
/// no task's, has a release that is not below the hyperperiod.
#[derive(Clone)]
struct Jobs {
    n: usize,
    all: usize,
    hyperperiod: u32,
    tasks: [Task; SLOTS],
}

/// The release of a task's next job, how long it may wait, its time and its period.
#[derive(Clone, Copy)]
struct Task {
    release: u32,
    slack: u32,
    time: u32,
    period: u32,
}

const NO_TASK: Task = Task {
    release: u32::MAX,
    slack: 0,
    time: 0,
    period: 0,
};

/// The jobs of the set that the TK records give: numbers 6 to 9.
fn judge_set(tks: &[u8]) -> Result<Jobs, Refusal> {
    let mut tasks = [NO_TASK; SLOTS];
    let mut hyperperiod = 1;
    let mut before = 0;
    for ((i, task), tk) in tasks.iter_mut().enumerate().zip(tks.chunks_exact(TK)) {
        let [release, time, period, deadline] = [2, 6, 10, 14].map(|at| four(tk, at));
        if time < 1 || time > deadline || deadline > period || release > period - deadline {
            return refuse(6, at_task(i));
        }
        if period < before {
            return refuse(7, at_task(i));
        }
        if period > before {
            hyperperiod = common_multiple(hyperperiod, period);
        }
        *task = Task {
            release,
            slack: deadline - time,
            time,
            period,
        };
        before = period;
    }
    if hyperperiod > MOST_HYPERPERIOD {
        return refuse(8, no_record(0));
    }
    let n = tks.len() / TK;
    let counts = tasks[..n].iter().map(|task| hyperperiod / task.period);
    let all = counts.sum::<u32>();
    if all > MOST_JOBS {
        return refuse(9, no_record(0));
    }
    Ok(Jobs {
        n,
        all: all as usize,
        hyperperiod,
        tasks,
    })
}

/// The jobs of a set; a bad one is refused only where the framing behind the TK records is right.
fn jobs_of(
    tks: &[u8],
    rest: &[u8],
    frame: fn(&[u8], At) -> Result<(), Refusal>,
) -> Result<Jobs, Refusal> {
    let jobs = judge_set(tks);
    if jobs.is_err() {
        frame(rest, at_task(tks.len() / TK))?;
    }
    jobs
}

/// The least common multiple, or a number that is too long for a hyperperiod where it is.
fn common_multiple(a: u32, b: u32) -> u32 {
    if a > MOST_HYPERPERIOD || b > MOST_HYPERPERIOD {
        return u32::MAX;
    }
    let (mut x, mut y) = (b, a % b);
    if y == 0 {
        return a;
    }
    while y != 0 {
        (x, y) = (y, x % y);
    }
    a / x * b
}

// ---- Entries ----

/// An entry, and the end of the one before it.
struct Entry {
    slot: usize,
    start: u32,
    free: u32,
}

/// Goes once over the records behind the TK records, calls `each` for every entry before its job
/// is taken, and gives back the entries' records: numbers 1, 2 and 10, then 11 to 16.
#[inline(always)]
fn scan(
    mut jobs: Jobs,
    records: &[u8],
    mut each: impl FnMut(&Jobs, &Entry),
) -> Result<&[u8], Refusal> {
    let mut rest = records;
    let mut free = 0;
    while let Some((sl, behind)) = rest.split_first_chunk::<SL>() {
        if !sl.starts_with(b"SL") {
            break;
        }
        let (task, start) = (usize::from(sl[2]), four(sl, 3));
        if !jobs.allow(task, start, free) {
            let at = at_task(jobs.n).behind((records.len() - rest.len()) / SL, SL);
            frame_entries(rest, at)?;
            return refuse(jobs.broken_by(task, start, free), at);
        }
        let slot = task % SLOTS;
        each(&jobs, &Entry { slot, start, free });
        let task = &mut jobs.tasks[slot];
        task.release += task.period;
        free = start + task.time;
        rest = behind;
    }
    let entries = &records[..records.len() - rest.len()];
    let at = at_task(jobs.n).behind(entries.len() / SL, SL);
    frame_end(rest, b"SL", at)?;
    match jobs.missing() {
        Some(task) => refuse(16, no_record(task)),
        None => Ok(entries),
    }
}

impl Jobs {
    /// Whether the task's next job may start.
    #[inline(always)]
    fn allow(&self, task: usize, start: u32, free: u32) -> bool {
        let Some(task) = self.tasks.get(task) else {
            return false;
        };
        let waited = start.wrapping_sub(task.release);
        waited <= task.slack && start >= free && start < self.hyperperiod
    }

    /// The number of the rule that an entry breaks.
    #[cold]
    fn broken_by(&self, task: usize, start: u32, free: u32) -> u32 {
        if task >= self.n {
            return 11;
        }
        match self.tasks[task].release {
            release if release >= self.hyperperiod => 12,
            release if start < release => 13,
            _ if start < free => 14,
            _ => 15,
        }
    }

    fn least_release(&self) -> u32 {
        let tasks = self.tasks[..self.n].iter();
        tasks.fold(u32::MAX, |least, task| least.min(task.release))
    }

    /// The lowest task with a job that has not started.
    fn missing(&self) -> Option<usize> {
        let waits = |task: &Task| task.release < self.hyperperiod;
        self.tasks.iter().position(waits)
    }
}

// ---- Irregularities ----

/// Checks the entries, counts their irregularities, and goes over the entries again to write them.
#[inline(always)]
fn derive_entries<const WORDS: usize>(
    image: &[u8],
    jobs: Jobs,
    records: &[u8],
    out: &mut [u8],
) -> Result<usize, Refusal> {
    let mut releases = Releases::<WORDS>::new(&jobs);
    let mut idles = 0;
    let mut of_task = [0; SLOTS];
    let entries = scan(jobs.clone(), records, |jobs, entry| {
        let (idle, inversion) = releases.step(entry, jobs.tasks[entry.slot].period);
        idles += usize::from(idle);
        of_task[entry.slot] += usize::from(inversion);
    })?;
    let inversions = of_task.iter().sum::<usize>();
    let front = TS + TK * jobs.n;
    let length = front + ID * idles + PV * inversions + EN;
    let Some(out) = out.get_mut(..length) else {
        return refuse(20, no_record(0));
    };
    let (head, body) = out.split_at_mut(front);
    let (ids, body) = body.split_at_mut(ID * idles);
    let (pvs, en) = body.split_at_mut(PV * inversions);
    head.copy_from_slice(&image[..front]);
    head[3] = TABLES;
    put_en(en, 1 + jobs.n + idles + inversions);
    write::<WORDS>(jobs, entries, ids, pvs, first_places(&of_task, 0));
    Ok(length)
}

/// The releases of the tasks' next jobs, three to a word: one subtraction compares all three with
/// an instant, and leaves the top bit of each lane that is not later.
struct Releases<const WORDS: usize>([u64; WORDS]);

const WIDTH: usize = 21;
const LANES: u64 = 1 | 1 << WIDTH | 1 << (2 * WIDTH);
const TOPS: u64 = LANES << (WIDTH - 1);

/// For each task the top bits of the lower-numbered ones.
const LOWER: [[u64; 6]; SLOTS] = {
    let mut lower = [[0; 6]; SLOTS];
    let mut slot = 1;
    while slot < SLOTS {
        lower[slot] = lower[slot - 1];
        lower[slot][(slot - 1) / 3] |= 1 << (WIDTH * ((slot - 1) % 3) + WIDTH - 1);
        slot += 1;
    }
    lower
};

impl<const WORDS: usize> Releases<WORDS> {
    fn new(jobs: &Jobs) -> Releases<WORDS> {
        let mut words = [TOPS - LANES; WORDS];
        for (slot, task) in jobs.tasks[..jobs.n].iter().enumerate() {
            let later = (1 << (WIDTH - 1)) - 1 - u64::from(task.release);
            words[slot / 3] -= later << (WIDTH * (slot % 3));
        }
        Releases(words)
    }

    /// Whether an entry comes after a forced idle and whether it is an inversion; its job is
    /// taken out.
    #[inline(always)]
    fn step(&mut self, entry: &Entry, period: u32) -> (bool, bool) {
        let now = (LANES * u64::from(entry.start)) | TOPS;
        let (mut earlier, mut lower) = (0, 0);
        for (word, mask) in self.0.iter().zip(&LOWER[entry.slot]) {
            earlier |= now - LANES - word;
            lower |= (now - word) & mask;
        }
        self.0[entry.slot / 3 % WORDS] += u64::from(period) << (WIDTH * (entry.slot % 3));
        let idle = (entry.start > entry.free) & (earlier & TOPS != 0);
        (idle, lower != 0)
    }
}

/// Writes the ID and the PV records of a valid timetable; `at` is where each task's first PV goes.
#[inline(always)]
fn write<const WORDS: usize>(
    mut jobs: Jobs,
    entries: &[u8],
    ids: &mut [u8],
    pvs: &mut [u8],
    mut at: [usize; SLOTS],
) {
    let mut releases = Releases::<WORDS>::new(&jobs);
    let mut ids = ids.chunks_exact_mut(ID);
    let mut next = [0u16; SLOTS];
    let mut free = 0;
    for sl in entries.chunks_exact(SL) {
        let (slot, start) = (usize::from(sl[2]) % SLOTS, four(sl, 3));
        let entry = Entry { slot, start, free };
        let (idle, inversion) = releases.step(&entry, jobs.tasks[slot].period);
        if idle {
            let earliest = free.max(jobs.least_release());
            if let Some(id) = ids.next() {
                put_id(id, earliest, start - earliest);
            }
        }
        let task = &mut jobs.tasks[slot];
        if inversion {
            let pv = &mut pvs[at[slot]..][..PV];
            put_pv(pv, sl[2], next[slot], start - task.release);
            at[slot] += PV;
        }
        next[slot] += 1;
        task.release += task.period;
        free = start + task.time;
    }
}

/// Where the first PV of each task goes, given how many each has and where the first of all goes.
fn first_places(counts: &[usize; SLOTS], first: usize) -> [usize; SLOTS] {
    let mut place = first;
    counts.map(|count| {
        let first = place;
        place += PV * count;
        first
    })
}

// ---- Tables ----

const ID_MARK: u64 = u16::from_be_bytes(*b"ID") as u64;
const PV_MARK: u64 = u16::from_be_bytes(*b"PV") as u64;

/// A table image whose framing, set and records are right: where its first ID and its first PV
/// are, and for each task its first PV, else the first of a higher task, else EN.
struct Tables<'a> {
    image: &'a [u8],
    jobs: Jobs,
    ids: usize,
    pvs: usize,
    of_task: [usize; SLOTS],
}

/// Goes once over the records of a table image: numbers 1 to 10, then 17.
fn tables_of(image: &[u8]) -> Result<Tables<'_>, Refusal> {
    let (tks, rest) = head(image, TABLES)?;
    let jobs = jobs_of(tks, rest, frame_tables)?;
    let ids = image.len() - rest.len();
    let rest = idles(&jobs, rest)?;
    let pvs = image.len() - rest.len();
    let at = at_task(jobs.n).behind((pvs - ids) / ID, ID);
    if rest.starts_with(b"ID") {
        return refuse(1, at);
    }
    let counts = inversions(&jobs, rest, at)?;
    let of_task = first_places(&counts, pvs);
    Ok(Tables {
        image,
        jobs,
        ids,
        pvs,
        of_task,
    })
}

/// The bytes behind the ID records.
fn idles<'a>(jobs: &Jobs, records: &'a [u8]) -> Result<&'a [u8], Refusal> {
    let mut rest = records;
    let mut least = 0;
    while let Some((id, behind)) = rest.split_first_chunk::<ID>() {
        let word = u64::from_be_bytes(*id);
        if word >> 48 != ID_MARK {
            break;
        }
        let (start, length) = (word >> 16 & 0xFFFF_FFFF, word & 0xFFFF);
        if start < least || length < 1 || start + length >= u64::from(jobs.hyperperiod) {
            let at = at_task(jobs.n).behind((records.len() - rest.len()) / ID, ID);
            frame_tables(rest, at)?;
            return refuse(17, at);
        }
        least = start + length + 1;
        rest = behind;
    }
    Ok(rest)
}

/// How many PV records each task has, the first record standing there.
fn inversions(jobs: &Jobs, records: &[u8], first: At) -> Result<[usize; SLOTS], Refusal> {
    let mut counts = [0; SLOTS];
    let mut rest = records;
    let mut least = 0;
    while let Some((pv, behind)) = rest.split_first_chunk::<PV>() {
        let (key, delay) = key_and_delay(pv);
        if key >> 24 != PV_MARK {
            break;
        }
        let (task, job) = ((key >> 16) as u8, key as u16);
        if key < least || !jobs.allow_inversion(task, job, delay) {
            let at = first.behind((records.len() - rest.len()) / PV, PV);
            frame_inversions(rest, at)?;
            return refuse(17, at);
        }
        counts[usize::from(task) % SLOTS] += 1;
        least = key + 1;
        rest = behind;
    }
    let count = (records.len() - rest.len()) / PV;
    frame_end(rest, b"PV", first.behind(count, PV))?;
    Ok(counts)
}

/// The mark, the task and the job of a PV as one number, and its delay.
#[inline(always)]
fn key_and_delay(pv: &[u8; PV]) -> (u64, u32) {
    let [front @ .., last] = *pv;
    let word = u64::from_be_bytes(front);
    (word >> 24, (word as u32) << 8 | u32::from(last))
}

impl Jobs {
    /// Whether a PV is in its range; nothing has started.
    #[inline(always)]
    fn allow_inversion(&self, task: u8, job: u16, delay: u32) -> bool {
        let Some(task) = self.tasks.get(usize::from(task)) else {
            return false;
        };
        let release = task.release + u32::from(job) * task.period;
        release < self.hyperperiod && delay <= task.slack
    }
}

// ---- Replay ----

/// A task's next job while the tables are replayed: its release, the offset of the task's next PV,
/// and what its own PV would hold behind the first byte, but for the delay.
#[derive(Clone, Copy)]
struct Next {
    release: u32,
    pv: usize,
    own: u64,
}

/// Replays the tables and calls `each` for every start, with how long the job waited: number 18, then 19.
#[inline(always)]
fn replay(tables: &Tables, mut each: impl FnMut(usize, u32, u32)) -> Result<(), Refusal> {
    let Tables { image, jobs, .. } = tables;
    let mut next: [Next; SLOTS] = std::array::from_fn(|slot| Next {
        release: jobs.tasks[slot].release,
        pv: tables.of_task[slot],
        own: u64::from(b'V') << 56 | (slot as u64) << 48,
    });
    let next = &mut next[..jobs.n];
    let mut id = tables.ids;
    let mut useless = usize::MAX;
    let mut free = 0;
    let mut started = 0;
    while started < jobs.all {
        let releases = next.iter().map(|next| next.release);
        let instant = releases.fold(u32::MAX, u32::min).max(free);
        if let Some(length) = idle_at(image, id, instant) {
            id += ID;
            free = instant + length;
            continue;
        }
        let waiting = waiting(next, instant);
        let slot = chosen(image, next, waiting, instant);
        let (task, next) = (&jobs.tasks[slot], &mut next[slot]);
        let waited = instant - next.release;
        if waited > task.slack {
            return refuse(18, no_record(started));
        }
        if inversion_at(image, next.pv) >> 32 == next.own >> 32 {
            let lower_waits = waiting & ((1 << slot) - 1) != 0;
            if !lower_waits {
                useless = useless.min(next.pv);
            }
            next.pv += PV;
        }
        next.own += 1 << 32;
        next.release += task.period;
        if next.release >= jobs.hyperperiod {
            next.release = u32::MAX;
        }
        each(slot, instant, waited);
        free = instant + task.time;
        started += 1;
    }
    all_used(tables, id, useless)
}

/// The tasks that wait, one bit for each.
#[inline(always)]
fn waiting(next: &[Next], instant: u32) -> u32 {
    let bits = next.iter().rev();
    bits.fold(0, |waiting, next| {
        2 * waiting | u32::from(next.release <= instant)
    })
}

/// The lowest waiting task whose PV is for this instant, else the lowest that waits.
#[inline(always)]
fn chosen(image: &[u8], next: &[Next], waiting: u32, instant: u32) -> usize {
    let mut left = waiting;
    while left != 0 {
        let slot = left.trailing_zeros() as usize;
        let task = &next[slot];
        let wanted = task.own | u64::from(instant - task.release);
        if inversion_at(image, task.pv) == wanted {
            return slot;
        }
        left &= left - 1;
    }
    waiting.trailing_zeros() as usize % SLOTS
}

/// What the PV at an offset holds behind its first byte; 0 where EN is.
#[inline(always)]
fn inversion_at(image: &[u8], at: usize) -> u64 {
    match image.get(at + 1..at + PV) {
        Some(&[a, b, c, d, e, f, g, h]) => u64::from_be_bytes([a, b, c, d, e, f, g, h]),
        _ => 0,
    }
}

/// The length of the idle at the ID offset, if it is one from this instant on.
#[inline(always)]
fn idle_at(image: &[u8], at: usize, instant: u32) -> Option<u32> {
    let (id, _) = image[at..].split_first_chunk()?;
    let word = u64::from_be_bytes(*id);
    (word >> 16 == ID_MARK << 32 | u64::from(instant)).then_some(word as u32 & 0xFFFF)
}

/// Number 19 for the first ID that was not used, else for the first PV that changed nothing.
fn all_used(tables: &Tables, id: usize, useless: usize) -> Result<(), Refusal> {
    let first = at_task(tables.jobs.n);
    if id < tables.pvs {
        return refuse(19, first.behind((id - tables.ids) / ID, ID));
    }
    if useless < tables.image.len() {
        let first = first.behind((tables.pvs - tables.ids) / ID, ID);
        return refuse(19, first.behind((useless - tables.pvs) / PV, PV));
    }
    Ok(())
}

// ---- Records ----

fn put_en(en: &mut [u8], number: usize) {
    en[..2].copy_from_slice(b"EN");
    en[2..].copy_from_slice(&(number as u32).to_be_bytes());
}

fn put_sl(sl: &mut [u8], task: u8, start: u32) {
    sl[..3].copy_from_slice(&[b'S', b'L', task]);
    sl[3..].copy_from_slice(&start.to_be_bytes());
}

fn idle_length(id: &[u8]) -> u32 {
    u32::from(u16::from_be_bytes([id[6], id[7]]))
}

fn put_id(id: &mut [u8], start: u32, length: u32) {
    id.copy_from_slice(&(ID_MARK << 48 | u64::from(start) << 16 | u64::from(length)).to_be_bytes());
}

fn put_pv(pv: &mut [u8], task: u8, job: u16, delay: u32) {
    let front =
        PV_MARK << 48 | u64::from(task) << 40 | u64::from(job) << 24 | u64::from(delay) >> 8;
    pv[..8].copy_from_slice(&front.to_be_bytes());
    pv[8] = delay as u8;
}
