//! Fixed cases of large images: the most jobs with the most irregularities, and more records than two
//! bytes can count.

use crate::damage::{pv, sl};
use crate::dispatcher::SLOTS;
use crate::edges::{all_operations, set_of, task};
use crate::form::image_text;
use crate::images::records_of;
use crate::independent::{encode, Entry, Record, Set, TABLES, TIMETABLE, TODAY};
use crate::sweeps::{go, running_start};

/// 4,096 jobs, each of which starts one late, in an order that inverts nearly all of them.
pub fn most_irregularities() -> Vec<String> {
    let mut tasks = vec![task(0, 1, 240, 240); 15];
    tasks.push(task(0, 1, 65_520, 65_520));
    let set = set_of(&tasks);
    let order = (0..273).flat_map(|_| (0..15).rev());
    let mut entries: Vec<Entry> = Vec::new();
    let (mut next, mut free) = ([0; SLOTS], 0);
    for task in std::iter::once(15).chain(order) {
        let start = set.tasks[task].release(next[task]).max(free) + 1;
        entries.push(Entry { task, start });
        next[task] += 1;
        free = start + 1;
    }
    let timetable = encode(&records_of(&set, &entries, TIMETABLE));
    let tables = encode(&records_of(&set, &entries, TABLES));
    let mut cases = all_operations(&timetable, tables.len() as u64);
    cases.extend(all_operations(&tables, timetable.len() as u64));
    cases.extend(all_operations(&timetable, tables.len() as u64 - 1));
    cases.extend(all_operations(&tables, timetable.len() as u64 - 1));
    cases.extend(last_calls(&set, &tables));
    cases
}

/// The calls about the end of a cycle of a large image.
fn last_calls(set: &Set, image: &[u8]) -> Vec<String> {
    let (mut state, _) = TODAY.begin(image);
    let mut cases = Vec::new();
    for call in 0..set.all_jobs() + 3 {
        let end = running_start(set, &state) + 1;
        if call % 512 == 0 || call + 6 > set.all_jobs() {
            cases.push(go(image, &state, end));
        }
        state = TODAY.go_on(image, &state, end).0;
    }
    cases
}

/// More records than two bytes count, with the right number in EN and with its lower half alone.
pub fn most_records() -> Vec<String> {
    let mut cases = Vec::new();
    for (kind, record) in [(TIMETABLE, sl(0, 0)), (TABLES, pv(0, 0, 0))] {
        let head = [
            Record::Ts {
                edition: 1,
                kind,
                n: 1,
            },
            Record::Tk(task(0, 1, 1, 1)),
        ];
        let mut records = head.to_vec();
        records.extend(vec![record; 65_600]);
        let number = records.len() as u64;
        for number in [number, number - 65_536] {
            records.push(Record::En(number));
            let text = image_text(&encode(&records));
            let name = if kind == TIMETABLE {
                "check1"
            } else {
                "check2"
            };
            cases.push(format!("{name} {text}"));
            records.pop();
        }
    }
    cases
}
