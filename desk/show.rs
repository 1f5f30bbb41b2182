//! The hex dump of an image, a line a record: its index, its byte, its bytes by fields and their meaning.

use crate::archive::{Kind, Refusal};
use crate::records::{decode, Body, Fault, Record, Rest, Set};
use crate::wording::many;

/// As wide as the longest record's hex, that of a TK.
const HEX: usize = 41;
const REST_A_LINE: usize = 12;

/// The dump of an image, the line at the byte that a refusal is about marked with `>`.
pub fn dump(bytes: &[u8], refusal: Option<Refusal>) -> String {
    let image = decode(bytes);
    let set = Set::of(&image);
    let numbers = image.job_numbers();
    let marked = refusal.and_then(Refusal::byte);
    let sign = |byte: usize| if marked == Some(byte) { '>' } else { ' ' };
    let mut text = format!("  record    byte      hex  {:HEX$}  meaning\n", "bytes");
    for record in &image.records {
        let (index, byte) = (record.index.to_string(), record.offset);
        let meaning = meaning(record, set.as_ref(), numbers[record.index]);
        text += &line(sign(byte), &index, byte, &hex_by_fields(record), &meaning);
    }
    if let Some(rest) = &image.rest {
        text += &rest_lines(rest, sign(rest.offset));
    } else if marked == Some(bytes.len()) {
        let index = image.records.len().to_string();
        text += &line('>', &index, bytes.len(), "", "nothing, the file ends");
    }
    text
}

fn line(sign: char, index: &str, byte: usize, hex: &str, meaning: &str) -> String {
    let line = format!("{sign} {index:>6}  {byte:6}  {byte:#7X}  {hex:HEX$}  {meaning}");
    line.trim_end().to_string() + "\n"
}

fn hex_by_fields(record: &Record) -> String {
    let mark = &record.bytes[..2];
    let mut text = format!("{:02X} {:02X}", mark[0], mark[1]);
    for (_, bytes, _) in record.fields() {
        text.push(' ');
        text.extend(bytes.iter().map(|byte| format!("{byte:02X}")));
    }
    text
}

fn meaning(record: &Record, set: Option<&Set>, job: u64) -> String {
    let known = |task: u64| set.filter(|set| (task as usize) < set.tasks.len());
    let more = match record.body {
        Body::Ts { kind, .. } => match u8::try_from(kind).ok().and_then(Kind::of_byte) {
            Some(kind) => format!(": a {} image", kind.name()),
            None => String::new(),
        },
        Body::Tk(_) if record.index > 0 => format!(": task {}", record.index - 1),
        Body::Sl { task, start } => known(task).map_or(String::new(), |set| {
            let task = task as usize;
            let end = start + set.tasks[task].time;
            let (release, due) = (set.release(task, job), set.due(task, job));
            format!(": job {job} to {end}, released {release}, due {due}")
        }),
        Body::Id { start, length } => format!(": idle to {}", start + length),
        Body::Pv { task, job, delay } => known(task).map_or(String::new(), |set| {
            format!(": starts at {}", set.release(task as usize, job) + delay)
        }),
        _ => String::new(),
    };
    record.text() + &more
}

fn rest_lines(rest: &Rest, sign: char) -> String {
    let length = many(rest.bytes.len() as u64, "byte");
    let fault = match rest.fault {
        Fault::OneByte => "half a mark".to_string(),
        Fault::NoMark => format!("no mark, {length} to the end"),
        Fault::Cut(form) => format!("{} cut: {length} of {}", form.mark, form.length()),
        Fault::BehindEnd => format!("{length} behind EN"),
    };
    let mut text = String::new();
    for (number, bytes) in rest.bytes.chunks(REST_A_LINE).enumerate() {
        let byte = rest.offset + number * REST_A_LINE;
        let hex: Vec<String> = bytes.iter().map(|byte| format!("{byte:02X}")).collect();
        let hex = hex.join(" ");
        text += &match number {
            0 => line(sign, "-", byte, &hex, &fault),
            _ => line(' ', "", byte, &hex, ""),
        };
    }
    text
}
