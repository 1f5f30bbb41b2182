//! The desk program `hv`: schedule images checked, turned into each other, listed, shown, drawn,
//! compared and reported on. `help.txt` is its manual.

mod about_framing;
mod about_sets;
mod about_tables;
mod about_timetables;
mod archive;
mod axes;
mod draw;
mod explain;
mod files;
mod line;
mod list;
mod messages;
mod records;
mod replay;
mod report;
mod rows;
mod show;
mod why;
mod wording;

use archive::{Kind, Refusal};
use axes::Axis;
use explain::LONGEST_PRINTED;
use files::{shown, Content, MOST_READ};
use line::Line;
use messages::{Asked, TOO_LONG};
use records::{decode, kind_of};
use std::ffi::{OsStr, OsString};
use std::process::ExitCode;

const HELP: &str = include_str!("help.txt");

const ACCEPTED: u8 = 0;
const REFUSED: u8 = 1;
const MISUSED: u8 = 2;

/// What the command line asks for.
struct Order {
    files: Vec<OsString>,
    plain: bool,
    kind: Option<Kind>,
    /// Whether the command's own option is given.
    own: bool,
}

/// What a command comes to: a text for each stream, and the exit status.
struct Told {
    out: String,
    complaint: String,
    status: u8,
}

type Command = fn(&Order) -> Result<Told, String>;

/// Each command with the files that it takes, `MORE` for any number of one or more, and the option of its own.
const COMMANDS: [(&str, &[&str], &str, Command); 8] = [
    ("check", &["FILE"], NONE, check),
    ("derive", &["FILE", "OUT"], NONE, derive),
    ("rebuild", &["FILE", "OUT"], NONE, rebuild),
    ("list", &["FILE"], NONE, list),
    ("show", &["FILE"], NONE, show),
    ("draw", &["FILE", "OUT.svg"], "--intervals", draw),
    ("why", &["FILE", "CHANGED"], NONE, why),
    ("report", &[MORE], "--csv", report),
];

const MORE: &str = "FILE...";
const NONE: &str = "";

fn main() -> ExitCode {
    let words: Vec<OsString> = std::env::args_os().skip(1).collect();
    let status = match run(&words) {
        Ok(told) => {
            files::complain(&told.complaint);
            match files::print(told.out.as_bytes()) {
                Ok(()) => told.status,
                Err(trouble) => misused(&trouble),
            }
        }
        Err(trouble) => misused(&trouble),
    };
    ExitCode::from(status)
}

fn misused(trouble: &str) -> u8 {
    files::complain(&format!("hv: {trouble}\n"));
    MISUSED
}

// ---- The command line ----

fn run(words: &[OsString]) -> Result<Told, String> {
    let Some((command, words)) = words.split_first() else {
        return Ok(Told {
            out: String::new(),
            complaint: usage(),
            status: MISUSED,
        });
    };
    let mut options = words.iter().take_while(|word| *word != "--");
    if command == "help" || is_help(command) || options.any(is_help) {
        return Ok(said(HELP.to_string(), ACCEPTED));
    }
    let known = COMMANDS.iter().find(|(name, ..)| command == *name);
    let Some((name, wanted, own, function)) = known else {
        let command = shown(command);
        return Err(format!("there is no command '{command}'\n{}", usage()));
    };
    let order = order(words, own)?;
    let enough = match *wanted {
        [MORE] => !order.files.is_empty(),
        _ => order.files.len() == wanted.len(),
    };
    if !enough {
        let wanted = wanted.join(" ");
        return Err(format!("the command is: hv {name} {wanted}\n{}", usage()));
    }
    function(&order)
}

fn is_help(word: &OsString) -> bool {
    word == "--help" || word == "-h"
}

fn usage() -> String {
    let mut text = String::from("usage:\n");
    for (name, files, own, _) in COMMANDS {
        let files = files.join(" ");
        text += &match own {
            NONE => format!("  hv {name} {files}\n"),
            own => format!("  hv {name} [{own}] {files}\n"),
        };
    }
    text + "  hv help\noptions: --plain, --kind 1|2; '-' is standard input or output\n"
}

/// The files and options in the words behind a command with this option of its own; behind `--` every word is
/// a file.
fn order(words: &[OsString], own: &str) -> Result<Order, String> {
    let mut order = Order {
        files: Vec::new(),
        plain: false,
        kind: None,
        own: false,
    };
    let mut words = words.iter();
    while let Some(word) = words.next() {
        match word.to_string_lossy().as_ref() {
            "--plain" => order.plain = true,
            "--kind" => order.kind = Some(kind_from(words.next())?),
            "--" => order.files.extend(words.by_ref().cloned()),
            option if option == own && own != NONE => order.own = true,
            option if option.starts_with('-') && option != "-" => {
                return Err(format!("there is no option '{}'\n{}", shown(word), usage()));
            }
            _ => order.files.push(word.clone()),
        }
    }
    Ok(order)
}

fn kind_from(word: Option<&OsString>) -> Result<Kind, String> {
    match word.and_then(|word| word.to_str()) {
        Some("1") => Ok(Kind::Timetable),
        Some("2") => Ok(Kind::Tables),
        _ => Err(format!(
            "--kind is followed by 1 (timetable) or 2 (tables)\n{}",
            usage()
        )),
    }
}

// ---- What the commands share ----

fn said(out: String, status: u8) -> Told {
    Told {
        out,
        complaint: String::new(),
        status,
    }
}

fn status(verdict: Result<(), Refusal>) -> u8 {
    match verdict {
        Ok(()) => ACCEPTED,
        Err(_) => REFUSED,
    }
}

fn as_kind(kind: Kind) -> Asked {
    Asked { kind, named: true }
}

/// The bytes of a file that may be an image.
fn image_in(name: &OsStr) -> Result<Vec<u8>, String> {
    match files::read(name, MOST_READ)? {
        Content::Whole(bytes) => Ok(bytes),
        Content::TooLong => Err(format!(
            "{}: more than {MOST_READ} bytes, not read further; no image of more than {} bytes is accepted",
            shown(name),
            archive::LONGEST_ACCEPTED
        )),
    }
}

impl Order {
    /// The kind that is asked: by the user, else by the file, else tables, which is what a drive takes.
    fn asked(&self, bytes: &[u8]) -> Asked {
        match self.kind.or(kind_of(bytes)) {
            Some(kind) => as_kind(kind),
            None => Asked {
                kind: Kind::Tables,
                named: false,
            },
        }
    }

    /// The kind that a command always asks; the user may name that one only.
    fn always(&self, kind: Kind) -> Result<Asked, String> {
        match self.kind {
            Some(other) if other != kind => {
                Err(format!("this command takes a {} image", kind.name()))
            }
            _ => Ok(as_kind(kind)),
        }
    }

    fn verdict(&self, bytes: &[u8], asked: Asked, verdict: Result<(), Refusal>) -> String {
        match self.plain {
            true => messages::plain(bytes, verdict),
            false => messages::verdict(&shown(&self.files[0]), bytes, asked, verdict),
        }
    }

    /// Writes what a command made, or tells why there is nothing. Where the output goes to standard
    /// output, the words go to standard error.
    fn hand_over(
        &self,
        bytes: &[u8],
        asked: Asked,
        made: Result<(Vec<u8>, &str), Refusal>,
    ) -> Result<Told, String> {
        let out = &self.files[1];
        let to_stream = out == "-";
        let (text, status) = match made {
            Err(refusal) => (self.verdict(bytes, asked, Err(refusal)), REFUSED),
            Ok((content, what)) => {
                files::write(out, &content)?;
                let text = match (self.plain, to_stream) {
                    (_, true) => String::new(),
                    (true, _) => self.verdict(bytes, asked, Ok(())),
                    _ => format!("{}: {what}, {} bytes\n", shown(out), content.len()),
                };
                (text, ACCEPTED)
            }
        };
        Ok(match to_stream {
            true => Told {
                out: String::new(),
                complaint: text,
                status,
            },
            false => said(text, status),
        })
    }
}

// ---- The commands ----

fn check(order: &Order) -> Result<Told, String> {
    let bytes = image_in(&order.files[0])?;
    let asked = order.asked(&bytes);
    let verdict = archive::check(asked.kind, &bytes);
    Ok(said(order.verdict(&bytes, asked, verdict), status(verdict)))
}

fn derive(order: &Order) -> Result<Told, String> {
    let asked = order.always(Kind::Timetable)?;
    let bytes = image_in(&order.files[0])?;
    let made = archive::derive(&bytes).map(|made| (made, "table image"));
    order.hand_over(&bytes, asked, made)
}

fn rebuild(order: &Order) -> Result<Told, String> {
    let asked = order.always(Kind::Tables)?;
    let bytes = image_in(&order.files[0])?;
    let made = archive::rebuild(&bytes).map(|made| (made, "timetable image"));
    order.hand_over(&bytes, asked, made)
}

/// A listing's own text is document 01's, refusals too; the words about a refusal go to standard error.
fn list(order: &Order) -> Result<Told, String> {
    let (bytes, asked, made) = match files::read(&order.files[0], LONGEST_PRINTED)? {
        Content::TooLong => (Vec::new(), as_kind(Kind::Tables), Err(TOO_LONG)),
        Content::Whole(bytes) => {
            let asked = order.asked(&bytes);
            let made = match asked.kind {
                Kind::Tables => archive::rebuild(&bytes),
                Kind::Timetable => match archive::derive(&bytes) {
                    Ok(tables) if tables.len() > LONGEST_PRINTED => Err(TOO_LONG),
                    Ok(tables) => archive::rebuild(&tables),
                    Err(refusal) => Err(refusal),
                },
            };
            (bytes, asked, made)
        }
    };
    Ok(match made {
        Ok(timetable) => said(list::lines(&timetable), ACCEPTED),
        Err(refusal) => Told {
            out: messages::refused_line(refusal) + "\n",
            complaint: match order.plain {
                true => String::new(),
                false => messages::explanation(&bytes, asked, refusal),
            },
            status: REFUSED,
        },
    })
}

fn show(order: &Order) -> Result<Told, String> {
    let bytes = image_in(&order.files[0])?;
    let asked = order.asked(&bytes);
    let verdict = archive::check(asked.kind, &bytes);
    let mut text = show::dump(&bytes, verdict.err());
    text += &order.verdict(&bytes, asked, verdict);
    Ok(said(text, status(verdict)))
}

fn draw(order: &Order) -> Result<Told, String> {
    let bytes = image_in(&order.files[0])?;
    let asked = order.asked(&bytes);
    let turned = match asked.kind {
        Kind::Timetable => archive::derive(&bytes),
        Kind::Tables => archive::rebuild(&bytes),
    };
    let made = turned.map(|turned| {
        let (timetable, tables) = match asked.kind {
            Kind::Timetable => (&bytes, &turned),
            Kind::Tables => (&turned, &bytes),
        };
        let name = shown(&order.files[0]);
        let summary = messages::summary(asked.kind, &bytes);
        let axis = order.own.then(|| Axis::of_accepted(tables));
        let (timetable, tables) = (decode(timetable), decode(tables));
        let picture = draw::picture(&name, &summary, &timetable, &tables, axis.as_ref());
        (picture.into_bytes(), "picture")
    });
    order.hand_over(&bytes, asked, made)
}

/// The second image is judged as the kind of the first: it is meant for the same drive.
fn why(order: &Order) -> Result<Told, String> {
    let [first, second] = [&order.files[0], &order.files[1]];
    if first == "-" && second == "-" {
        return Err("only one of the two images can be standard input".to_string());
    }
    let (before, after) = (image_in(first)?, image_in(second)?);
    let asked = match order.asked(&before) {
        Asked { named: false, .. } => order.asked(&after),
        named => named,
    };
    let verdict = archive::check(asked.kind, &after);
    if order.plain {
        return Ok(said(messages::plain(&after, verdict), status(verdict)));
    }
    let first_line = match archive::check(asked.kind, &before) {
        Ok(()) => "accepted".to_string(),
        Err(refusal) => messages::refused_line(refusal),
    };
    let mut text = format!(
        "{}: {first_line}, the image to compare with\n{}{}",
        shown(first),
        why::differences(&decode(&before), &decode(&after)),
        messages::verdict(&shown(second), &after, asked, verdict)
    );
    if let (Ok(old), Ok(new)) = (
        timetable(asked.kind, &before),
        timetable(asked.kind, &after),
    ) {
        text += &why::moves(&decode(&old), &decode(&new));
    }
    Ok(said(text, status(verdict)))
}

/// The timetable image of an accepted image: itself, or rebuilt.
fn timetable(kind: Kind, bytes: &[u8]) -> Result<Vec<u8>, Refusal> {
    match kind {
        Kind::Timetable => archive::check(kind, bytes).map(|()| bytes.to_vec()),
        Kind::Tables => archive::rebuild(bytes),
    }
}

/// Each file is a line of table images. A refused image ends its own line, since nobody can tell where the next
/// one would begin; with `--plain` it ends the report, as in the documents.
fn report(order: &Order) -> Result<Told, String> {
    let asked = order.always(Kind::Tables)?;
    if order.files.iter().filter(|name| *name == "-").count() > 1 {
        return Err("only one of the lines can be standard input".to_string());
    }
    let (mut rows, mut plain, mut words) = (Vec::new(), String::new(), String::new());
    for (index, name) in order.files.iter().enumerate() {
        let mut line = Line::new(files::open(name)?);
        while let Some(next) = line.next()? {
            match next {
                Ok(axis) => {
                    plain += &report::lines(&axis);
                    let (file, image) = (shown(name), line.images - 1);
                    rows.push(report::Row { file, image, axis });
                }
                Err(refusal) => {
                    plain += &(messages::refused_line(refusal) + "\n");
                    let file = (index, order.files.len());
                    words += &report::refused(&shown(name), file, line, asked, refusal)?;
                    break;
                }
            }
        }
        if order.plain && !words.is_empty() {
            break;
        }
    }
    let status = if words.is_empty() { ACCEPTED } else { REFUSED };
    Ok(match (order.plain, order.own) {
        (true, _) => said(plain, status),
        (_, false) => said(report::table(&rows) + &words, status),
        (_, true) => Told {
            out: report::csv(&rows),
            complaint: words,
            status,
        },
    })
}
