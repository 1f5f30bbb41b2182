//! Reading with a bound, and writing whole or not at all. `-` is standard input or output.

use std::ffi::{OsStr, OsString};
use std::fs::{self, File, OpenOptions, Permissions};
use std::io::{self, ErrorKind, Read, Write};
use std::path::{Path, PathBuf};

/// The most bytes that are read: far above any accepted image, far below what would fill a memory.
pub const MOST_READ: usize = 1 << 20;

const FOLDER: &str = "is a folder";

pub enum Content {
    Whole(Vec<u8>),
    /// There are more bytes than were wanted.
    TooLong,
}

/// A file that is being read.
pub struct Source {
    name: OsString,
    reader: Box<dyn Read>,
}

pub fn open(name: &OsStr) -> Result<Source, String> {
    if name != "-" && Path::new(name).is_dir() {
        return Err(format!("{}: {FOLDER}", shown(name)));
    }
    let reader: Box<dyn Read> = match name == "-" {
        true => Box::new(io::stdin().lock()),
        false => Box::new(File::open(name).map_err(|error| unread(name, &error))?),
    };
    let name = name.to_os_string();
    Ok(Source { name, reader })
}

impl Source {
    /// Reads so many bytes more behind what is there, fewer where the file ends; gives whether it did.
    pub fn read_on(&mut self, most: usize, content: &mut Vec<u8>) -> Result<bool, String> {
        let reader = &mut self.reader;
        let read = reader.take(most as u64).read_to_end(content);
        let read = read.map_err(|error| unread(&self.name, &error))?;
        Ok(read < most)
    }
}

fn unread(name: &OsStr, error: &io::Error) -> String {
    format!("{}: {}", shown(name), reason(error, "read"))
}

/// The content of a file, of at most so many bytes.
pub fn read(name: &OsStr, most: usize) -> Result<Content, String> {
    let mut content = Vec::new();
    open(name)?.read_on(most + 1, &mut content)?;
    Ok(match content.len() > most {
        true => Content::TooLong,
        false => Content::Whole(content),
    })
}

/// A file's name as it is printed: no control characters, whatever the name holds.
pub fn shown(name: &OsStr) -> String {
    if name == "-" {
        return "standard input".to_string();
    }
    if name.is_empty() {
        return "''".to_string();
    }
    let text = name.to_string_lossy();
    let safe = |letter: char| if letter.is_control() { '?' } else { letter };
    text.chars().map(safe).collect()
}

/// Writes a whole file or none: beside it first, then under its name. What is no regular file, such as a
/// pipe or a device, is written to as it is.
pub fn write(name: &OsStr, content: &[u8]) -> Result<(), String> {
    if name == "-" {
        return print(content);
    }
    let outcome = replace(Path::new(name), content);
    outcome.map_err(|error| format!("{}: {}", shown(name), reason(&error, "written")))
}

fn replace(path: &Path, content: &[u8]) -> io::Result<()> {
    let (path, permissions) = match fs::metadata(path) {
        Ok(old) if old.is_dir() => return Err(io::Error::other(FOLDER)),
        Ok(old) if !old.is_file() => return to_device(path, content),
        Ok(old) if old.permissions().readonly() => return Err(ErrorKind::PermissionDenied.into()),
        Ok(old) => (fs::canonicalize(path)?, Some(old.permissions())),
        Err(_) => (path.to_path_buf(), None),
    };
    let beside = name_beside(&path)?;
    let outcome =
        write_new(&beside, content, permissions).and_then(|()| fs::rename(&beside, &path));
    if outcome.is_err() {
        // It is of no use; that it cannot be removed either adds nothing to the error.
        let _ = fs::remove_file(&beside);
    }
    outcome
}

fn to_device(path: &Path, content: &[u8]) -> io::Result<()> {
    OpenOptions::new()
        .write(true)
        .open(path)?
        .write_all(content)
}

/// A hidden name in the same folder, of this process alone.
fn name_beside(path: &Path) -> io::Result<PathBuf> {
    let name = path.file_name().ok_or(ErrorKind::InvalidInput)?;
    let mut hidden = OsString::from(".");
    hidden.push(name);
    hidden.push(format!(".hv-{}", std::process::id()));
    Ok(path.with_file_name(hidden))
}

fn write_new(path: &Path, content: &[u8], permissions: Option<Permissions>) -> io::Result<()> {
    let mut file = OpenOptions::new().write(true).create_new(true).open(path)?;
    if let Some(permissions) = permissions {
        file.set_permissions(permissions)?;
    }
    file.write_all(content)?;
    file.sync_all()
}

/// Prints to standard output. A reader that went away is no error: it had what it wanted.
pub fn print(content: &[u8]) -> Result<(), String> {
    let mut out = io::stdout().lock();
    match out.write_all(content).and_then(|()| out.flush()) {
        Err(error) if error.kind() != ErrorKind::BrokenPipe => {
            Err(format!("standard output: {}", reason(&error, "written")))
        }
        _ => Ok(()),
    }
}

/// Prints to standard error, where a message that cannot be written is lost.
pub fn complain(text: &str) {
    let _ = io::stderr().lock().write_all(text.as_bytes());
}

fn reason(error: &io::Error, done: &str) -> String {
    match error.kind() {
        ErrorKind::NotFound if done == "read" => "there is no such file".to_string(),
        ErrorKind::NotFound => "there is no such folder".to_string(),
        ErrorKind::PermissionDenied => format!("may not be {done}"),
        ErrorKind::Other => error.to_string(),
        _ => format!("cannot be {done}: {error}"),
    }
}
