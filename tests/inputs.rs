//! Cases of a program as files: `inputs FOLDER` reads `OP BYTES => LINES` from standard input, one a line, and writes
//! of each the bytes to N.in and the lines to N.out in the folder, N from 1 on.

#[allow(dead_code)]
mod hex;

use std::fs::write;
use std::io::{stdin, BufRead};

fn main() {
    let folder = std::env::args().nth(1).expect("a folder");
    for (index, line) in stdin().lock().lines().enumerate() {
        let line = line.expect("standard input can be read");
        let (case, lines) = line.split_once(" => ").expect("a case with its lines");
        let bytes = case
            .split_once(' ')
            .and_then(|(_, image)| hex::bytes_from(image));
        let bytes = bytes.expect("bytes in hex");
        let file = format!("{folder}/{}", index + 1);
        write(format!("{file}.in"), bytes).expect("the folder takes files");
        write(format!("{file}.out"), lines.replace('|', "\n") + "\n")
            .expect("the folder takes files");
    }
}
