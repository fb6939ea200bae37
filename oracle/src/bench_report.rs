//! The row of the benchmark for the report program: `tpsreport` beside the same report in Rust (report.rs), each a process of its own from a file to
//! nowhere, on words of which each has 0 to 3 bits wrong. Both must print the same.

use super::{Row, Side};
use crate::fields::orion_word;
use crate::random::Random;
use std::fs::{self, File};
use std::path::{Path, PathBuf};
use std::process::{Command, Stdio};

/// Lines of the file.
const LINES: usize = 200_000;
/// Bits of a word.
const WORD: usize = 68;

/// The row; both programs and the file are in the folder of this one and in `bin` beside it.
pub fn row() -> Row {
    let folder = std::env::current_exe().expect("the benchmark's own place").parent().expect("a folder").to_path_buf();
    let (theirs, ours, file) = (folder.join("report"), folder.join("../bin/tpsreport"), folder.join("words.txt"));
    fs::write(&file, words()).expect("the file of words");
    assert!(printed(&theirs, &file) == printed(&ours, &file), "the two reports differ on {}", file.display());
    let run = |program: PathBuf, file: PathBuf| move || report(&program, &file);
    Row { name: "tpsreport", size: LINES, amount: LINES, asked: Some(2.0), orion: Side::new(run(theirs, file.clone())), ours: Side::new(run(ours, file)), copy: None }
}

/// A line a word, with 0 to 3 bits turned over.
fn words() -> Vec<u8> {
    let mut random = Random::new(10);
    let mut text = Vec::with_capacity(18 * LINES);
    for _ in 0..LINES {
        let [constellation, rate, guard] = [3, 5, 4].map(|codes| random.below(codes) as u8);
        let mut bits = orion_word([random.next() as u8, constellation, rate, guard, random.next() as u8]).expect("codes of the enums").pack();
        for _ in 0..random.below(4) {
            bits[random.between(1, WORD - 1)] ^= 1;
        }
        text.extend(bits.chunks_exact(4).map(|four| b"0123456789abcdef"[four.iter().fold(0, |value, bit| 2 * value + *bit as usize)]));
        text.push(b'\n');
    }
    text
}

/// A program with the file as its input.
fn on(program: &Path, file: &Path) -> Command {
    let mut command = Command::new(program);
    command.stdin(File::open(file).expect("the file of words"));
    command
}

/// Runs a program on the file, its output to nowhere.
fn report(program: &Path, file: &Path) {
    let status = on(program, file).stdout(Stdio::null()).status().expect("the program runs");
    assert!(status.success(), "{} failed", program.display());
}

/// What a program prints for the file.
fn printed(program: &Path, file: &Path) -> Vec<u8> {
    on(program, file).output().expect("the program runs").stdout
}
