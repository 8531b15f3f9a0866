//! Seeded trial material. The same seed gives the same text on every machine.

mod blanks;
mod captures;
mod counts;
mod forms;
mod hexes;
pub mod material;
mod plays;
pub mod random;
mod releases;
mod scripts;
mod sheets;

use std::fs;
use std::io;
use std::path::Path;

use crate::answers::Answers;
use crate::joined::bring_up_bytes;
use crate::lines::{LineRunner, MOST_INPUT, byte_line};
use crate::standin::Phase;
use random::Random;

#[derive(Clone, Copy, Debug, PartialEq, Eq)]
pub enum Subject {
    /// Scripts for `answers`: frames to the chip.
    Scripts,
    /// Plays for `frames`: sheets and replies.
    Plays,
    /// Scripts for `answers`: sheets and plays.
    Sheets,
}

impl Subject {
    pub fn from_name(name: &str) -> Option<Subject> {
        match name {
            "scripts" => Some(Subject::Scripts),
            "plays" => Some(Subject::Plays),
            "sheets" => Some(Subject::Sheets),
            _ => None,
        }
    }
}

/// A subject whose cases are files.
#[derive(Clone, Copy, Debug, PartialEq, Eq)]
pub enum FileSubject {
    /// Intel HEX.
    Hex,
    /// Sheets to be moved to the other form.
    Form,
    /// Captures, each with a file that states its chip.
    Capture,
}

impl FileSubject {
    pub fn from_name(name: &str) -> Option<FileSubject> {
        match name {
            "hex" => Some(FileSubject::Hex),
            "form" => Some(FileSubject::Form),
            "capture" => Some(FileSubject::Capture),
            _ => None,
        }
    }
}

/// Writes `count` cases into a directory, as 0001.hex and so on.
pub fn generate_files(subject: FileSubject, seed: u64, count: u64, dir: &Path) -> io::Result<()> {
    fs::create_dir_all(dir)?;
    for case in 0..count {
        let random = Random::for_case(seed, case);
        let path = |ending: &str| dir.join(format!("{:04}.{ending}", case + 1));
        match subject {
            FileSubject::Hex => fs::write(path("hex"), hexes::file(random))?,
            FileSubject::Form => fs::write(path("sheet"), forms::file(random))?,
            FileSubject::Capture => {
                let (capture, chip) = captures::files(random);
                fs::write(path("capture"), capture)?;
                fs::write(path("chip"), chip)?;
            }
        }
    }
    Ok(())
}

/// The text of `count` cases.
pub fn generate(subject: Subject, seed: u64, count: u64) -> String {
    match subject {
        Subject::Scripts => scripts::generate(seed, count),
        Subject::Plays => plays::generate(seed, count),
        Subject::Sheets => sheets::generate(seed, count),
    }
}

/// The text so far, and the program that reads it: each line is run as it is
/// written, so that the next can be chosen by the state it leaves.
struct Tape<R> {
    text: String,
    runner: R,
}

impl<R: LineRunner> Tape<R> {
    fn new(runner: R) -> Tape<R> {
        Tape { text: String::new(), runner }
    }

    /// Whether a long line may still come: the programs read no more than
    /// `MOST_INPUT` bytes, and the cases to come need some of them.
    fn has_room(&self) -> bool {
        self.text.len() < MOST_INPUT / 3
    }

    /// Adds a line, given with or without its LF, and gives what the program
    /// writes for it.
    fn line(&mut self, line: &str) -> String {
        let line = line.trim_end_matches('\n');
        let words: Vec<&[u8]> = line.as_bytes().split(|&byte| byte == b' ').collect();
        let mut out = String::new();
        self.runner
            .run(&words, &mut out)
            .unwrap_or_else(|| panic!("the generator wrote a bad line: {line}"));
        self.text.push_str(line);
        self.text.push('\n');
        out
    }

    fn lines(&mut self, text: &str) {
        for line in text.lines() {
            self.line(line);
        }
    }
}

impl Tape<Answers> {
    fn send(&mut self, bytes: &[u8]) {
        self.line(&byte_line(">", bytes));
    }

    /// Hands over a whole frame, or what should be one.
    fn hand(&mut self, bytes: &[u8]) {
        self.line(&byte_line("frame", bytes));
    }

    /// From power-on past Baud Rate Set.
    fn set_speed(&mut self) {
        self.line("!");
        let [mode, speed, _] = self.bring_up_bytes();
        self.send(&mode);
        self.send(&speed);
    }

    /// Sends the right ID, if it is asked for.
    fn identify(&mut self) {
        if self.runner.chip().phase() == Phase::Ident {
            let [_, _, ident] = self.bring_up_bytes();
            self.send(&ident);
        }
    }

    fn bring_up_bytes(&self) -> [Vec<u8>; 3] {
        bring_up_bytes(self.runner.chip().flash.connection_id())
    }
}
