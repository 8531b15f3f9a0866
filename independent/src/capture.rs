//! Captures of other programmers' sessions, held against the stand-in.

use std::fmt;

use crate::answers::Answers;
use crate::lines::{LineRunner, run_lines, some_hex_bytes};
use crate::standin::StandIn;

/// The most bytes of a capture.
pub const MOST_BYTES: usize = 4_194_304;

/// What is said of a capture that is longer.
pub const TOO_LONG: &str = "capture: input over 4,194,304 bytes";

#[derive(Clone, Copy, Debug, PartialEq, Eq)]
pub enum Verdict {
    Accepted,
    /// The first wrong line, or one past the end.
    Wrong(usize),
    BadForm(usize),
    D0,
}

impl fmt::Display for Verdict {
    fn fmt(&self, out: &mut fmt::Formatter) -> fmt::Result {
        match self {
            Verdict::Accepted => out.write_str("accepted"),
            Verdict::Wrong(line) => write!(out, "wrong line {line}"),
            Verdict::BadForm(line) => write!(out, "bad form line {line}"),
            Verdict::D0 => out.write_str("refused D0"),
        }
    }
}

enum Line {
    PowerOn,
    ToChip(Vec<u8>),
    FromChip(Vec<u8>),
}

impl Line {
    /// Reads a line with its LF; None if the form is bad.
    fn read(line: &[u8]) -> Option<Line> {
        let line = line.strip_suffix(b"\n")?;
        let words: Vec<&[u8]> = line.split(|&byte| byte == b' ').collect();
        match &words[..] {
            [b"!"] => Some(Line::PowerOn),
            [b">", pairs @ ..] => some_hex_bytes(pairs).map(Line::ToChip),
            [b"<", pairs @ ..] => some_hex_bytes(pairs).map(Line::FromChip),
            _ => None,
        }
    }
}

/// Judges a capture of a session that began with this chip, power off.
pub fn judge(capture: &[u8], mut chip: StandIn) -> Verdict {
    if chip.model().check().is_err() {
        return Verdict::D0;
    }
    // What the chip gave to the line before.
    let mut due: Vec<u8> = Vec::new();
    let mut number = 0;
    for line in capture.split_inclusive(|&byte| byte == b'\n') {
        number += 1;
        let Some(line) = Line::read(line) else {
            return Verdict::BadForm(number);
        };
        let fits = match &line {
            Line::FromChip(bytes) => !due.is_empty() && *bytes == due,
            Line::PowerOn => due.is_empty(),
            Line::ToChip(_) => due.is_empty() && number > 1,
        };
        if !fits {
            return Verdict::Wrong(number);
        }
        due = match line {
            Line::FromChip(_) => Vec::new(),
            Line::PowerOn => match chip.power_on() {
                Ok(()) => Vec::new(),
                Err(_) => return Verdict::D0,
            },
            Line::ToChip(bytes) => chip.receive_all(&bytes),
        };
    }
    if number == 0 || !due.is_empty() {
        return Verdict::Wrong(number + 1);
    }
    Verdict::Accepted
}

/// The chip that the lines of a chip file state, fresh and small if they say
/// nothing; or what is said of a bad line.
pub fn stated_chip(lines: &[u8]) -> Result<StandIn, String> {
    let mut file = ChipFile(Answers::new());
    let told = run_lines(lines, &mut file);
    if told.is_empty() {
        return Ok(file.0.chip().clone());
    }
    Err(format!("capture: CHIPFILE: {}", told.trim_end()))
}

/// Takes the lines of `answers` that state a chip, and no others.
struct ChipFile(Answers);

impl LineRunner for ChipFile {
    fn run(&mut self, words: &[&[u8]], out: &mut String) -> Option<()> {
        match words.first() {
            Some(&(b"chip" | b"fresh" | b"options" | b"code" | b"data")) => self.0.run(words, out),
            _ => None,
        }
    }
}
