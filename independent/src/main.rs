//! A stand-in for an RL78 Protocol C chip, a job sheet player, and trial
//! material for both.

mod answers;
mod calls;
mod capture;
mod check;
mod chip;
mod frames;
mod generator;
mod hex;
mod joined;
mod lines;
mod meaning;
mod note;
mod options;
mod player;
mod results;
mod sheet;
mod standin;
mod status;

use std::fs;
use std::io::{self, Read, Write};
use std::path::Path;
use std::process::ExitCode;

use answers::Answers;
use calls::Calls;
use capture::Verdict;
use chip::Model;
use generator::{FileSubject, Subject};
use hex::MOST_TEXT;
use joined::Played;
use lines::{MOST_INPUT, run_lines};
use player::Refusal;
use sheet::{Form, Jn, MOST_STEPS, move_to};
use standin::StandIn;

const USAGE: &str = "\
usage: sheetplay answers
       sheetplay frames
       sheetplay play
       sheetplay hex
       sheetplay form up|down
       sheetplay capture [CHIPFILE]
       sheetplay meaning-check SEED COUNT
       sheetplay generate scripts|plays|sheets SEED COUNT
       sheetplay generate-files hex|form|capture SEED COUNT DIR
       sheetplay hex-results|form-results|capture-results DIR
";

/// Nothing was done: wrong usage, or input that cannot be read or is too long.
const COULD_NOT_RUN: u8 = 2;

fn main() -> ExitCode {
    let arguments: Vec<String> = std::env::args().skip(1).collect();
    let words: Vec<&str> = arguments.iter().map(String::as_str).collect();
    match run(&words) {
        Ok(Some(code)) => code,
        Ok(None) => {
            eprint!("{USAGE}");
            ExitCode::from(COULD_NOT_RUN)
        }
        Err(error) => {
            eprintln!("sheetplay: {error}");
            ExitCode::from(COULD_NOT_RUN)
        }
    }
}

/// None if the words name no program.
fn run(words: &[&str]) -> io::Result<Option<ExitCode>> {
    let code = match words {
        ["answers"] => tell(run_lines(&read_input(MOST_INPUT)?, &mut Answers::new()))?,
        ["frames"] => tell(run_lines(&read_input(MOST_INPUT)?, &mut Calls::new()))?,
        ["play"] => tell(play(&read_input(Form::MOST_BYTES_OF_ANY)?))?,
        ["hex"] => hex(&read_input(MOST_TEXT)?)?,
        ["form", "up"] => form(Form::Two)?,
        ["form", "down"] => form(Form::One)?,
        ["capture"] => judge_capture(None)?,
        ["capture", chip_file] => judge_capture(Some(Path::new(chip_file)))?,
        ["meaning-check", seed, count] => {
            let (Ok(seed), Ok(count)) = (seed.parse(), count.parse()) else {
                return Ok(None);
            };
            check_meaning(seed, count)?
        }
        ["generate", subject, seed, count] => {
            let (Some(subject), Ok(seed), Ok(count)) =
                (Subject::from_name(subject), seed.parse(), count.parse())
            else {
                return Ok(None);
            };
            tell(generator::generate(subject, seed, count))?
        }
        ["generate-files", subject, seed, count, dir] => {
            let (Some(subject), Ok(seed), Ok(count)) =
                (FileSubject::from_name(subject), seed.parse(), count.parse())
            else {
                return Ok(None);
            };
            generator::generate_files(subject, seed, count, Path::new(dir))?;
            ExitCode::SUCCESS
        }
        ["hex-results", dir] => tell(results::of_hex(Path::new(dir))?)?,
        ["form-results", dir] => tell(results::of_form(Path::new(dir))?)?,
        ["capture-results", dir] => tell(results::of_captures(Path::new(dir))?)?,
        _ => return Ok(None),
    };
    Ok(Some(code))
}

/// Writes to standard output.
fn tell(text: impl AsRef<[u8]>) -> io::Result<ExitCode> {
    io::stdout().write_all(text.as_ref())?;
    Ok(ExitCode::SUCCESS)
}

fn check_meaning(seed: u64, count: u64) -> io::Result<ExitCode> {
    match check::check(seed, count) {
        Ok(()) => tell(format!("ok {count}\n")),
        Err(difference) => {
            tell(format!("{difference}\n"))?;
            Ok(ExitCode::FAILURE)
        }
    }
}

/// The `hex` program: a sheet, or one line on standard error.
fn hex(text: &[u8]) -> io::Result<ExitCode> {
    if text.len() > MOST_TEXT {
        eprintln!("{}", hex::TOO_LONG);
        return Ok(ExitCode::from(COULD_NOT_RUN));
    }
    match hex::sheet_of(text) {
        Ok(sheet) => tell(sheet),
        Err(refusal) => {
            eprintln!("{refusal}");
            Ok(ExitCode::FAILURE)
        }
    }
}

/// The `form` program: the sheet in the form asked for, or one line on standard
/// error.
fn form(form: Form) -> io::Result<ExitCode> {
    match move_to(&read_input(Form::MOST_BYTES_OF_ANY)?, form) {
        Ok(sheet) => tell(sheet),
        Err(Jn(number)) => {
            eprintln!("form: refused J{number}");
            Ok(ExitCode::FAILURE)
        }
    }
}

/// The `capture` program: a verdict on standard output.
fn judge_capture(chip_file: Option<&Path>) -> io::Result<ExitCode> {
    let lines = chip_file.map_or(Ok(Vec::new()), fs::read)?;
    let chip = match capture::stated_chip(&lines) {
        Ok(chip) => chip,
        Err(told) => {
            eprintln!("{told}");
            return Ok(ExitCode::from(COULD_NOT_RUN));
        }
    };
    let input = read_input(capture::MOST_BYTES)?;
    if input.len() > capture::MOST_BYTES {
        eprintln!("{}", capture::TOO_LONG);
        return Ok(ExitCode::from(COULD_NOT_RUN));
    }
    let verdict = capture::judge(&input, chip);
    tell(format!("{verdict}\n"))?;
    Ok(if verdict == Verdict::Accepted { ExitCode::SUCCESS } else { ExitCode::FAILURE })
}

/// Standard input, cut one byte past `most`, so that what is too long shows.
fn read_input(most: usize) -> io::Result<Vec<u8>> {
    let mut input = Vec::new();
    io::stdin().take(most as u64 + 1).read_to_end(&mut input)?;
    Ok(input)
}

/// The `play` program: a sheet played to a fresh small chip.
fn play(sheet: &[u8]) -> String {
    match play_to_fresh(sheet) {
        Ok(played) => played.to_string(),
        Err(refusal) => format!("refused {refusal}\n"),
    }
}

fn play_to_fresh(sheet: &[u8]) -> Result<Played, Refusal> {
    let mut chip = StandIn::fresh(Model::SMALL);
    joined::bring_up(&mut chip)?;
    joined::play(sheet, &mut chip, &mut [0; MOST_STEPS])
}
