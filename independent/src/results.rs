//! What the programs make of the files of a directory, a line or more each.

use std::fs;
use std::io;
use std::path::{Path, PathBuf};

use crate::capture;
use crate::hex;
use crate::lines::byte_line;
use crate::sheet::{Form, Jn, move_to};

/// The files of a directory with this ending, in name order.
fn files(dir: &Path, ending: &str) -> io::Result<Vec<PathBuf>> {
    let mut paths = Vec::new();
    for entry in fs::read_dir(dir)? {
        let path = entry?.path();
        if path.extension().is_some_and(|extension| extension == ending) {
            paths.push(path);
        }
    }
    paths.sort();
    Ok(paths)
}

fn name(path: &Path) -> String {
    path.file_name().unwrap_or_default().to_string_lossy().into_owned()
}

/// `sheet`, the number of bytes and the bytes, or a refusal, in one line.
fn sheet_or_refusal(result: Result<Vec<u8>, String>) -> String {
    match result {
        Ok(sheet) => byte_line(&format!("sheet {}", sheet.len()), &sheet),
        Err(refusal) => format!("{refusal}\n"),
    }
}

/// Of every HEX file its sheet or its refusal, behind its name.
pub fn of_hex(dir: &Path) -> io::Result<String> {
    let mut text = String::new();
    for path in files(dir, "hex")? {
        let input = fs::read(&path)?;
        let result = if input.len() > hex::MOST_TEXT {
            Err(String::from(hex::TOO_LONG))
        } else {
            hex::sheet_of(&input).map_err(|refusal| refusal.to_string())
        };
        text.push_str(&format!("{} {}", name(&path), sheet_or_refusal(result)));
    }
    Ok(text)
}

/// Of every sheet both moves, behind its name.
pub fn of_form(dir: &Path) -> io::Result<String> {
    let mut text = String::new();
    for path in files(dir, "sheet")? {
        let sheet = fs::read(&path)?;
        for (word, form) in [("up", Form::Two), ("down", Form::One)] {
            let result =
                move_to(&sheet, form).map_err(|Jn(number)| format!("form: refused J{number}"));
            text.push_str(&format!("{} {word} {}", name(&path), sheet_or_refusal(result)));
        }
    }
    Ok(text)
}

/// Of every capture the verdict, behind its name. The chip is stated in the
/// file of the same name with the ending `.chip`, if there is one.
pub fn of_captures(dir: &Path) -> io::Result<String> {
    let mut text = String::new();
    for path in files(dir, "capture")? {
        let chip_path = path.with_extension("chip");
        let lines = if chip_path.exists() { fs::read(chip_path)? } else { Vec::new() };
        let input = fs::read(&path)?;
        let told = match capture::stated_chip(&lines) {
            Err(told) => told,
            Ok(_) if input.len() > capture::MOST_BYTES => String::from(capture::TOO_LONG),
            Ok(chip) => capture::judge(&input, chip).to_string(),
        };
        text.push_str(&format!("{} {told}\n", name(&path)));
    }
    Ok(text)
}
