//! Text input in lines: split, parsed, and the bad line named.

use crate::chip::{Area, Model, PAGE};

/// The most bytes of an input that are run.
pub const MOST_INPUT: usize = 1_048_576;

/// What takes the lines of an input one by one.
pub trait LineRunner {
    /// Runs one line, given by its words, and adds to the output. None, with
    /// nothing added and nothing changed, if the line has no known form.
    fn run(&mut self, words: &[&[u8]], out: &mut String) -> Option<()>;
}

/// Runs all lines of an input up to the first bad one. `input` may be cut after
/// `MOST_INPUT` + 1 bytes.
pub fn run_lines(input: &[u8], runner: &mut impl LineRunner) -> String {
    let too_long = input.len() > MOST_INPUT;
    let mut rest = &input[..input.len().min(MOST_INPUT)];
    let mut out = String::new();
    let mut number = 0;
    loop {
        number += 1;
        let good = match rest.iter().position(|&byte| byte == b'\n') {
            Some(end) => {
                let words: Vec<&[u8]> = rest[..end].split(|&byte| byte == b' ').collect();
                rest = &rest[end + 1..];
                runner.run(&words, &mut out).is_some()
            }
            None if rest.is_empty() && !too_long => return out,
            // A last line without LF, or the line that holds the byte past
            // the limit.
            None => false,
        };
        if !good {
            out.push_str(&format!("bad line {number}\n"));
            return out;
        }
    }
}

/// A number of exactly `digits` hex digits.
pub fn hex_number(word: &[u8], digits: usize) -> Option<u32> {
    if word.len() != digits {
        return None;
    }
    word.iter().try_fold(0, |number, &digit| Some(number << 4 | char::from(digit).to_digit(16)?))
}

/// Words of two hex digits each; none at all is fine here.
pub fn hex_bytes(words: &[&[u8]]) -> Option<Vec<u8>> {
    words.iter().map(|word| hex_number(word, 2).map(|number| number as u8)).collect()
}

/// Words of two hex digits each, at least one.
pub fn some_hex_bytes(words: &[&[u8]]) -> Option<Vec<u8>> {
    hex_bytes(words).filter(|bytes| !bytes.is_empty())
}

/// A decimal number from 0 to `most` without leading zeros.
pub fn decimal_number(word: &[u8], most: usize) -> Option<usize> {
    let text = std::str::from_utf8(word).ok()?;
    let number: usize = text.parse().ok()?;
    (number <= most && number.to_string() == text).then_some(number)
}

/// The words of a `chip` line behind the first: a name or two block counts.
pub fn chip_model(words: &[&[u8]]) -> Option<Model> {
    const MOST_BLOCKS: usize = 255;
    match words {
        [b"small"] => Some(Model::SMALL),
        [b"large"] => Some(Model::LARGE),
        [code, data] => Some(Model {
            code_blocks: decimal_number(code, MOST_BLOCKS)?,
            data_blocks: decimal_number(data, MOST_BLOCKS)?,
        }),
        _ => None,
    }
}

/// A line of a leading word and bytes.
pub fn byte_line(lead: &str, bytes: &[u8]) -> String {
    let mut line = String::from(lead);
    for byte in bytes {
        line.push_str(&format!(" {byte:02X}"));
    }
    line.push('\n');
    line
}

/// A `code` or `data` line with bytes from an address on.
pub fn flash_line(area: Area, address: u32, bytes: &[u8]) -> String {
    byte_line(&format!("{} {address:05X}", area.name()), bytes)
}

/// The `code` or `data` lines of the pages that are not blank.
pub fn flash_lines(area: Area, contents: &[u8]) -> String {
    contents
        .chunks_exact(PAGE)
        .enumerate()
        .filter(|(_, page)| !crate::chip::all_blank(page))
        .map(|(index, page)| flash_line(area, area.first_address() + (index * PAGE) as u32, page))
        .collect()
}

/// The sheet that `sheet` lines put together.
#[derive(Default)]
pub struct SheetInHand {
    bytes: Vec<u8>,
    open: bool,
}

impl SheetInHand {
    /// A `sheet` line. The first after any other line begins a new sheet.
    pub fn add(&mut self, bytes: &[u8]) {
        if !self.open {
            self.bytes.clear();
        }
        self.open = true;
        self.bytes.extend_from_slice(bytes);
    }

    /// Any other line.
    pub fn close(&mut self) {
        self.open = false;
    }

    pub fn bytes(&self) -> &[u8] {
        &self.bytes
    }
}
