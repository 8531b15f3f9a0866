//! Intel HEX in: a sheet that erases, writes and verifies the blocks given.

use std::fmt;

use crate::chip::{Area, BLANK, Model, Span};
use crate::sheet::{Form, MOST_STEPS, Sheet, Step};

/// The most bytes of a text.
pub const MOST_TEXT: usize = 1_048_576;

/// What is said of a text that is longer.
pub const TOO_LONG: &str = "hex: input over 1,048,576 bytes";

/// The chip that sheets are made for.
const MODEL: Model = Model::SMALL;

#[derive(Clone, Copy, Debug, PartialEq, Eq)]
pub enum Refusal {
    /// A fault of a line, counted from 1.
    Line(usize, Fault),
    NoEndRecord,
    TooManySteps,
    SheetTooLong,
}

/// What is wrong with a line, in the order in which it is looked for.
#[derive(Clone, Copy, Debug, PartialEq, Eq)]
pub enum Fault {
    Form,
    Sum,
    Type,
    Outside,
    Twice,
    AfterEnd,
}

impl fmt::Display for Refusal {
    fn fmt(&self, out: &mut fmt::Formatter) -> fmt::Result {
        out.write_str("hex: ")?;
        match self {
            Refusal::Line(number, fault) => write!(out, "line {number}: {fault}"),
            Refusal::NoEndRecord => out.write_str("no end record"),
            Refusal::TooManySteps => {
                out.write_str("over 64 steps: at most 21 blocks a sheet, split the image")
            }
            Refusal::SheetTooLong => {
                out.write_str("over 65,536 bytes: at most 15 code blocks a sheet, split the image")
            }
        }
    }
}

impl fmt::Display for Fault {
    fn fmt(&self, out: &mut fmt::Formatter) -> fmt::Result {
        out.write_str(match self {
            Fault::Form => "bad form",
            Fault::Sum => "wrong sum",
            Fault::Type => "record type other than 00, 01, 04: write the file with 04 records",
            Fault::Outside => "byte outside the flashes",
            Fault::Twice => "byte given twice",
            Fault::AfterEnd => "a line after the end record",
        })
    }
}

/// The sheet for a text.
pub fn sheet_of(text: &[u8]) -> Result<Vec<u8>, Refusal> {
    let mut reader = Reader::new();
    for (index, line) in text.split_inclusive(|&byte| byte == b'\n').enumerate() {
        reader.take_line(line).map_err(|fault| Refusal::Line(index + 1, fault))?;
    }
    if !reader.ended {
        return Err(Refusal::NoEndRecord);
    }
    reader.image.sheet()
}

/// The lines read so far.
struct Reader {
    image: Image,
    /// The upper half of the addresses to come.
    upper: u32,
    ended: bool,
}

impl Reader {
    fn new() -> Reader {
        Reader { image: Image::new(), upper: 0, ended: false }
    }

    /// Takes a line with its end.
    fn take_line(&mut self, line: &[u8]) -> Result<(), Fault> {
        if self.ended {
            return Err(Fault::AfterEnd);
        }
        let record = Record::read(line).ok_or(Fault::Form)?;
        if record.total != 0 {
            return Err(Fault::Sum);
        }
        match (record.kind, &record.data[..]) {
            (Record::DATA, data) => {
                let address = self.upper << 16 | u32::from(record.offset);
                self.image.give(address, data)?;
            }
            (Record::END, _) => self.ended = true,
            (Record::UPPER, data) => {
                self.upper = u32::from(data[0]) << 8 | u32::from(data[1]);
            }
            _ => return Err(Fault::Type),
        }
        Ok(())
    }
}

/// A record of good form; its sum may be wrong and its type unknown.
struct Record {
    offset: u16,
    kind: u8,
    data: Vec<u8>,
    /// Of all bytes, the sum among them; 0 if that is right.
    total: u8,
}

impl Record {
    const DATA: u8 = 0x00;
    const END: u8 = 0x01;
    const UPPER: u8 = 0x04;

    /// None if the form is bad.
    fn read(line: &[u8]) -> Option<Record> {
        let line = line.strip_suffix(b"\n")?;
        let line = line.strip_suffix(b"\r").unwrap_or(line);
        let digits = line.strip_prefix(b":")?;
        let (pairs, []) = digits.as_chunks::<2>() else {
            return None;
        };
        let bytes = pairs.iter().map(|pair| byte_of(*pair)).collect::<Option<Vec<u8>>>()?;
        let [count, high, low, kind, data @ .., _sum] = &bytes[..] else {
            return None;
        };
        let offset = u16::from_be_bytes([*high, *low]);
        let has_form = data.len() == usize::from(*count)
            && match *kind {
                Record::DATA => usize::from(offset) + data.len() <= 0x1_0000,
                Record::END => data.is_empty(),
                Record::UPPER => data.len() == 2,
                _ => true,
            };
        let total = bytes.iter().fold(0u8, |total, &byte| total.wrapping_add(byte));
        has_form.then(|| Record { offset, kind: *kind, data: data.to_vec(), total })
    }
}

/// A byte of two hex digits.
fn byte_of(pair: [u8; 2]) -> Option<u8> {
    let digit = |at: usize| char::from(pair[at]).to_digit(16);
    Some((digit(0)? << 4 | digit(1)?) as u8)
}

/// The bytes given for both flashes.
struct Image {
    code: Vec<Option<u8>>,
    data: Vec<Option<u8>>,
}

impl Image {
    fn new() -> Image {
        let none = |area| vec![None; MODEL.length(area)];
        Image { code: none(Area::Code), data: none(Area::Data) }
    }

    fn area(&self, area: Area) -> &[Option<u8>] {
        match area {
            Area::Code => &self.code,
            Area::Data => &self.data,
        }
    }

    fn area_mut(&mut self, area: Area) -> &mut [Option<u8>] {
        match area {
            Area::Code => &mut self.code,
            Area::Data => &mut self.data,
        }
    }

    /// Gives bytes from an address on. That one is outside is found before
    /// that one is given twice, wherever they stand in the record.
    fn give(&mut self, address: u32, bytes: &[u8]) -> Result<(), Fault> {
        let places = (0..bytes.len() as u32)
            .map(|at| MODEL.holding(address + at).ok_or(Fault::Outside))
            .collect::<Result<Vec<(Area, usize)>, Fault>>()?;
        if places.iter().any(|&(area, at)| self.area(area)[at].is_some()) {
            return Err(Fault::Twice);
        }
        for (&(area, at), &byte) in places.iter().zip(bytes) {
            self.area_mut(area)[at] = Some(byte);
        }
        Ok(())
    }

    /// The blocks that hold a given byte, in rising address order, with their
    /// bytes.
    fn blocks(&self) -> Vec<(Span, Vec<u8>)> {
        let mut blocks = Vec::new();
        for area in Area::BOTH {
            let length = area.block_length();
            for (index, given) in self.area(area).chunks(length).enumerate() {
                if given.iter().any(Option::is_some) {
                    let bytes = given.iter().map(|byte| byte.unwrap_or(BLANK)).collect();
                    blocks.push((Span { area, start: index * length, length }, bytes));
                }
            }
        }
        blocks
    }

    fn sheet(&self) -> Result<Vec<u8>, Refusal> {
        let blocks = self.blocks();
        let mut steps = Vec::new();
        for (span, bytes) in &blocks {
            steps.extend([
                Step::Erase(*span),
                Step::Write(*span, bytes),
                Step::Verify(*span, bytes),
            ]);
        }
        if steps.len() > MOST_STEPS {
            return Err(Refusal::TooManySteps);
        }
        let form = Form::One;
        let sheet = Sheet { form, model: MODEL, steps }.bytes();
        if sheet.len() > form.most_bytes() {
            return Err(Refusal::SheetTooLong);
        }
        Ok(sheet)
    }
}
