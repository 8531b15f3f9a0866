//! Intel HEX files: good ones, each fault alone and in pairs, and files damaged
//! at random.

use super::random::Random;
use crate::chip::{Area, Model};
use crate::hex::{Fault, Refusal, sheet_of};

/// The chip that sheets are made for.
const MODEL: Model = Model::SMALL;

/// One file. Of a line after the end record no other fault is left open: which
/// of the two would be named is fixed nowhere.
pub fn file(mut random: Random) -> Vec<u8> {
    loop {
        let text = File::random(&mut random).text(&mut random);
        if is_settled(&text) {
            return text;
        }
    }
}

/// Whether a line after the end record would be well before it.
fn is_settled(text: &[u8]) -> bool {
    let Err(Refusal::Line(number, Fault::AfterEnd)) = sheet_of(text) else {
        return true;
    };
    let mut lines: Vec<&[u8]> = text.split_inclusive(|&byte| byte == b'\n').take(number).collect();
    lines.remove(number - 2);
    !matches!(sheet_of(&lines.concat()), Err(Refusal::Line(..)))
}

/// A record before it is written down.
#[derive(Clone)]
struct Record {
    kind: u8,
    offset: u16,
    data: Vec<u8>,
}

impl Record {
    /// The address of these two is not read.
    fn upper(random: &mut Random, upper: u32) -> Record {
        let data = vec![(upper >> 8) as u8, upper as u8];
        Record { kind: 0x04, offset: unread_offset(random), data }
    }

    fn end(random: &mut Random) -> Record {
        Record { kind: 0x01, offset: unread_offset(random), data: Vec::new() }
    }

    fn bytes(&self) -> Vec<u8> {
        let [high, low] = self.offset.to_be_bytes();
        let mut bytes = vec![self.data.len() as u8, high, low, self.kind];
        bytes.extend(&self.data);
        let total = bytes.iter().fold(0u8, |total, &byte| total.wrapping_add(byte));
        bytes.push(total.wrapping_neg());
        bytes
    }

    fn line(&self) -> Line {
        Line { bytes: self.bytes(), end: None }
    }
}

fn unread_offset(random: &mut Random) -> u16 {
    if random.chance(80) { 0 } else { random.word() }
}

/// A line as bytes, so that it can be spoilt before its digits are written.
#[derive(Clone)]
struct Line {
    bytes: Vec<u8>,
    /// What stands in the place of the file's own line end.
    end: Option<&'static str>,
}

/// A stretch of bytes from an address on.
struct Stretch {
    address: u32,
    bytes: Vec<u8>,
}

struct File {
    stretches: Vec<Stretch>,
    lines: Vec<Line>,
}

impl File {
    fn random(random: &mut Random) -> File {
        let stretches = if random.one_in(14) {
            many_blocks(random)
        } else if random.one_in(50) {
            whole_blocks(random)
        } else {
            let count = random.pick(&[0, 1, 1, 1, 2, 2, 3, 5]);
            apart((0..count).map(|_| Stretch::random(random)).collect())
        };
        let mut file = File { stretches, lines: Vec::new() };
        file.write_records(random);
        if random.chance(60) {
            // Two faults often meet in one line, so that their order shows.
            let line = random.below(file.lines.len());
            for _ in 0..random.pick(&[1, 1, 2]) {
                let other = random.below(file.lines.len().max(1));
                let at = if random.chance(60) { line } else { other };
                file.put_fault(random, at);
            }
        }
        file
    }

    /// The records of all stretches, with an upper address where it changes,
    /// and the end record.
    fn write_records(&mut self, random: &mut Random) {
        let longest = random.pick(&[1, 7, 16, 16, 16, 32, 32, 255]);
        let mut pieces: Vec<(u32, &[u8])> = Vec::new();
        for stretch in &self.stretches {
            let mut address = stretch.address;
            let mut rest = &stretch.bytes[..];
            while !rest.is_empty() {
                // No record runs past offset FFFFh.
                let room = (0x1_0000 - (address & 0xFFFF)) as usize;
                let most = longest.min(rest.len()).min(room);
                let count = if random.chance(70) { most } else { random.between(1, most) };
                let (piece, after) = rest.split_at(count);
                pieces.push((address, piece));
                address += count as u32;
                rest = after;
            }
        }
        match random.below(4) {
            // In any order: the uppers come back.
            0 => {
                for at in (1..pieces.len()).rev() {
                    pieces.swap(at, random.below(at + 1));
                }
            }
            1 => pieces.reverse(),
            _ => {}
        }
        let mut records = Vec::new();
        let mut upper = 0;
        for (address, piece) in pieces {
            if address >> 16 != upper || random.one_in(25) {
                upper = address >> 16;
                records.push(Record::upper(random, upper));
            }
            records.push(Record { kind: 0x00, offset: address as u16, data: piece.to_vec() });
            if random.one_in(40) {
                // No byte given, anywhere.
                records.push(Record { kind: 0x00, offset: random.word(), data: Vec::new() });
            }
        }
        records.push(Record::end(random));
        self.lines = records.iter().map(Record::line).collect();
    }

    /// A fault in line `at` or before it, if there is such a line, or
    /// somewhere else.
    fn put_fault(&mut self, random: &mut Random, at: usize) {
        let at = at.min(self.lines.len().saturating_sub(1));
        match random.below(31) {
            0 | 1 | 28..31 => self.insert(random, at, outside),
            2 | 3 => self.insert(random, at, other_type),
            4 => self.insert(random, at, past_the_last_offset),
            5 => self.insert(random, at, wrong_count),
            6 | 24..28 => self.give_twice(random),
            7 => self.lines.push(Record::end(random).line()),
            8 => {
                let data = random.bytes(4);
                self.lines.push(Record { kind: 0x00, offset: 0x0000, data }.line());
            }
            9 => {
                self.lines.pop();
            }
            // The end record somewhere before.
            10 => self.insert(random, at, Record::end),
            11 => {
                if let Some(last) = self.lines.last_mut() {
                    last.end = Some("");
                }
            }
            _ if self.lines.is_empty() => {}
            12..15 => {
                let sum = self.lines[at].bytes.last_mut().expect("a record has a sum");
                *sum = match random.below(3) {
                    0 => sum.wrapping_add(1),
                    1 => sum.wrapping_sub(1),
                    _ => random.other_byte(*sum),
                };
            }
            // A byte of the record changed, and the sum not with it.
            15 | 16 => {
                let bytes = &mut self.lines[at].bytes;
                let place = random.below(bytes.len());
                bytes[place] = random.other_byte(bytes[place]);
            }
            // A byte too few or too many.
            17 => {
                self.lines[at].bytes.pop();
            }
            18 => {
                let byte = random.byte();
                self.lines[at].bytes.push(byte);
            }
            19 => self.lines[at].end = Some(random.pick(&["\r\r\n", " \n", "\t\n", "\0\n", "0\n"])),
            20 => self.lines[at].end = Some("\n\n"),
            21 => {
                let line = self.lines.remove(at);
                let to = random.below(self.lines.len() + 1);
                self.lines.insert(to, line);
            }
            22 => {
                self.lines.remove(at);
            }
            _ => {
                let line = self.lines[at].clone();
                self.lines.insert(random.between(at, self.lines.len()), line);
            }
        }
    }

    /// Puts a record of some sort before line `at`, and before a data record
    /// often an upper address that the records after it do not expect.
    fn insert(&mut self, random: &mut Random, at: usize, sort: fn(&mut Random) -> Record) {
        let record = sort(random);
        self.lines.insert(at, record.line());
        if record.kind == 0x00 && random.chance(60) {
            let upper = random.pick(&[0x0001, 0x000E, 0x000F, 0x0010, 0x0100, 0xFFFF]);
            self.lines.insert(at, Record::upper(random, upper).line());
        }
    }

    /// One byte of a stretch once more, alone or at the edge of a record.
    fn give_twice(&mut self, random: &mut Random) {
        if self.stretches.is_empty() {
            return;
        }
        let stretch = &self.stretches[random.below(self.stretches.len())];
        let last = stretch.address + stretch.bytes.len() as u32 - 1;
        let before = random.pick(&[0, 1, 3]).min(stretch.address & 0xFFFF);
        let (address, count) = match random.below(3) {
            0 => (stretch.address - before, before as usize + 1),
            1 => (last, random.pick(&[1, 2, 5])),
            _ => (stretch.address + random.below(stretch.bytes.len()) as u32, 1),
        };
        let count = count.min((0x1_0000 - (address & 0xFFFF)) as usize);
        let data = Record { kind: 0x00, offset: address as u16, data: random.bytes(count) };
        let at = self.lines.len().saturating_sub(1);
        self.lines.insert(at, data.line());
        self.lines.insert(at, Record::upper(random, address >> 16).line());
    }

    /// The file's text: case and line ends of one sort or mixed, and rarely a
    /// damage that knows nothing of records.
    fn text(&self, random: &mut Random) -> Vec<u8> {
        let case = random.below(4);
        let ends = random.below(3);
        let mut text = Vec::new();
        for line in &self.lines {
            text.push(b':');
            for byte in &line.bytes {
                let lower = case == 1 || case == 2 && random.chance(50);
                let digits = if lower { format!("{byte:02x}") } else { format!("{byte:02X}") };
                text.extend(digits.bytes());
            }
            let crlf = ends == 1 || ends == 2 && random.chance(50);
            let end = line.end.unwrap_or(if crlf { "\r\n" } else { "\n" });
            text.extend(end.bytes());
        }
        if random.chance(15) {
            for _ in 0..random.pick(&[1, 1, 2, 4]) {
                damage(random, &mut text);
            }
        }
        text
    }
}

impl Stretch {
    fn random(random: &mut Random) -> Stretch {
        let area = if random.chance(65) { Area::Data } else { Area::Code };
        let length = MODEL.length(area);
        let block = area.block_length();
        let count = match random.below(4) {
            0 => 1,
            1 => random.between(1, 8),
            2 => random.between(1, 48),
            _ => random.between(1, 300),
        };
        let start = match random.below(4) {
            0 => random.pick(&[0, length - 1, length - count]),
            // The last byte of a block, the first of one, or across.
            1 => random.between(1, length / block - 1) * block - random.below(count.min(2) + 1),
            2 => random.below(length / block) * block,
            _ => random.below(length),
        };
        let count = count.min(length - start);
        let bytes = match random.below(4) {
            0 => vec![0xFF; count],
            1 => vec![random.byte(); count],
            _ => random.bytes(count),
        };
        Stretch { address: area.first_address() + start as u32, bytes }
    }
}

/// The stretches that share no byte with one before.
fn apart(stretches: Vec<Stretch>) -> Vec<Stretch> {
    let mut kept: Vec<Stretch> = Vec::new();
    for stretch in stretches {
        let meets = |other: &Stretch| {
            stretch.address < other.address + other.bytes.len() as u32
                && other.address < stretch.address + stretch.bytes.len() as u32
        };
        if !kept.iter().any(meets) {
            kept.push(stretch);
        }
    }
    kept
}

/// Few bytes in many blocks, at the limits of steps and bytes.
fn many_blocks(random: &mut Random) -> Vec<Stretch> {
    let (code, data) = random.pick(&[
        (15, 0),
        (16, 0),
        (16, 1),
        (15, 6),
        (15, 7),
        (16, 5),
        (16, 6),
        (16, 6),
        (13, 8),
        (14, 8),
        (16, 8),
        (16, 8),
        (2, 8),
    ]);
    let mut stretches = Vec::new();
    for (area, blocks) in [(Area::Code, code), (Area::Data, data)] {
        let length = area.block_length();
        for block in 0..blocks {
            let at = block * length + random.below(length - 1);
            let address = area.first_address() + at as u32;
            let count = random.between(1, 2);
            stretches.push(Stretch { address, bytes: random.bytes(count) });
        }
    }
    stretches
}

/// All bytes of blocks that follow each other, up to the most that fit.
fn whole_blocks(random: &mut Random) -> Vec<Stretch> {
    let (code, data) = random.pick(&[(1, 0), (2, 1), (3, 0), (0, 8), (2, 8), (15, 0), (13, 8)]);
    [(Area::Code, code), (Area::Data, data)]
        .into_iter()
        .map(|(area, blocks)| Stretch {
            address: area.first_address(),
            bytes: random.bytes(blocks * area.block_length()),
        })
        .filter(|stretch| !stretch.bytes.is_empty())
        .collect()
}

/// A data record that, with upper 0000h or another, may lie outside.
fn outside(random: &mut Random) -> Record {
    let offset = match random.below(6) {
        0 => 0x8000,
        1 => random.pick(&[0x0FFF, 0x1800, 0x17FF, 0x7FFF]),
        2 => random.pick(&[0x7FF8, 0x17F8, 0x0FF8]),
        3 => 0xFFFF,
        _ => random.word() & 0xFFF0,
    };
    let count = match offset {
        0xFFFF => 1,
        _ => random.pick(&[1, 2, 8, 9, 16]),
    };
    Record { kind: 0x00, offset, data: random.bytes(count) }
}

fn other_type(random: &mut Random) -> Record {
    let kind = random.pick(&[0x02, 0x03, 0x05, 0x06, 0x10, 0x80, 0xFF]);
    let count = random.pick(&[0, 2, 2, 4, 4, 16]);
    Record { kind, offset: unread_offset(random), data: random.bytes(count) }
}

fn past_the_last_offset(random: &mut Random) -> Record {
    let count = random.between(2, 32);
    let offset = 0x1_0000 - random.between(1, count - 1);
    Record { kind: 0x00, offset: offset as u16, data: random.bytes(count) }
}

/// Type 01 with data, 04 with other than two bytes.
fn wrong_count(random: &mut Random) -> Record {
    let (kind, count) = random.pick(&[(0x01, 1), (0x01, 2), (0x04, 0), (0x04, 1), (0x04, 3)]);
    Record { kind, offset: 0x0000, data: random.bytes(count) }
}

fn damage(random: &mut Random, text: &mut Vec<u8>) {
    if text.is_empty() {
        return;
    }
    let at = random.below(text.len());
    match random.below(6) {
        0 => text[at] = random.byte(),
        1 => text[at] = random.pick(b"0123456789ABCDEFabcdefgG:\n\r -"),
        2 => {
            text.remove(at);
        }
        3 => text.insert(at, random.pick(b"0F:\n\r ")),
        4 => text.truncate(at),
        _ => text.swap(at, at / 2),
    }
}
