//! Frames on the line: built, received byte by byte, and read as replies.

use crate::chip::{PAGE, Span};
use crate::sheet::Lock;

/// First byte of a command frame.
pub const COMMAND_START: u8 = 0x01;
/// First byte of a data frame.
pub const DATA_START: u8 = 0x02;
/// Last byte of a frame that none follows.
pub const END: u8 = 0x03;
/// Last byte of a data frame that more follow.
pub const MORE: u8 = 0x17;

/// The longest frame: start, LEN, 256 bytes, SUM, end.
pub const LONGEST: usize = 260;

/// Blank Check's target areas, TAR.
pub const FLASH_ALONE: u8 = 0x00;
pub const FLASH_AND_OPTIONS: u8 = 0x01;

pub mod code {
    pub const RESET: u8 = 0x00;
    pub const VERIFY: u8 = 0x13;
    pub const ERASE: u8 = 0x22;
    pub const BLANK_CHECK: u8 = 0x32;
    pub const PROGRAM: u8 = 0x40;
    pub const SPEED: u8 = 0x9A;
    pub const IDENT: u8 = 0x9C;
    pub const SECURITY_SET: u8 = 0xA0;
    pub const SECURITY_GET: u8 = 0xA1;
    pub const RELEASE: u8 = 0xA2;
    pub const WINDOW_SET: u8 = 0xAC;
    pub const WINDOW_GET: u8 = 0xAD;
    pub const CHECKSUM: u8 = 0xB0;
}

/// The SUM that makes LEN + body + SUM 0 modulo 256.
pub fn sum_of(len: u8, body: &[u8]) -> u8 {
    body.iter().fold(len, |sum, &byte| sum.wrapping_add(byte)).wrapping_neg()
}

/// A frame with a body of 1 to 256 bytes; 256 are written as LEN 00h.
pub fn build(start: u8, body: &[u8], end: u8) -> Vec<u8> {
    debug_assert!((1..=256).contains(&body.len()));
    let len = (body.len() % 256) as u8;
    let mut frame = vec![start, len];
    frame.extend_from_slice(body);
    frame.push(sum_of(len, body));
    frame.push(end);
    frame
}

pub fn command(code: u8, information: &[u8]) -> Vec<u8> {
    let mut body = vec![code];
    body.extend_from_slice(information);
    build(COMMAND_START, &body, END)
}

/// A command whose information is SAD and EAD.
pub fn pair_command(code: u8, span: Span) -> Vec<u8> {
    let mut information = address_bytes(span.first_address()).to_vec();
    information.extend(address_bytes(span.last_address()));
    command(code, &information)
}

/// A Blank Check of flash alone.
pub fn blank_command(span: Span) -> Vec<u8> {
    blank_check(span.first_address(), span.last_address(), FLASH_ALONE)
}

pub fn blank_check(sad: u32, ead: u32, tar: u8) -> Vec<u8> {
    let information = [&address_bytes(sad)[..], &address_bytes(ead), &[tar]].concat();
    command(code::BLANK_CHECK, &information)
}

/// A Security Set; its reserved byte is 00h.
pub fn lock_command(lock: Lock) -> Vec<u8> {
    command(code::SECURITY_SET, &[lock.sf1, lock.sf2, 0x00])
}

pub fn erase_command(block: Span) -> Vec<u8> {
    command(code::ERASE, &address_bytes(block.first_address()))
}

pub fn page_frame(page: &[u8], last: bool) -> Vec<u8> {
    debug_assert_eq!(page.len(), PAGE);
    build(DATA_START, page, page_end(last))
}

/// The end byte due to a page's data frame.
pub fn page_end(last: bool) -> u8 {
    if last { END } else { MORE }
}

/// An answer of the chip.
pub fn answer(body: &[u8]) -> Vec<u8> {
    build(DATA_START, body, END)
}

/// The body of an answer that is exactly one frame of `length` bytes, correct
/// in start, LEN, SUM and end.
pub fn read_answer(bytes: &[u8], length: usize) -> Option<&[u8]> {
    let body = bytes.get(2..2 + length)?;
    (bytes == answer(body)).then_some(body)
}

/// An address as three bytes, low byte first.
pub fn address_bytes(address: u32) -> [u8; 3] {
    let [low, middle, high, _] = address.to_le_bytes();
    [low, middle, high]
}

pub fn address_from(bytes: [u8; 3]) -> u32 {
    let [low, middle, high] = bytes;
    u32::from_le_bytes([low, middle, high, 0])
}

/// A whole frame as the chip received it, right or wrong.
pub struct Received {
    pub len: u8,
    pub body: Vec<u8>,
    pub sum: u8,
    pub end: u8,
}

impl Received {
    /// Bytes that are one whole frame by their own LEN, with this start byte.
    pub fn of_whole(bytes: &[u8], start: u8) -> Option<Received> {
        let [first, len, rest @ ..] = bytes else {
            return None;
        };
        let [body @ .., sum, end] = rest else {
            return None;
        };
        let is_whole = *first == start && body.len() == body_length(*len);
        is_whole.then(|| Received { len: *len, body: body.to_vec(), sum: *sum, end: *end })
    }

    pub fn sum_is_right(&self) -> bool {
        self.sum == sum_of(self.len, &self.body)
    }
}

/// Collects the bytes of one frame from its start byte on.
#[derive(Clone, Default)]
pub struct Receiver {
    bytes: Vec<u8>,
}

impl Receiver {
    /// Whether no frame is half received.
    pub fn is_idle(&self) -> bool {
        self.bytes.is_empty()
    }

    /// Takes one byte and hands out the frame that it completes. Between
    /// frames every byte but `start` is skipped.
    pub fn take(&mut self, byte: u8, start: u8) -> Option<Received> {
        if self.bytes.is_empty() && byte != start {
            return None;
        }
        self.bytes.push(byte);
        let len = *self.bytes.get(1)?;
        let body_end = 2 + body_length(len);
        if self.bytes.len() < body_end + 2 {
            return None;
        }
        let bytes = std::mem::take(&mut self.bytes);
        Some(Received {
            len,
            body: bytes[2..body_end].to_vec(),
            sum: bytes[body_end],
            end: bytes[body_end + 1],
        })
    }
}

/// LEN 00h means 256.
pub fn body_length(len: u8) -> usize {
    if len == 0 { 256 } else { usize::from(len) }
}
