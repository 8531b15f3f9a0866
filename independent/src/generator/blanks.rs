//! Blank Check on dirty flash, at the edges of blocks and pages, and with each
//! option bit.

use super::Tape;
use super::material::{bad_pair, fresh_line, random_area, random_options, random_span};
use super::random::Random;
use crate::answers::Answers;
use crate::chip::{Model, PAGE, Span};
use crate::frames::{self, blank_check, code};
use crate::lines::flash_line;
use crate::options::{self, Options};

pub fn write(tape: &mut Tape<Answers>, random: &mut Random) {
    Blanks { tape, random }.write();
}

/// TAR, mostly one of the two that are allowed.
pub fn random_tar(random: &mut Random) -> u8 {
    match random.below(12) {
        0 => random.pick(&[0x02, 0x03, 0x10, 0x80, 0xFE, 0xFF]),
        1..6 => 0x00,
        _ => 0x01,
    }
}

struct Blanks<'a> {
    tape: &'a mut Tape<Answers>,
    random: &'a mut Random,
}

impl Blanks<'_> {
    fn write(&mut self) {
        let line = fresh_line(self.random);
        self.tape.line(&line);
        for _ in 0..self.random.between(1, 4) {
            self.round();
        }
        if self.random.chance(30) {
            self.tape.line("?");
        }
    }

    /// Other options, mostly other blocks, and some checks.
    fn round(&mut self) {
        let Options { sf1, sf2, sws, swe } = self.options();
        self.tape.line(&format!("options {sf1:02X} {sf2:02X} {sws:04X} {swe:04X}"));
        let area = random_area(self.random);
        let span = random_span(self.random, self.model(), area, 4);
        for _ in 0..self.random.pick(&[0, 0, 0, 1, 1, 2, 3]) {
            self.dirty(span);
        }
        self.open();
        for _ in 0..self.random.between(1, 4) {
            self.check(span);
        }
    }

    fn model(&self) -> Model {
        self.tape.runner.chip().model()
    }

    /// Fresh ones, mostly with just one bit 0.
    fn options(&mut self) -> Options {
        let mut options = Options::FRESH;
        match self.random.below(12) {
            0 => {}
            1 => options = random_options(self.random),
            2 => options.sf1 = !(1 << self.random.below(8)),
            3 => options.sf2 = !(1 << self.random.below(8)),
            4 => options.sws = !(1 << self.random.between(9, 14)),
            5 => options.swe = !(1 << self.random.between(9, 14)),
            // The named bits alone.
            6 => options = Options { sf1: 0x16, sf2: 0x1D, sws: 0x81FF, swe: 0x81FF },
            7 => options.sf1 &= !self.random.pick(&[options::BTPR, options::SEPR, options::WRPR]),
            8 => options.sf2 &= !self.random.pick(&[options::IDEN, options::SWPR, options::CMPR]),
            9 => options.sws &= !(1 << self.random.pick(&[0, 1, 2, 3, 4, 5, 6, 7, 8, 8, 15])),
            10 => options.swe &= !(1 << self.random.pick(&[0, 1, 2, 3, 4, 5, 6, 7, 8, 8, 15])),
            _ => {
                options.sf2 &= !options::IDEN;
                options.swe &= !self.random.pick(&[options::FSWC, 0]);
            }
        }
        options.sf2 |= options::IFPR;
        options
    }

    /// One byte that is not blank: at an edge of a block or page of the span,
    /// next to the span, or anywhere in it.
    fn dirty(&mut self, span: Span) {
        let block = span.block(self.random.below(span.blocks()));
        let page = block.page(self.random.below(block.pages()));
        let length = self.model().length(span.area);
        let at = match self.random.below(8) {
            0 => block.start,
            1 => block.start + block.length - 1,
            2 | 3 => page.start,
            4 | 5 => page.start + PAGE - 1,
            6 => self.random.pick(&[span.start.wrapping_sub(1), span.start + span.length]),
            _ => span.start + self.random.below(span.length),
        };
        if at < length {
            let byte = self.random.pick(&[0x00, 0xFE, 0x7F, 0xEF]);
            self.tape.line(&flash_line(span.area, span.area.first_address() + at as u32, &[byte]));
        }
    }

    fn open(&mut self) {
        self.tape.set_speed();
        if self.random.one_in(12) {
            // Not allowed before phase Command, if the ID is asked for.
            self.tape.send(&blank_check(0x00000, 0x007FF, 0x00));
        }
        self.tape.identify();
    }

    fn check(&mut self, span: Span) {
        let tar = random_tar(self.random);
        let (sad, ead) = match self.random.below(10) {
            0 => bad_pair(self.random, self.model()),
            // One block of it, so that the note's block is not its first.
            1..4 => {
                let block = span.block(self.random.below(span.blocks()));
                (block.first_address(), block.last_address())
            }
            // From the first block of the flash on.
            4 => (span.area.first_address(), span.last_address()),
            _ => (span.first_address(), span.last_address()),
        };
        let mut bytes = blank_check(sad, ead, tar);
        for _ in 0..self.random.pick(&[0, 0, 0, 0, 1, 2]) {
            // More answers to one line: a note ends its own.
            match self.random.below(3) {
                0 => bytes.extend(frames::command(code::RESET, &[])),
                1 => bytes.extend(frames::command(code::SECURITY_GET, &[])),
                _ => bytes.extend(blank_check(sad, ead, random_tar(self.random))),
            }
        }
        if self.random.chance(15) {
            bytes = [frames::command(code::RESET, &[]), bytes].concat();
        }
        self.tape.send(&bytes);
    }
}
