//! Security Release in many states of the options, and the power-ons after it.

use super::Tape;
use super::material::{fresh_line, random_options};
use super::random::Random;
use crate::answers::Answers;
use crate::chip::Area;
use crate::frames::{self, code};
use crate::lines::flash_line;
use crate::options::{self, Options};

pub fn write(tape: &mut Tape<Answers>, random: &mut Random) {
    Releases { tape, random }.write();
}

struct Releases<'a> {
    tape: &'a mut Tape<Answers>,
    random: &'a mut Random,
}

impl Releases<'_> {
    fn write(&mut self) {
        let line = fresh_line(self.random);
        self.tape.line(&line);
        let Options { sf1, sf2, sws, swe } = self.options();
        self.tape.line(&format!("options {sf1:02X} {sf2:02X} {sws:04X} {swe:04X}"));
        if self.random.chance(12) {
            // One byte is enough to refuse Release.
            let area = self.random.pick(&Area::BOTH);
            let address = area.first_address() + self.random.below(2_048) as u32;
            self.tape.line(&flash_line(area, address, &[0xFE]));
        }
        for _ in 0..self.random.between(1, 3) {
            self.open();
            for _ in 0..self.random.below(3) {
                self.change_options();
            }
            self.tape.send(&frames::command(code::RELEASE, &[]));
            self.look();
        }
        self.open();
        self.look();
    }

    /// Mostly with IDEN 0, and mostly such that Release is well.
    fn options(&mut self) -> Options {
        let mut options = random_options(self.random);
        options.sf2 |= options::IFPR;
        if self.random.chance(85) {
            options.sf1 |= options::SEPR | options::BTPR;
        }
        if self.random.chance(50) {
            options.sf2 &= !options::IDEN;
        }
        options
    }

    /// From power-on to phase Command, or nearly so.
    fn open(&mut self) {
        self.tape.set_speed();
        if self.random.chance(25) {
            // Not allowed where the ID is asked for.
            self.tape.send(&frames::command(code::SECURITY_GET, &[]));
        }
        self.tape.identify();
    }

    fn change_options(&mut self) {
        let Options { sf1, sf2, sws, swe } = self.options();
        if self.random.chance(60) {
            self.tape.send(&frames::command(code::SECURITY_SET, &[sf1, sf2, 0x00]));
        } else {
            let words = [sws.to_le_bytes(), swe.to_le_bytes()].concat();
            self.tape.send(&frames::command(code::WINDOW_SET, &words));
        }
    }

    fn look(&mut self) {
        match self.random.below(4) {
            0 => {
                self.tape.line("?");
            }
            1 => self.tape.send(&frames::command(code::WINDOW_GET, &[])),
            _ => self.tape.send(&frames::command(code::SECURITY_GET, &[])),
        }
    }
}
