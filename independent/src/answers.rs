//! The `answers` program: the stand-in by itself, driven by script lines.

use crate::chip::{Area, Model};
use crate::joined;
use crate::lines::{
    LineRunner, SheetInHand, byte_line, chip_model, flash_lines, hex_bytes, hex_number,
    some_hex_bytes,
};
use crate::options::Options;
use crate::player::Refusal;
use crate::sheet::{MOST_STEPS, Sheet};
use crate::standin::{Answer, StandIn};

pub struct Answers {
    chip: StandIn,
    sheet: SheetInHand,
}

impl Answers {
    pub fn new() -> Answers {
        Answers { chip: StandIn::fresh(Model::SMALL), sheet: SheetInHand::default() }
    }

    pub fn chip(&self) -> &StandIn {
        &self.chip
    }

    fn set_options(&mut self, words: &[&[u8]]) -> Option<()> {
        let [sf1, sf2, sws, swe] = words else {
            return None;
        };
        let options = Options {
            sf1: hex_number(sf1, 2)? as u8,
            sf2: hex_number(sf2, 2)? as u8,
            sws: hex_number(sws, 4)? as u16,
            swe: hex_number(swe, 4)? as u16,
        };
        self.chip.options = options;
        self.chip.power_off();
        Some(())
    }

    /// There is no flash to store in where the chip is none of the two.
    fn store(&mut self, area: Area, words: &[&[u8]]) -> Option<()> {
        self.chip.model().check().ok()?;
        let (address, bytes) = words.split_first()?;
        let address = hex_number(address, 5)?;
        let bytes = some_hex_bytes(bytes)?;
        self.chip.flash.store(area, address, &bytes)?;
        self.chip.power_off();
        Some(())
    }

    /// The lines that tell what is answered to bytes. A note ends its line.
    fn receive(&mut self, bytes: &[u8]) -> String {
        let mut text = String::new();
        let mut answered = Vec::new();
        for &byte in bytes {
            let Answer { bytes, note } = self.chip.receive(byte);
            answered.extend(bytes);
            if let Some(note) = note {
                text.push_str(&byte_line("<", &answered));
                text.push_str(&format!("{note}\n"));
                answered.clear();
            }
        }
        if !answered.is_empty() {
            text.push_str(&byte_line("<", &answered));
        }
        text
    }

    /// The lines that tell what is answered to a whole frame.
    fn take_frame(&mut self, bytes: &[u8]) -> String {
        let Answer { bytes, note } = match self.chip.take_frame(bytes) {
            Ok(answer) => answer,
            Err(refusal) => return format!("refused {refusal}\n"),
        };
        let mut text = String::new();
        if !bytes.is_empty() {
            text.push_str(&byte_line("<", &bytes));
        }
        if let Some(note) = note {
            text.push_str(&format!("{note}\n"));
        }
        text
    }

    fn show(&self) -> String {
        let Options { sf1, sf2, sws, swe } = self.chip.options;
        let mut text = format!("phase {}\n", self.chip.phase().name());
        text.push_str(&format!("options {sf1:02X} {sf2:02X} {sws:04X} {swe:04X}\n"));
        for area in Area::BOTH {
            text.push_str(&flash_lines(area, self.chip.flash.area(area)));
        }
        text
    }

    fn play(&mut self) -> String {
        if let Err(refusal) = self.judge_sheet() {
            return format!("refused {refusal}\n");
        }
        if !self.chip.waits_for_command() {
            return String::from("refused busy\n");
        }
        match joined::play(self.sheet.bytes(), &mut self.chip, &mut [0; MOST_STEPS]) {
            Ok(played) => played.to_string(),
            Err(refusal) => format!("refused {refusal}\n"),
        }
    }

    /// The chip's counts and the sheet's verdict come first, then whether the
    /// chip is free.
    fn judge_sheet(&self) -> Result<(), Refusal> {
        Sheet::read_for(self.sheet.bytes(), self.chip.model())?;
        Ok(())
    }
}

impl LineRunner for Answers {
    fn run(&mut self, words: &[&[u8]], out: &mut String) -> Option<()> {
        let (lead, rest) = words.split_first()?;
        if *lead == b"sheet" {
            self.sheet.add(&some_hex_bytes(rest)?);
            return Some(());
        }
        match (*lead, rest) {
            (b"fresh", []) => self.chip = StandIn::fresh(Model::SMALL),
            (b"chip", _) => self.chip = StandIn::fresh(chip_model(rest)?),
            (b"options", _) => self.set_options(rest)?,
            (b"code", _) => self.store(Area::Code, rest)?,
            (b"data", _) => self.store(Area::Data, rest)?,
            (b"!", []) => {
                out.push_str("!\n");
                if self.chip.power_on().is_err() {
                    out.push_str("refused D0\n");
                }
            }
            (b">", [_, ..]) => {
                let bytes = hex_bytes(rest)?;
                out.push_str(&byte_line(">", &bytes));
                out.push_str(&self.receive(&bytes));
            }
            (b"frame", _) => {
                let bytes = hex_bytes(rest)?;
                out.push_str(&byte_line("frame", &bytes));
                out.push_str(&self.take_frame(&bytes));
            }
            (b"?", []) => out.push_str(&self.show()),
            (b"play", []) => out.push_str(&self.play()),
            _ => return None,
        }
        self.sheet.close();
        Some(())
    }
}
