//! Sheets played to the chip: good and refused, on fresh and prepared chips.

use super::material::{
    Plan, Preparation, Size, fresh_line, huge_sheet, random_model, random_span, sheet_lines,
};
use super::random::Random;
use super::{Tape, counts};
use crate::answers::Answers;
use crate::chip::{Area, Flash};
use crate::frames::{self, code};
use crate::options::Options;

pub fn generate(seed: u64, count: u64) -> String {
    let mut tape = Tape::new(Answers::new());
    for case in 0..count {
        if case == 0 {
            // Before the first `sheet` line the sheet is empty.
            tape.line("play");
        }
        let random = Random::for_case(seed, case);
        Case { tape: &mut tape, random }.write();
    }
    tape.text
}

struct Case<'a> {
    tape: &'a mut Tape<Answers>,
    random: Random,
}

impl Case<'_> {
    fn write(&mut self) {
        if self.random.one_in(40) {
            counts::write(self.tape, &mut self.random);
        }
        let line = fresh_line(&mut self.random);
        self.tape.line(&line);
        if self.random.chance(75) {
            let model = self.tape.runner.chip().model();
            let preparation = Preparation::random(&mut self.random, model);
            self.tape.lines(&preparation.lines());
        }
        if self.random.chance(90) {
            self.bring_up();
        } else {
            self.bring_somewhere();
        }
        for _ in 0..self.random.pick(&[1, 1, 1, 2, 3]) {
            self.sheet();
            for _ in 0..self.random.pick(&[1, 1, 1, 1, 1, 2]) {
                self.tape.line("play");
            }
            if self.random.chance(40) {
                self.tape.line("?");
            }
        }
    }

    fn bring_up(&mut self) {
        self.tape.set_speed();
        self.tape.identify();
    }

    /// To a state in which the chip does not wait for a command, or nearly so.
    fn bring_somewhere(&mut self) {
        let reset = frames::command(code::RESET, &[]);
        match self.random.below(8) {
            // The power stays off.
            0 => {}
            1 => {
                self.tape.line("!");
            }
            2 => {
                self.tape.line("!");
                self.tape.send(&[0x3A]);
            }
            3 => {
                self.tape.line("!");
                self.tape.send(&[0x3B]);
            }
            // Half a frame.
            4 => {
                self.bring_up();
                let count = self.random.between(1, reset.len() - 1);
                self.tape.send(&reset[..count]);
            }
            // Stray bytes, which are skipped: the chip still waits.
            5 => {
                self.bring_up();
                self.tape.send(&[0x02, 0x03, 0x17, 0xFF]);
            }
            // A command that awaits data.
            6 => {
                self.bring_up();
                let model = self.tape.runner.chip().model();
                let span = random_span(&mut self.random, model, Area::Data, 2);
                let code = self.random.pick(&[code::PROGRAM, code::VERIFY]);
                self.tape.send(&frames::pair_command(code, span));
            }
            _ => {
                self.bring_up();
                self.tape.send(&reset);
            }
        }
    }

    fn sheet(&mut self) {
        let bytes = if self.tape.has_room() && self.random.one_in(300) {
            huge_sheet(&mut self.random)
        } else {
            let plan = self.plan();
            if self.random.chance(45) { plan.faulty_bytes(&mut self.random) } else { plan.bytes() }
        };
        let text = sheet_lines(&mut self.random, &bytes);
        if self.random.one_in(40) {
            // The line between cuts this part off from the sheet.
            self.tape.line("sheet 01 00");
            self.tape.line("?");
        }
        self.tape.lines(&text);
    }

    fn plan(&mut self) -> Plan {
        let size = match self.random.below(160) {
            0 if self.tape.has_room() => Size { steps: 6, code_blocks: 16, body_bytes: 60_000 },
            0..5 => Size { steps: 64, code_blocks: 1, body_bytes: 4_000 },
            5..15 => Size { steps: 8, code_blocks: 2, body_bytes: 8_000 },
            15..40 => Size { steps: 5, code_blocks: 1, body_bytes: 2_600 },
            _ => Size { steps: 6, code_blocks: 1, body_bytes: 1_300 },
        };
        let chip = self.tape.runner.chip();
        if self.random.chance(10) {
            return Plan::over_few_blocks(&mut self.random, &chip.flash, false);
        }
        if self.random.chance(8) {
            // For any chip, often another than the one it is played to.
            let flash = Flash::blank(random_model(&mut self.random));
            if self.random.chance(30) {
                return Plan::over_few_blocks(&mut self.random, &flash, false);
            }
            return Plan::random(&mut self.random, &flash, &Options::FRESH, size);
        }
        Plan::random(&mut self.random, &chip.flash, &chip.options, size)
    }
}
