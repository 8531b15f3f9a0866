//! What a chip of other block counts does with each line.

use super::Tape;
use super::material::{Plan, Size, chip_line, other_model, random_options, sheet_lines};
use super::random::Random;
use crate::answers::Answers;
use crate::chip::{Flash, Model};
use crate::frames::{self, code};
use crate::options::Options;

/// Leaves that chip behind: the next line has to name another.
pub fn write(tape: &mut Tape<Answers>, random: &mut Random) {
    let model = other_model(random);
    tape.line(&chip_line(random, model));
    for _ in 0..random.between(1, 7) {
        match random.below(8) {
            0..3 => {
                tape.line("!");
            }
            3 => {
                let reset = frames::command(code::RESET, &[]);
                let speed = frames::command(code::SPEED, &[0x00, 0x21]);
                let bytes = random.pick(&[&[0x3A][..], &speed, &reset]);
                if random.chance(50) {
                    tape.send(bytes);
                } else {
                    tape.hand(random.pick(&[bytes, &[]]));
                }
            }
            4 => {
                tape.line("?");
            }
            5 => {
                let Options { sf1, sf2, sws, swe } = random_options(random);
                tape.line(&format!("options {sf1:02X} {sf2:02X} {sws:04X} {swe:04X}"));
            }
            _ => {
                if random.chance(60) {
                    let bytes = some_sheet(random);
                    tape.lines(&sheet_lines(random, &bytes));
                }
                tape.line("play");
            }
        }
    }
}

fn some_sheet(random: &mut Random) -> Vec<u8> {
    let size = Size { steps: 3, code_blocks: 1, body_bytes: 600 };
    let plan = Plan::random(random, &Flash::blank(Model::SMALL), &Options::FRESH, size);
    if random.chance(40) { plan.faulty_bytes(random) } else { plan.bytes() }
}
