//! Sheets of both forms, to be moved up and down.

use super::material::{Plan, PlannedStep, Size, huge_sheet, random_model, random_options};
use super::random::Random;
use crate::chip::{Area, Flash, Model, Span};
use crate::options::Options;
use crate::sheet::{Form, Kind};

/// One sheet, mostly accepted, mostly short.
pub fn file(mut random: Random) -> Vec<u8> {
    let random = &mut random;
    match random.below(40) {
        0 => return huge_sheet(random),
        1 => return largest(random).bytes(),
        // No sheet at all.
        2 => {
            let count = random.below(20);
            return random.bytes(count);
        }
        _ => {}
    }
    let model = if random.chance(50) { Model::SMALL } else { random_model(random) };
    let flash = Flash::blank(model);
    let options = if random.chance(50) { Options::FRESH } else { random_options(random) };
    let size = match random.below(30) {
        0 => Size { steps: 64, code_blocks: 1, body_bytes: 3_000 },
        1 => Size { steps: 8, code_blocks: 4, body_bytes: 30_000 },
        _ => Size { steps: 6, code_blocks: 1, body_bytes: 1_300 },
    };
    let mut plan = if random.chance(10) {
        Plan::over_few_blocks(random, &flash, false)
    } else {
        Plan::random(random, &flash, &options, size)
    };
    if random.chance(50) {
        // So that the way down is open as far as the kinds go.
        plan.steps.retain(|step| Kind::OF_FORM_1.contains(&step.kind));
    }
    if random.chance(25) { plan.faulty_bytes(random) } else { plan.bytes() }
}

/// The most bytes that an accepted sheet can have: 21 steps and 255 pages.
fn largest(random: &mut Random) -> Plan {
    let code = |blocks: usize| Span { area: Area::Code, start: 0, length: blocks * 2_048 };
    let data = |blocks: usize| Span { area: Area::Data, start: 0, length: blocks * 256 };
    let flash = Flash::blank(Model::SMALL);
    let mut steps = Vec::new();
    for span in [code(16), code(15), data(7)] {
        steps.push(PlannedStep::random(random, Kind::Verify, span, &flash));
    }
    for _ in steps.len()..21 {
        steps.push(PlannedStep::random(random, Kind::Sum, data(1), &flash));
    }
    let form = random.pick(&[Form::One, Form::Two]);
    let mut plan = Plan { form, model: Model::SMALL, steps };
    if form == Form::Two && random.chance(25) {
        plan.model = Model::LARGE;
    }
    plan
}
