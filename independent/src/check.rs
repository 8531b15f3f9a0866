//! The plain meaning held against player and stand-in.

use crate::generator::material::{Plan, Preparation, Size, random_model};
use crate::generator::random::Random;
use crate::joined::{bring_up, play};
use crate::meaning::{Outcome, meaning};
use crate::options::IFPR;
use crate::player::Status;
use crate::sheet::{MOST_STEPS, Sheet};
use crate::standin::{Phase, StandIn};

/// Plays `count` sheets. The first difference is told with its case number,
/// counted from 1.
pub fn check(seed: u64, count: u64) -> Result<(), String> {
    for case in 0..count {
        let mut random = Random::for_case(seed, case);
        check_case(&mut random).map_err(|text| format!("case {}: {text}", case + 1))?;
    }
    Ok(())
}

fn check_case(random: &mut Random) -> Result<(), String> {
    let mut chip = prepared_chip(random);
    bring_up(&mut chip).map_err(|refusal| format!("refused {refusal:?}"))?;
    must(chip.waits_for_command(), "the chip does not wait for a command")?;

    let plan = if random.chance(15) {
        Plan::over_few_blocks(random, &chip.flash, true)
    } else {
        let size = random_size(random);
        Plan::random(random, &chip.flash, &chip.options, size)
    };
    let bytes = plan.bytes();
    let sheet =
        Sheet::read_for(&bytes, chip.model()).map_err(|refusal| format!("refused {refusal:?}"))?;

    let entries = random.between(sheet.steps.len(), MOST_STEPS);
    let lent: Vec<u16> = (0..entries).map(|_| random.word()).collect();

    let (mut expected_flash, mut expected_options) = (chip.flash.clone(), chip.options);
    let expected = meaning(&sheet, &mut expected_flash, &mut expected_options);
    let mut expected_sums = lent.clone();
    expected_sums[..expected.sums.len()].copy_from_slice(&expected.sums);

    let mut sums = lent;
    let played =
        play(&bytes, &mut chip, &mut sums).map_err(|refusal| format!("refused {refusal}"))?;

    let report = played.report;
    let Outcome { status, steps, frames, pieces, silent, .. } = expected;
    must_equal("status", Status::Byte(status), report.status)?;
    must_equal("steps", steps, report.steps)?;
    must_equal("frames", frames, report.frames)?;
    must_equal("pieces", pieces, report.pieces)?;
    must_equal("sums", expected_sums, sums)?;
    must(expected_flash == chip.flash, "the flashes differ")?;
    must_equal("options", expected_options, chip.options)?;
    let told: usize = played.steps.iter().map(|step| step.frames).sum();
    must_equal("frames of all lines", frames, told)?;
    if silent {
        must(chip.phase() == Phase::Silent, "the chip is not Silent after the play")
    } else {
        must(chip.waits_for_command(), "the chip does not wait for a command after the play")
    }
}

fn prepared_chip(random: &mut Random) -> StandIn {
    let model = random_model(random);
    if random.chance(20) {
        return StandIn::fresh(model);
    }
    let (flash, mut options) = Preparation::random(random, model).contents();
    options.sf2 |= IFPR;
    StandIn::holding(flash, options)
}

fn random_size(random: &mut Random) -> Size {
    match random.below(10) {
        0 => Size { steps: 64, code_blocks: 4, body_bytes: 64_000 },
        1 => Size { steps: 6, code_blocks: 16, body_bytes: 64_000 },
        _ => Size { steps: 8, code_blocks: 3, body_bytes: 40_000 },
    }
}

fn must(holds: bool, text: &str) -> Result<(), String> {
    if holds { Ok(()) } else { Err(String::from(text)) }
}

fn must_equal<T: PartialEq + std::fmt::Debug>(
    what: &str,
    expected: T,
    found: T,
) -> Result<(), String> {
    if expected == found {
        return Ok(());
    }
    Err(format!("{what} should be {expected:?}, found {found:?}"))
}
