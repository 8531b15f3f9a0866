//! The plain meaning of a sheet: blocks, pages, flash and options only, no
//! frames on a line.

use crate::chip::{BLANK, Flash, PAGE, Span};
use crate::options::{BTPR, IDEN, IFPR, Options, SEPR, WRPR};
use crate::sheet::{Lock, Sheet, Step};
use crate::status;

/// What a play of a sheet comes to, besides flash and options.
#[derive(Debug, PartialEq, Eq)]
pub struct Outcome {
    pub status: u8,
    pub steps: usize,
    pub frames: usize,
    pub pieces: usize,
    /// One entry per finished step.
    pub sums: Vec<u16>,
    /// Whether the chip is Silent at the end.
    pub silent: bool,
}

/// What one step comes to.
struct StepOutcome {
    status: u8,
    frames: usize,
    pieces: usize,
    sum: u16,
}

/// Runs the steps in order up to the first that fails, on a chip that is not
/// Silent.
pub fn meaning(sheet: &Sheet, flash: &mut Flash, options: &mut Options) -> Outcome {
    let mut outcome = Outcome {
        status: status::ACK,
        steps: 0,
        frames: 0,
        pieces: 0,
        sums: Vec::new(),
        silent: false,
    };
    for step in &sheet.steps {
        let done = match *step {
            Step::Erase(span) => erase(span, flash, options),
            Step::Write(span, body) => write(span, body, flash, options),
            Step::Verify(span, body) => verify(span, body, flash),
            Step::Sum(span) => sum(span, flash),
            Step::Blank(span) => blank(span, flash),
            Step::Lock(flags) => lock(flags, options),
        };
        outcome.frames += done.frames;
        if done.status != status::ACK {
            outcome.status = done.status;
            outcome.pieces = done.pieces;
            break;
        }
        outcome.steps += 1;
        outcome.sums.push(done.sum);
    }
    outcome.silent = options.sf2 & IFPR == 0;
    outcome
}

fn erase(span: Span, flash: &mut Flash, options: &Options) -> StepOutcome {
    let blocks = span.blocks();
    for index in 0..blocks {
        let block = span.block(index);
        if options.sf1 & SEPR == 0 || boot_protected(block, options) {
            return StepOutcome {
                status: status::PROTECTED,
                frames: index + 1,
                pieces: index,
                sum: 0,
            };
        }
        flash.part_mut(block).fill(BLANK);
    }
    StepOutcome { status: status::ACK, frames: blocks, pieces: 0, sum: 0 }
}

fn write(span: Span, body: &[u8], flash: &mut Flash, options: &Options) -> StepOutcome {
    let pages = span.pages();
    for number in 1..=pages {
        let page = span.page(number - 1);
        let failure = if options.sf1 & WRPR == 0 || boot_protected(page, options) {
            Some(status::PROTECTED)
        } else if flash.part(page).iter().any(|&byte| byte != BLANK) {
            Some(status::WRITE)
        } else {
            None
        };
        if let Some(status) = failure {
            let frames = 1 + (number + 1).min(pages);
            let pieces = if number == pages && pages >= 2 { pages - 2 } else { number - 1 };
            return StepOutcome { status, frames, pieces, sum: 0 };
        }
        let bytes = &body[(number - 1) * PAGE..number * PAGE];
        flash.part_mut(page).copy_from_slice(bytes);
    }
    StepOutcome { status: status::ACK, frames: 1 + pages, pieces: 0, sum: 0 }
}

fn verify(span: Span, body: &[u8], flash: &Flash) -> StepOutcome {
    let same = flash.part(span) == body;
    let status = if same { status::ACK } else { status::VERIFY };
    StepOutcome { status, frames: 1 + span.pages(), pieces: 0, sum: 0 }
}

fn sum(span: Span, flash: &Flash) -> StepOutcome {
    let total: u32 = flash.part(span).iter().map(|&byte| u32::from(byte)).sum();
    let sum = (0x1_0000 - total % 0x1_0000) % 0x1_0000;
    StepOutcome { status: status::ACK, frames: 1, pieces: 0, sum: sum as u16 }
}

fn blank(span: Span, flash: &Flash) -> StepOutcome {
    let dirty = flash.part(span).iter().any(|&byte| byte != BLANK);
    let status = if dirty { status::NOT_BLANK } else { status::ACK };
    StepOutcome { status, frames: 1, pieces: 0, sum: 0 }
}

/// Clears the flags that are sent as 0; none is set.
fn lock(flags: Lock, options: &mut Options) -> StepOutcome {
    for flag in [BTPR, SEPR, WRPR] {
        if flags.sf1 & flag == 0 {
            options.sf1 &= !flag;
        }
    }
    for flag in [IDEN, IFPR] {
        if flags.sf2 & flag == 0 {
            options.sf2 &= !flag;
        }
    }
    StepOutcome { status: status::ACK, frames: 1, pieces: 0, sum: 0 }
}

/// BTPR 0 protects code blocks 0 to 7, the addresses below 04000h.
fn boot_protected(part: Span, options: &Options) -> bool {
    options.sf1 & BTPR == 0 && part.first_address() < 0x4000
}
