//! Player and stand-in joined: a whole play and its lines.

use std::fmt::{self, Display};

use crate::chip::D0;
use crate::frames;
use crate::player::{Player, Refusal, Report, Status, Turn};
use crate::sheet::{Kind, Sheet};
use crate::standin::StandIn;

/// A step that finished or stopped.
pub struct StepLine {
    pub number: usize,
    pub kind: Kind,
    pub status: Status,
    pub frames: usize,
    /// 0 for a step without a sum and for a stopped one.
    pub sum: u16,
}

impl Display for StepLine {
    fn fmt(&self, out: &mut fmt::Formatter) -> fmt::Result {
        let StepLine { number, kind, status, frames, sum } = self;
        write!(out, "{number} {} {status} {frames} {sum:04X}", kind.name())
    }
}

pub struct Played {
    pub steps: Vec<StepLine>,
    pub report: Report,
}

impl Display for Played {
    fn fmt(&self, out: &mut fmt::Formatter) -> fmt::Result {
        writeln!(out, "step kind status frames sum")?;
        for step in &self.steps {
            writeln!(out, "{step}")?;
        }
        writeln!(out, "{}", self.report)
    }
}

/// Plays a sheet to a chip with a new player, frame by frame and byte by byte.
/// The chip should be waiting for a command.
pub fn play(bytes: &[u8], chip: &mut StandIn, sums: &mut [u16]) -> Result<Played, Refusal> {
    let mut player = Player::new();
    let model = chip.model();
    let mut turn = player.call(model, bytes, &[], frames::LONGEST, sums)?;
    let sheet = Sheet::read_for(bytes, model)?;
    let mut steps: Vec<StepLine> = Vec::new();
    let mut frames_of_step = 0;
    loop {
        let frame = match turn {
            Turn::Frame(frame) => frame,
            Turn::End(report) => return Ok(Played { steps, report }),
        };
        frames_of_step += 1;
        let reply = chip.receive_all(&frame);
        turn = player.call(model, bytes, &reply, frames::LONGEST, sums)?;
        let number = steps.len() + 1;
        let (status, sum) = if player.steps_finished() == number {
            (Status::DONE, sums[number - 1])
        } else if let Turn::End(report) = &turn {
            (report.status, 0)
        } else {
            continue;
        };
        let kind = sheet.steps[number - 1].kind();
        steps.push(StepLine { number, kind, status, frames: frames_of_step, sum });
        frames_of_step = 0;
    }
}

/// Brings a chip with IFPR 1 from power-on to phase Command.
pub fn bring_up(chip: &mut StandIn) -> Result<(), D0> {
    chip.power_on()?;
    for bytes in bring_up_bytes(chip.flash.connection_id()) {
        chip.receive_all(&bytes);
    }
    Ok(())
}

/// The mode byte, Baud Rate Set and the ID. A chip that asks for no ID answers
/// that the last is not allowed, and takes no harm.
pub fn bring_up_bytes(id: &[u8]) -> [Vec<u8>; 3] {
    [
        vec![0x3A],
        frames::command(frames::code::SPEED, &[0x00, 0x21]),
        frames::command(frames::code::IDENT, id),
    ]
}
