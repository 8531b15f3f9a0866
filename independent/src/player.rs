//! The player: gives the next frame of a sheet from the last reply.

use std::fmt;

use crate::chip::{D0, Model, PAGE, Span};
use crate::frames::{self, code};
use crate::sheet::{Jn, Kind, Sheet, Step, Unfit};
use crate::status;

#[derive(Clone, Copy, Debug, PartialEq, Eq)]
pub enum Refusal {
    D0,
    J(u8),
    P1,
    P2,
}

impl fmt::Display for Refusal {
    fn fmt(&self, out: &mut fmt::Formatter) -> fmt::Result {
        match self {
            Refusal::D0 => out.write_str("D0"),
            Refusal::J(number) => write!(out, "J{number}"),
            Refusal::P1 => out.write_str("P1"),
            Refusal::P2 => out.write_str("P2"),
        }
    }
}

impl From<D0> for Refusal {
    fn from(_: D0) -> Refusal {
        Refusal::D0
    }
}

impl From<Jn> for Refusal {
    fn from(Jn(number): Jn) -> Refusal {
        Refusal::J(number)
    }
}

impl From<Unfit> for Refusal {
    fn from(unfit: Unfit) -> Refusal {
        match unfit {
            Unfit::Chip(refusal) => refusal.into(),
            Unfit::Sheet(refusal) => refusal.into(),
        }
    }
}

/// How a play ended.
#[derive(Clone, Copy, Debug, PartialEq, Eq)]
pub enum Status {
    /// A status byte; 06h if all is done.
    Byte(u8),
    /// A reply was not exactly what was due.
    L1,
}

impl Status {
    pub const DONE: Status = Status::Byte(status::ACK);
}

impl fmt::Display for Status {
    fn fmt(&self, out: &mut fmt::Formatter) -> fmt::Result {
        match self {
            Status::Byte(byte) => write!(out, "{byte:02X}"),
            Status::L1 => out.write_str("L1"),
        }
    }
}

#[derive(Clone, Copy, Debug, PartialEq, Eq)]
pub struct Report {
    pub status: Status,
    pub steps: usize,
    pub frames: usize,
    pub pieces: usize,
}

impl fmt::Display for Report {
    fn fmt(&self, out: &mut fmt::Formatter) -> fmt::Result {
        let Report { status, steps, frames, pieces } = self;
        write!(out, "end {status} steps {steps} frames {frames} pieces {pieces}")
    }
}

/// What the reply to the last frame is for. Blocks and pages count from 0.
#[derive(Clone, Copy, Debug, PartialEq, Eq)]
pub enum Awaited {
    /// A block of an erase.
    Block(usize),
    /// The command of a write or verify.
    Opening,
    /// A page of a write or verify.
    Page(usize),
    /// A sum.
    Sum,
    /// A blank check.
    Blank,
    /// A lock.
    Lock,
}

impl Awaited {
    /// Whether a step of the right kind has this block or page.
    fn is_in(self, step: &Step) -> bool {
        match (self, step) {
            (Awaited::Block(block), Step::Erase(span)) => block < span.blocks(),
            (Awaited::Page(page), Step::Write(span, _) | Step::Verify(span, _)) => {
                page < span.pages()
            }
            _ => true,
        }
    }

    /// What earlier replies of a step of this kind made sure: each block
    /// answered 06h; the pages before k (counted from 1) by (06h, 06h) to
    /// write frame k.
    fn pieces_before(self, kind: Kind) -> usize {
        match (kind, self) {
            (Kind::Erase, Awaited::Block(block)) => block,
            (Kind::Write, Awaited::Page(page)) => page.saturating_sub(1),
            _ => 0,
        }
    }
}

#[derive(Clone, Copy, Debug, PartialEq, Eq)]
enum Stage {
    NotBegun,
    /// With the kind of the step begun.
    Awaiting(Kind, Awaited),
    Ended(Status),
}

/// The answer of a call that is not refused.
#[derive(Clone, Debug, PartialEq, Eq)]
pub enum Turn {
    Frame(Vec<u8>),
    End(Report),
}

#[derive(Clone)]
pub struct Player {
    stage: Stage,
    /// The step in hand, which is also the count of steps finished.
    step: usize,
    frames: usize,
    pieces: usize,
}

impl Player {
    pub fn new() -> Player {
        Player { stage: Stage::NotBegun, step: 0, frames: 0, pieces: 0 }
    }

    pub fn steps_finished(&self) -> usize {
        self.step
    }

    pub fn awaited(&self) -> Option<Awaited> {
        match self.stage {
            Stage::Awaiting(_, awaited) => Some(awaited),
            _ => None,
        }
    }

    /// One call: the chip played to, the sheet, the reply to the last frame,
    /// the length of the frame buffer lent and the list of sums lent. The first
    /// call of a play reads no reply. A refused call changes nothing.
    pub fn call(
        &mut self,
        model: Model,
        sheet: &[u8],
        reply: &[u8],
        room: usize,
        sums: &mut [u16],
    ) -> Result<Turn, Refusal> {
        let sheet = Sheet::read_for(sheet, model)?;
        if sums.len() < sheet.steps.len() {
            return Err(Refusal::J(10));
        }
        if room < frames::LONGEST {
            return Err(Refusal::P1);
        }
        match self.stage {
            Stage::Ended(status) => Ok(Turn::End(self.report(status))),
            Stage::NotBegun => Ok(self.begin_step(&sheet)),
            Stage::Awaiting(kind, awaited) => {
                // A step of another kind is not the step that was begun.
                let step = sheet
                    .steps
                    .get(self.step)
                    .filter(|step| step.kind() == kind && awaited.is_in(step))
                    .ok_or(Refusal::P2)?;
                Ok(self.hear(&sheet, step, awaited, reply, sums))
            }
        }
    }

    fn report(&self, status: Status) -> Report {
        Report { status, steps: self.step, frames: self.frames, pieces: self.pieces }
    }

    fn end(&mut self, status: Status) -> Turn {
        self.stage = Stage::Ended(status);
        Turn::End(self.report(status))
    }

    fn send(&mut self, step: &Step, awaited: Awaited, frame: Vec<u8>) -> Turn {
        self.stage = Stage::Awaiting(step.kind(), awaited);
        self.frames += 1;
        Turn::Frame(frame)
    }

    /// Sends the first frame of the step in hand, or ends after the last step.
    fn begin_step(&mut self, sheet: &Sheet) -> Turn {
        let Some(step) = sheet.steps.get(self.step) else {
            return self.end(Status::DONE);
        };
        let (awaited, frame) = match *step {
            Step::Erase(span) => return self.send_block(step, span, 0),
            Step::Write(span, _) => (Awaited::Opening, frames::pair_command(code::PROGRAM, span)),
            Step::Verify(span, _) => (Awaited::Opening, frames::pair_command(code::VERIFY, span)),
            Step::Sum(span) => (Awaited::Sum, frames::pair_command(code::CHECKSUM, span)),
            Step::Blank(span) => (Awaited::Blank, frames::blank_command(span)),
            Step::Lock(lock) => (Awaited::Lock, frames::lock_command(lock)),
        };
        self.send(step, awaited, frame)
    }

    fn send_block(&mut self, step: &Step, span: Span, block: usize) -> Turn {
        self.send(step, Awaited::Block(block), frames::erase_command(span.block(block)))
    }

    fn send_page(&mut self, step: &Step, page: usize) -> Turn {
        let body = step.body();
        let bytes = &body[page * PAGE..(page + 1) * PAGE];
        let last = (page + 1) * PAGE == body.len();
        self.send(step, Awaited::Page(page), frames::page_frame(bytes, last))
    }

    /// Judges the reply and goes on.
    fn hear(
        &mut self,
        sheet: &Sheet,
        step: &Step,
        awaited: Awaited,
        reply: &[u8],
        sums: &mut [u16],
    ) -> Turn {
        let sum = match read_reply(step, awaited, reply) {
            Ok(sum) => sum,
            Err(status) => {
                self.pieces = awaited.pieces_before(step.kind());
                return self.end(status);
            }
        };
        match (awaited, step) {
            (Awaited::Block(block), Step::Erase(span)) if block + 1 < span.blocks() => {
                return self.send_block(step, *span, block + 1);
            }
            (Awaited::Opening, _) => return self.send_page(step, 0),
            (Awaited::Page(page), _) if (page + 1) * PAGE < step.body().len() => {
                return self.send_page(step, page + 1);
            }
            _ => {}
        }
        sums[self.step] = sum;
        self.step += 1;
        self.begin_step(sheet)
    }
}

/// The sum told by a good reply, 0 where no sum is due; or the status that
/// stops the play.
fn read_reply(step: &Step, awaited: Awaited, reply: &[u8]) -> Result<u16, Status> {
    if let Step::Lock(lock) = step
        && lock.clears_ifpr()
    {
        // The chip is shut: exactly nothing is due.
        return if reply.is_empty() { Ok(0) } else { Err(Status::L1) };
    }
    match awaited {
        Awaited::Block(_) | Awaited::Opening | Awaited::Blank | Awaited::Lock => {
            let body = frames::read_answer(reply, 1).ok_or(Status::L1)?;
            go_on_at_ack(body[0])?;
            Ok(0)
        }
        Awaited::Page(_) => {
            let body = frames::read_answer(reply, 2).ok_or(Status::L1)?;
            go_on_at_ack(body[0])?;
            go_on_at_ack(body[1])?;
            Ok(0)
        }
        Awaited::Sum => {
            const ONE_BYTE_FRAME: usize = 5;
            let (first, second) = reply.split_at(reply.len().min(ONE_BYTE_FRAME));
            let status = frames::read_answer(first, 1).ok_or(Status::L1)?[0];
            if status != status::ACK {
                // The second frame is due only after 06h.
                return Err(if second.is_empty() { Status::Byte(status) } else { Status::L1 });
            }
            let body = frames::read_answer(second, 2).ok_or(Status::L1)?;
            Ok(u16::from_le_bytes([body[0], body[1]]))
        }
    }
}

fn go_on_at_ack(byte: u8) -> Result<(), Status> {
    match byte {
        status::ACK => Ok(()),
        _ => Err(Status::Byte(byte)),
    }
}
