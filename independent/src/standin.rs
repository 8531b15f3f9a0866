//! The stand-in: the chip's side of the line, one received byte a call.

use std::fmt;

use crate::chip::{BLANK, D0, Flash, Model, Span, all_blank, checksum};
use crate::frames::{self, COMMAND_START, DATA_START, END, Received, Receiver, code};
use crate::note::Note;
use crate::options::{BTPR, IDEN, IFPR, Options, SEPR};
use crate::status;

#[derive(Clone, Copy, Debug, PartialEq, Eq)]
pub enum Phase {
    /// The power is off.
    Off,
    Mode,
    Speed,
    Ident,
    Command,
    Silent,
}

impl Phase {
    pub fn name(self) -> &'static str {
        match self {
            Phase::Off => "Off",
            Phase::Mode => "Mode",
            Phase::Speed => "Speed",
            Phase::Ident => "Ident",
            Phase::Command => "Command",
            Phase::Silent => "Silent",
        }
    }
}

/// Each code has one length and one phase.
struct Rule {
    code: u8,
    len: u8,
    phase: Phase,
}

const fn rule(code: u8, len: u8, phase: Phase) -> Rule {
    Rule { code, len, phase }
}

const RULES: [Rule; 13] = [
    rule(code::RESET, 1, Phase::Command),
    rule(code::VERIFY, 7, Phase::Command),
    rule(code::ERASE, 4, Phase::Command),
    rule(code::BLANK_CHECK, 8, Phase::Command),
    rule(code::PROGRAM, 7, Phase::Command),
    rule(code::SPEED, 3, Phase::Speed),
    rule(code::IDENT, 11, Phase::Ident),
    // Table 6-38 of the guide: a reserved byte of any value follows SF2, so
    // LEN is 4 and not 3.
    rule(code::SECURITY_SET, 4, Phase::Command),
    rule(code::SECURITY_GET, 1, Phase::Command),
    rule(code::RELEASE, 1, Phase::Command),
    rule(code::WINDOW_SET, 5, Phase::Command),
    rule(code::WINDOW_GET, 1, Phase::Command),
    rule(code::CHECKSUM, 7, Phase::Command),
];

/// Answer to Baud Rate Set: status, 32 MHz, full-speed mode.
const SPEED_ANSWER: [u8; 3] = [status::ACK, 0x20, 0x00];

/// A Programming or Verify command that awaits data frames.
#[derive(Clone)]
struct Transfer {
    span: Span,
    page: usize,
    work: Work,
}

#[derive(Clone, Copy)]
enum Work {
    /// With the write status of the page before, 06h at the first.
    Write { before: u8 },
    /// With the word whether some page differed so far.
    Verify { differs: bool },
}

/// The answer to a byte, mostly empty, and the note on it.
#[derive(Default)]
pub struct Answer {
    pub bytes: Vec<u8>,
    pub note: Option<Note>,
}

impl Answer {
    fn without_note(bytes: Vec<u8>) -> Answer {
        Answer { bytes, note: None }
    }
}

/// Why the whole-frame engine does not take its input.
#[derive(Clone, Copy, Debug, PartialEq, Eq)]
pub enum NotTaken {
    D0,
    /// Not one whole frame of the kind awaited, or no frame is awaited.
    E1,
}

impl From<D0> for NotTaken {
    fn from(_: D0) -> NotTaken {
        NotTaken::D0
    }
}

impl fmt::Display for NotTaken {
    fn fmt(&self, out: &mut fmt::Formatter) -> fmt::Result {
        out.write_str(match self {
            NotTaken::D0 => "D0",
            NotTaken::E1 => "E1",
        })
    }
}

/// Why a frame is refused.
struct Fault {
    status: u8,
    note: Option<Note>,
}

impl Fault {
    fn with_note(status: u8, note: Note) -> Fault {
        Fault { status, note: Some(note) }
    }
}

impl From<u8> for Fault {
    fn from(status: u8) -> Fault {
        Fault { status, note: None }
    }
}

/// What the data frame due next is for.
pub struct DuePage {
    pub page: Span,
    pub last: bool,
    pub writes: bool,
    /// Whether the page before, of the same command, was not written.
    pub failed_before: bool,
}

#[derive(Clone)]
pub struct StandIn {
    pub flash: Flash,
    pub options: Options,
    phase: Phase,
    receiver: Receiver,
    transfer: Option<Transfer>,
}

impl StandIn {
    /// A fresh chip, power off.
    pub fn fresh(model: Model) -> StandIn {
        StandIn::holding(Flash::blank(model), Options::FRESH)
    }

    /// A chip with these contents, power off.
    pub fn holding(flash: Flash, options: Options) -> StandIn {
        StandIn { flash, options, phase: Phase::Off, receiver: Receiver::default(), transfer: None }
    }

    pub fn model(&self) -> Model {
        self.flash.model()
    }

    pub fn phase(&self) -> Phase {
        self.phase
    }

    /// Whether the next byte 01h would begin a command: phase Command, no
    /// command begun, nothing half received.
    pub fn waits_for_command(&self) -> bool {
        self.phase == Phase::Command && self.transfer.is_none() && self.receiver.is_idle()
    }

    pub fn due_page(&self) -> Option<DuePage> {
        self.transfer.as_ref().map(|transfer| DuePage {
            page: transfer.span.page(transfer.page),
            last: transfer.is_at_last(),
            writes: matches!(transfer.work, Work::Write { .. }),
            failed_before: matches!(
                transfer.work,
                Work::Write { before } if before != status::ACK
            ),
        })
    }

    /// A chip of other counts than the two there are stays as it is.
    pub fn power_on(&mut self) -> Result<(), D0> {
        self.model().check()?;
        self.start_afresh();
        self.phase = if self.options.sf2_has(IFPR) { Phase::Mode } else { Phase::Silent };
        Ok(())
    }

    pub fn power_off(&mut self) {
        self.start_afresh();
        self.phase = Phase::Off;
    }

    fn start_afresh(&mut self) {
        self.receiver = Receiver::default();
        self.transfer = None;
    }

    /// Takes one byte and gives the answer to it.
    pub fn receive(&mut self, byte: u8) -> Answer {
        match self.phase {
            Phase::Off | Phase::Silent => Answer::default(),
            Phase::Mode => {
                self.phase = match byte {
                    0x3A | 0x00 => Phase::Speed,
                    _ => Phase::Silent,
                };
                Answer::default()
            }
            Phase::Speed | Phase::Ident | Phase::Command => match self.transfer.take() {
                None => match self.receiver.take(byte, COMMAND_START) {
                    Some(frame) => self.take_command(&frame),
                    None => Answer::default(),
                },
                Some(transfer) => match self.receiver.take(byte, DATA_START) {
                    Some(frame) => self.take_page(transfer, &frame),
                    None => {
                        self.transfer = Some(transfer);
                        Answer::default()
                    }
                },
            },
        }
    }

    /// The second engine: takes one whole frame of the kind awaited. What it
    /// does not take changes nothing.
    pub fn take_frame(&mut self, bytes: &[u8]) -> Result<Answer, NotTaken> {
        self.model().check()?;
        let awaits_frames = matches!(self.phase, Phase::Speed | Phase::Ident | Phase::Command);
        if !awaits_frames || !self.receiver.is_idle() {
            return Err(NotTaken::E1);
        }
        let start = if self.transfer.is_some() { DATA_START } else { COMMAND_START };
        let frame = Received::of_whole(bytes, start).ok_or(NotTaken::E1)?;
        Ok(match self.transfer.take() {
            None => self.take_command(&frame),
            Some(transfer) => self.take_page(transfer, &frame),
        })
    }

    /// Takes bytes one by one and gives all that was answered to them.
    pub fn receive_all(&mut self, bytes: &[u8]) -> Vec<u8> {
        bytes.iter().flat_map(|&byte| self.receive(byte).bytes).collect()
    }

    fn take_command(&mut self, frame: &Received) -> Answer {
        match self.judge_command(frame) {
            Ok(answers) => Answer::without_note(answers),
            Err(Fault { status, note }) => Answer { bytes: frames::answer(&[status]), note },
        }
    }

    /// The answers of a command that is well, or the first fault.
    fn judge_command(&mut self, frame: &Received) -> Result<Vec<u8>, Fault> {
        if frame.end != END {
            return Err(Fault::with_note(status::NACK, Note::End));
        }
        if !frame.sum_is_right() {
            return Err(Fault::from(status::CHECKSUM));
        }
        let code = frame.body[0];
        let rule = RULES
            .iter()
            .find(|rule| rule.code == code && rule.phase == self.phase)
            .ok_or(status::COMMAND_NUMBER)?;
        let outcome = if frame.len == rule.len {
            self.obey(code, &frame.body[1..])
        } else {
            Err(wrong_len(rule.len, frame.len))
        };
        // From here on a fault before phase Command is a LEN, parameter or ID
        // fault in 9Ah or 9Ch.
        if outcome.is_err() && self.phase != Phase::Command {
            self.phase = Phase::Silent;
        }
        outcome
    }

    /// Does a command whose frame, code and LEN are right.
    fn obey(&mut self, code: u8, information: &[u8]) -> Result<Vec<u8>, Fault> {
        let answers = match code {
            code::SPEED => self.set_speed(information[0], information[1])?,
            code::IDENT => self.identify(information)?,
            code::ERASE => self.erase(information)?,
            code::BLANK_CHECK => self.check_blank(information)?,
            code::PROGRAM => self.begin(information, Work::Write { before: status::ACK })?,
            code::VERIFY => self.begin(information, Work::Verify { differs: false })?,
            code::CHECKSUM => {
                let sum = checksum(self.flash.part(self.pair_in(information)?));
                ack_and(&sum.to_le_bytes())
            }
            code::SECURITY_SET => self.set_security(information[0], information[1]),
            code::SECURITY_GET => ack_and(&self.options.shown_flags()),
            code::RELEASE => self.release()?,
            code::WINDOW_SET => self.set_window(information)?,
            code::WINDOW_GET => ack_and(&self.options.shown_window(self.model().last_code_block())),
            code::RESET => ack(),
            _ => return Err(Fault::from(status::COMMAND_NUMBER)),
        };
        Ok(answers)
    }

    fn set_speed(&mut self, brt: u8, vdd: u8) -> Result<Vec<u8>, u8> {
        if brt > 3 || !(0x10..=0x37).contains(&vdd) {
            return Err(status::PARAMETER);
        }
        self.phase = if self.options.sf2_has(IDEN) { Phase::Command } else { Phase::Ident };
        Ok(frames::answer(&SPEED_ANSWER))
    }

    fn identify(&mut self, id: &[u8]) -> Result<Vec<u8>, u8> {
        if id != self.flash.connection_id() {
            return Err(status::ID);
        }
        self.phase = Phase::Command;
        Ok(ack())
    }

    fn erase(&mut self, information: &[u8]) -> Result<Vec<u8>, u8> {
        let block = self.model().block(address_in(information, 0)).ok_or(status::PARAMETER)?;
        if self.options.erase_protects(block) {
            return Err(status::PROTECTED);
        }
        self.flash.part_mut(block).fill(BLANK);
        Ok(ack())
    }

    /// The flash counts before the options, which only TAR 01h counts in.
    fn check_blank(&self, information: &[u8]) -> Result<Vec<u8>, Fault> {
        let span = self.pair_in(information)?;
        let with_options = match information[6] {
            frames::FLASH_ALONE => false,
            frames::FLASH_AND_OPTIONS => true,
            _ => return Err(Fault::from(status::PARAMETER)),
        };
        if let Some((block, page)) = self.flash.first_not_blank(span) {
            let note = Note::NotBlank { area: span.area, block, page };
            return Err(Fault::with_note(status::NOT_BLANK, note));
        }
        if with_options && !self.options.are_blank() {
            return Err(Fault::with_note(status::NOT_BLANK, Note::Options));
        }
        Ok(ack())
    }

    fn set_security(&mut self, sf1: u8, sf2: u8) -> Vec<u8> {
        self.options.clear_flags(sf1, sf2);
        if self.options.sf2_has(IFPR) {
            return ack();
        }
        self.phase = Phase::Silent;
        Vec::new()
    }

    fn release(&mut self) -> Result<Vec<u8>, u8> {
        if !self.flash.is_blank() {
            return Err(status::NOT_BLANK);
        }
        if !self.options.sf1_has(SEPR) || !self.options.sf1_has(BTPR) {
            return Err(status::PROTECTED);
        }
        self.options.release();
        Ok(ack())
    }

    fn set_window(&mut self, information: &[u8]) -> Result<Vec<u8>, u8> {
        if !self.options.window_is_open() {
            return Err(status::PROTECTED);
        }
        let sws = u16::from_le_bytes([information[0], information[1]]);
        let swe = u16::from_le_bytes([information[2], information[3]]);
        self.options.set_window(sws, swe);
        Ok(ack())
    }

    fn pair_in(&self, information: &[u8]) -> Result<Span, u8> {
        let (sad, ead) = (address_in(information, 0), address_in(information, 3));
        self.model().pair(sad, ead).ok_or(status::PARAMETER)
    }

    fn begin(&mut self, information: &[u8], work: Work) -> Result<Vec<u8>, u8> {
        let span = self.pair_in(information)?;
        self.transfer = Some(Transfer { span, page: 0, work });
        Ok(ack())
    }

    /// Takes the data frame for the transfer's page. The transfer was taken
    /// out of the record; it goes back only if more frames are due.
    fn take_page(&mut self, mut transfer: Transfer, frame: &Received) -> Answer {
        let last = transfer.is_at_last();
        if let Err(Fault { status, note }) = judge_page(frame, last) {
            return Answer { bytes: frames::answer(&[status, transfer.status_before()]), note };
        }
        let page = transfer.span.page(transfer.page);
        let second = match &mut transfer.work {
            Work::Write { before } => {
                if *before != status::ACK {
                    return Answer::without_note(frames::answer(&[status::ACK, *before]));
                }
                *before = self.write_page(page, &frame.body);
                // The answer to a page that is not the last tells nothing of
                // this page: its status goes out with the next frame's.
                if last { *before } else { status::ACK }
            }
            Work::Verify { differs } => {
                *differs |= self.flash.part(page) != frame.body;
                if last && *differs { status::VERIFY } else { status::ACK }
            }
        };
        if !last {
            transfer.page += 1;
            self.transfer = Some(transfer);
        }
        Answer::without_note(frames::answer(&[status::ACK, second]))
    }

    /// Writes a page, or leaves it as it is; gives its write status.
    fn write_page(&mut self, page: Span, bytes: &[u8]) -> u8 {
        if self.options.write_protects(page) {
            return status::PROTECTED;
        }
        let part = self.flash.part_mut(page);
        if !all_blank(part) {
            return status::WRITE;
        }
        part.copy_from_slice(bytes);
        status::ACK
    }
}

impl Transfer {
    fn is_at_last(&self) -> bool {
        self.page + 1 == self.span.pages()
    }

    /// The write status that goes out beside a frame's fault.
    fn status_before(&self) -> u8 {
        match self.work {
            Work::Write { before } => before,
            Work::Verify { .. } => status::ACK,
        }
    }
}

/// Whether a data frame is well: end, SUM and LEN, in that order.
fn judge_page(frame: &Received, last: bool) -> Result<(), Fault> {
    const PAGE_LEN: u8 = 0x00;
    if frame.end != frames::page_end(last) {
        return Err(Fault::with_note(status::NACK, Note::End));
    }
    if !frame.sum_is_right() {
        return Err(Fault::from(status::CHECKSUM));
    }
    if frame.len != PAGE_LEN {
        return Err(wrong_len(PAGE_LEN, frame.len));
    }
    Ok(())
}

fn wrong_len(expected: u8, found: u8) -> Fault {
    Fault::with_note(status::NACK, Note::Len { expected, found })
}

fn ack() -> Vec<u8> {
    frames::answer(&[status::ACK])
}

fn ack_and(body: &[u8]) -> Vec<u8> {
    let mut answers = ack();
    answers.extend(frames::answer(body));
    answers
}

fn address_in(information: &[u8], at: usize) -> u32 {
    frames::address_from([information[at], information[at + 1], information[at + 2]])
}
