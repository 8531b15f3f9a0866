//! Scripts of frames to the chip: mostly well formed, with single damages.

use super::material::{
    Preparation, bad_pair, change_byte, fresh_line, random_area, random_body, random_options,
    random_span,
};
use super::random::Random;
use super::{Tape, blanks, counts, releases};
use crate::answers::Answers;
use crate::chip::{Model, Span};
use crate::frames::{
    self, COMMAND_START, DATA_START, END, MORE, address_bytes, code, page_frame, sum_of,
};
use crate::standin::{DuePage, Phase};

pub fn generate(seed: u64, count: u64) -> String {
    let mut tape = Tape::new(Answers::new());
    for case in 0..count {
        let mut random = Random::for_case(seed, case);
        let hand_percent = random.pick(&[0, 0, 0, 25, 70]);
        Script::new(&mut tape, &mut random, hand_percent).write();
    }
    tape.text
}

/// Power-ons and bytes alone, to the chip that the tape has.
pub fn session(tape: &mut Tape<Answers>, random: &mut Random, budget: usize) {
    let mut script = Script::new(tape, random, 0);
    script.of_bytes_alone = true;
    script.turns(budget);
}

struct Script<'a> {
    tape: &'a mut Tape<Answers>,
    random: &'a mut Random,
    /// Bytes sent so far.
    sent: usize,
    /// The blocks that a command named last.
    span: Option<Span>,
    /// How often frames are handed over whole.
    hand_percent: usize,
    /// Whether only power-ons and bytes come, and the chip stays.
    of_bytes_alone: bool,
}

impl<'a> Script<'a> {
    fn new(tape: &'a mut Tape<Answers>, random: &'a mut Random, hand_percent: usize) -> Script<'a> {
        Script { tape, random, sent: 0, span: None, hand_percent, of_bytes_alone: false }
    }

    fn write(&mut self) {
        if self.random.one_in(25) {
            counts::write(self.tape, self.random);
        }
        if self.random.one_in(5) {
            releases::write(self.tape, self.random);
        }
        if self.random.one_in(4) {
            blanks::write(self.tape, self.random);
        }
        self.take_chip();
        self.prepare();
        let budget = self.random.between(100, 1_700);
        self.turns(budget);
        if self.random.chance(60) {
            self.tape.line("?");
        }
    }

    /// Turns until some bytes are sent.
    fn turns(&mut self, budget: usize) {
        let most_turns = 300;
        for _ in 0..most_turns {
            if self.sent >= budget {
                break;
            }
            self.turn();
            if self.phase() == Phase::Silent && self.random.chance(8) {
                break;
            }
        }
    }

    fn phase(&self) -> Phase {
        self.tape.runner.chip().phase()
    }

    fn model(&self) -> Model {
        self.tape.runner.chip().model()
    }

    fn take_chip(&mut self) {
        let line = fresh_line(self.random);
        self.tape.line(&line);
        self.span = None;
    }

    fn prepare(&mut self) {
        let model = self.model();
        let preparation = Preparation::random(self.random, model);
        self.tape.lines(&preparation.lines());
    }

    fn turn(&mut self) {
        if !self.of_bytes_alone && self.random.chance(4) {
            self.tape.line("?");
        }
        if !self.of_bytes_alone && self.random.chance(2) {
            self.prepare();
            if self.random.chance(40) {
                self.tape.line("?");
            }
        }
        if self.random.chance(2) {
            self.tape.line("!");
        }
        if self.random.chance(self.hand_percent / 5) {
            self.hand_no_frame();
        }
        match self.phase() {
            Phase::Off if self.random.chance(15) => {
                let frame = self.any_command();
                self.send_frame(&frame);
            }
            Phase::Off => {
                self.tape.line("!");
            }
            Phase::Mode => {
                let mode = match self.random.below(16) {
                    0 => self.random.byte(),
                    1 => self.random.pick(&[0x3B, 0x01, 0x39, 0xFF]),
                    _ => self.random.pick(&[0x3A, 0x00]),
                };
                self.send(&[mode]);
            }
            Phase::Speed => {
                let frame = self.frame_for_speed();
                self.send_command(frame);
            }
            Phase::Ident => {
                let frame = self.frame_for_ident();
                self.send_command(frame);
            }
            Phase::Command => match self.tape.runner.chip().due_page() {
                Some(due) => self.send_page(due),
                None => {
                    let frame = self.any_command();
                    self.send_command(frame);
                }
            },
            Phase::Silent => {
                if self.random.chance(50) {
                    let frame = self.any_command();
                    self.send_frame(&frame);
                }
                if self.random.chance(80) {
                    self.tape.line("!");
                }
                if !self.of_bytes_alone && self.random.chance(25) {
                    // IFPR may be 0 for good: begin again with other options.
                    self.take_chip();
                }
            }
        }
    }

    /// Sends what is mostly a frame, or hands it over at once.
    fn send_frame(&mut self, bytes: &[u8]) {
        if self.random.chance(self.hand_percent) {
            self.sent += bytes.len();
            self.tape.hand(bytes);
        } else {
            self.send(bytes);
        }
    }

    /// Sends bytes in one line or in two.
    fn send(&mut self, bytes: &[u8]) {
        self.sent += bytes.len();
        let cut = if self.random.chance(12) { self.random.below(bytes.len()) } else { 0 };
        let (first, second) = bytes.split_at(cut);
        if !first.is_empty() {
            self.tape.send(first);
            if self.random.chance(self.hand_percent / 2) {
                // Mostly refused: a frame is half received.
                let frame = self.whole_frame();
                self.tape.hand(&frame);
            }
        }
        self.tape.send(second);
    }

    /// Hands over what is mostly no whole frame of the kind awaited, or what
    /// comes where none is awaited.
    fn hand_no_frame(&mut self) {
        let mut bytes = self.whole_frame();
        match self.random.below(10) {
            0 => bytes.clear(),
            1 => bytes.truncate(self.random.below(bytes.len())),
            2 => {
                bytes.pop();
            }
            3 => bytes.push(self.random.pick(&[0x00, END, COMMAND_START])),
            4 => bytes = [bytes.clone(), bytes].concat(),
            5 => bytes[1] = self.wrong_len(bytes[1]),
            // The other kind, or none.
            6 => {
                bytes[0] = match bytes[0] {
                    COMMAND_START => self.random.pick(&[DATA_START, 0x00]),
                    _ => self.random.pick(&[COMMAND_START, 0x00]),
                };
            }
            7 => bytes.insert(0, self.random.pick(&[0x00, COMMAND_START, 0xFF])),
            // Whole: only the phase is in its way, if anything is.
            _ => {}
        }
        self.tape.hand(&bytes);
    }

    /// A frame for the phase: a page where data is awaited, else a command,
    /// mostly short.
    fn whole_frame(&mut self) -> Vec<u8> {
        match self.tape.runner.chip().due_page() {
            Some(due) if self.random.chance(30) => {
                page_frame(&random_body(self.random, due.page.length), due.last)
            }
            Some(due) => {
                let body = self.random.bytes(3);
                frames::build(DATA_START, &body, frames::page_end(due.last))
            }
            None => match self.phase() {
                Phase::Speed => self.frame_for_speed(),
                Phase::Ident => self.frame_for_ident(),
                _ => self.any_command(),
            },
        }
    }

    fn send_stray(&mut self) {
        let count = self.random.between(1, 6);
        let mut bytes = self.random.bytes(count);
        if self.random.chance(70) {
            // No start of a frame among them.
            for byte in &mut bytes {
                if matches!(*byte, COMMAND_START | DATA_START) {
                    *byte = 0x00;
                }
            }
        }
        self.send(&bytes);
    }

    fn send_command(&mut self, frame: Vec<u8>) {
        if self.random.chance(6) {
            self.send_stray();
        }
        let frame = if self.random.chance(16) { self.damaged(frame) } else { frame };
        self.send_frame(&frame);
    }

    fn frame_for_speed(&mut self) -> Vec<u8> {
        if self.random.chance(12) {
            return self.any_command();
        }
        let well = self.random.chance(85);
        let brt =
            if well { self.random.below(4) as u8 } else { self.random.pick(&[0, 3, 4, 0xFF]) };
        let vdd = match self.random.below(3) {
            _ if !well => self.random.pick(&[0x0F, 0x38, 0x10, 0x00, 0xFF]),
            0 => self.random.pick(&[0x10, 0x11, 0x12, 0x37]),
            _ => self.random.between(0x10, 0x37) as u8,
        };
        frames::command(code::SPEED, &[brt, vdd])
    }

    fn frame_for_ident(&mut self) -> Vec<u8> {
        if self.random.chance(15) {
            return self.any_command();
        }
        self.ident_command()
    }

    fn ident_command(&mut self) -> Vec<u8> {
        let mut id = self.tape.runner.chip().flash.connection_id().to_vec();
        if self.random.chance(15) {
            change_byte(self.random, &mut id);
        }
        frames::command(code::IDENT, &id)
    }

    /// A well-formed frame of any command, with good or bad parameters.
    fn any_command(&mut self) -> Vec<u8> {
        match self.random.below(107) {
            0..22 => self.pair_command(code::PROGRAM),
            22..38 => self.pair_command(code::VERIFY),
            38..52 => self.erase_command(),
            52..62 => self.pair_command(code::CHECKSUM),
            62..70 => self.security_set(),
            70..76 => frames::command(code::SECURITY_GET, &[]),
            76..84 => frames::command(code::RELEASE, &[]),
            84..89 => self.window_set(),
            89..93 => frames::command(code::WINDOW_GET, &[]),
            93..95 => frames::command(code::RESET, &[]),
            95 => frames::command(code::SPEED, &[0x00, 0x21]),
            96 => self.ident_command(),
            97..99 => self.unknown_command(),
            99..106 => self.blank_check(),
            _ => self.huge_command(),
        }
    }

    /// SAD and EAD, mostly valid.
    fn some_pair(&mut self) -> (u32, u32) {
        if self.random.chance(15) {
            return bad_pair(self.random, self.tape.runner.chip().model());
        }
        let span = self.some_span(3);
        (span.first_address(), span.last_address())
    }

    fn blank_check(&mut self) -> Vec<u8> {
        let (sad, ead) = self.some_pair();
        frames::blank_check(sad, ead, blanks::random_tar(self.random))
    }

    fn pair_command(&mut self, code: u8) -> Vec<u8> {
        let (sad, ead) = self.some_pair();
        frames::command(code, &[address_bytes(sad), address_bytes(ead)].concat())
    }

    /// Often the blocks named before, so that commands meet in them.
    fn some_span(&mut self, most_blocks: usize) -> Span {
        if let Some(span) = self.span
            && self.random.chance(55)
        {
            return span;
        }
        let area = random_area(self.random);
        let model = self.model();
        let span = random_span(self.random, model, area, most_blocks);
        self.span = Some(span);
        span
    }

    fn erase_command(&mut self) -> Vec<u8> {
        let block = self.some_span(1).block(0);
        let sad = match self.random.below(20) {
            0 => block.first_address() + 1,
            1 => block.last_address(),
            2 => self.random.pick(&[0x00100, 0x07F00, 0xF0F00, 0xFF800, 0x80_0000]),
            // The first block that one of the chips does not have.
            3 => self.random.pick(&[0x08000, 0xF1800, 0x20000, 0xF3000]),
            _ => block.first_address(),
        };
        frames::command(code::ERASE, &address_bytes(sad))
    }

    fn security_set(&mut self) -> Vec<u8> {
        let mut options = random_options(self.random);
        options.sf2 &= !crate::options::IFPR;
        if self.random.chance(85) {
            options.sf2 |= crate::options::IFPR;
        }
        let reserved = self.random.pick(&[0x00, 0xFF, 0x5A]);
        frames::command(code::SECURITY_SET, &[options.sf1, options.sf2, reserved])
    }

    fn window_set(&mut self) -> Vec<u8> {
        let options = random_options(self.random);
        let words = [options.sws.to_le_bytes(), options.swe.to_le_bytes()].concat();
        frames::command(code::WINDOW_SET, &words)
    }

    /// A code that is none of ours, the guide's other commands among them.
    fn unknown_command(&mut self) -> Vec<u8> {
        let code = match self.random.below(3) {
            0 => self.random.pick(&[0x30, 0xA5, 0xA6, 0xA7, 0xAB, 0xC0]),
            1 => self.random.pick(&[0x01, 0x12, 0x14, 0x41, 0x9B, 0xA3, 0xAE, 0xB1, 0xFF]),
            _ => self.random.pick(&[0x55, 0x02, 0x03, 0x17, 0x80]),
        };
        let count = self.random.pick(&[0, 0, 3, 6]);
        let information = self.random.bytes(count);
        frames::command(code, &information)
    }

    /// A command of LEN 00h: 256 bytes.
    fn huge_command(&mut self) -> Vec<u8> {
        let code = self.random.pick(&[code::RESET, code::PROGRAM, code::SPEED, code::IDENT, 0x55]);
        let information = self.random.bytes(255);
        frames::command(code, &information)
    }

    /// A command frame with one damage, or two so that their order shows.
    fn damaged(&mut self, mut frame: Vec<u8>) -> Vec<u8> {
        let end = frame.len() - 1;
        let sum = frame.len() - 2;
        match self.random.below(16) {
            0 => frame[end] = MORE,
            1 => frame[end] = self.random.other_byte(END),
            2 => frame[sum] = self.random.other_byte(frame[sum]),
            3 => frame[sum] = frame[sum].wrapping_sub(1),
            // LEN wrong for the bytes sent, SUM wrong with it.
            4 => frame[1] = self.wrong_len(frame[1]),
            // LEN wrong for the bytes sent, SUM fitting it.
            5 => {
                let len = self.wrong_len(frame[1]);
                frame[sum] = frame[sum].wrapping_add(frame[1]).wrapping_sub(len);
                frame[1] = len;
            }
            // Well formed, but one byte too many or too few for the command.
            6 | 13 => {
                let mut body = frame[2..sum].to_vec();
                if body.len() < 256 {
                    body.push(self.random.byte());
                }
                frame = frames::build(COMMAND_START, &body, END);
            }
            7 | 14 => {
                let body = frame[2..sum - 1].to_vec();
                if !body.is_empty() {
                    frame = frames::build(COMMAND_START, &body, END);
                }
            }
            8 => frame.truncate(self.random.between(1, end)),
            9 => frame[0] = self.random.pick(&[DATA_START, 0x00, END]),
            10 => {
                frame[end] = self.random.pick(&[MORE, 0x00]);
                frame[sum] = self.random.other_byte(frame[sum]);
            }
            // SUM wrong and code unknown.
            11 => frame[2] ^= 0x08,
            // Code unknown, SUM right.
            _ => {
                frame[2] ^= 0x08;
                frame[sum] = sum_of(frame[1], &frame[2..sum]);
            }
        }
        frame
    }

    fn wrong_len(&mut self, len: u8) -> u8 {
        match self.random.below(8) {
            0 => self.random.other_byte(len),
            1 => self.random.pick(&[0x00, 0x20]),
            2..5 => len.wrapping_sub(1),
            _ => len.wrapping_add(self.random.between(1, 3) as u8),
        }
    }

    /// Sends a data frame for the page that is due, or something in its place.
    fn send_page(&mut self, due: DuePage) {
        if self.random.chance(5) {
            self.send_stray();
        }
        if self.random.chance(3) {
            let frame = self.any_command();
            self.send_frame(&frame);
            return;
        }
        let mut page = if due.writes {
            random_body(self.random, due.page.length)
        } else {
            self.tape.runner.chip().flash.part(due.page).to_vec()
        };
        if !due.writes && self.random.chance(20) {
            change_byte(self.random, &mut page);
        }
        let mut frame = page_frame(&page, due.last);
        let damage_percent = if due.failed_before { 40 } else { 14 };
        if self.random.chance(damage_percent) {
            frame = self.damaged_page(frame);
        }
        self.send_frame(&frame);
    }

    fn damaged_page(&mut self, mut frame: Vec<u8>) -> Vec<u8> {
        let end = frame.len() - 1;
        let sum = frame.len() - 2;
        let other_end = if frame[end] == END { MORE } else { END };
        match self.random.below(12) {
            0 | 1 => frame[end] = other_end,
            2 => frame[end] = self.random.byte(),
            3 | 4 => frame[sum] = self.random.other_byte(frame[sum]),
            // Well formed, but fewer bytes than a page.
            5 | 6 => {
                let count = self.random.pick(&[1, 2, 16, 128, 255]);
                frame = frames::build(DATA_START, &frame[2..2 + count], frame[end]);
            }
            // Fewer bytes, and the SUM or the end wrong too.
            7 => {
                frame = frames::build(DATA_START, &frame[2..2 + 4], frame[end]);
                frame[6] = self.random.other_byte(frame[6]);
            }
            // The guide's frame to cancel a command (section 7.12).
            8 => frame = vec![DATA_START, 0x01, 0x00, 0xFF, 0xFF],
            9 => frame.truncate(self.random.between(1, end)),
            10 => frame[0] = COMMAND_START,
            _ => {
                frame[end] = other_end;
                frame[sum] = self.random.other_byte(frame[sum]);
            }
        }
        frame
    }
}
