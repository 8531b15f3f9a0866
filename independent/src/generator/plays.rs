//! Plays for the player by itself: sheets, replies, changes in the middle.

use super::Tape;
use super::material::{
    Plan, PlannedStep, Size, chip_line, other_model, random_area, random_model, random_span,
    sheet_lines, shutting_lock,
};
use super::random::Random;
use crate::calls::Calls;
use crate::chip::{Area, Flash, Model};
use crate::frames;
use crate::lines::byte_line;
use crate::options::Options;
use crate::player::Awaited;
use crate::sheet::{Form, Kind, Sheet, Step};
use crate::status;

pub fn generate(seed: u64, count: u64) -> String {
    let mut tape = Tape::new(Calls::new());
    for case in 0..count {
        let mut random = Random::for_case(seed, case);
        // The first play shows what is lent, and which chip is meant, when no
        // line says so.
        let model = if case == 0 { Model::SMALL } else { random_model(&mut random) };
        let plan = random_plan(&mut random, model, tape.has_room());
        let wrong_percent = random.pick(&[0, 4, 8, 12, 25]);
        let busy_percent = random.pick(&[0, 5, 12, 25]);
        Play { tape: &mut tape, random, plan, wrong_percent, busy_percent }.write(case == 0);
    }
    tape.text
}

/// Long ones come while there is room for them.
fn random_plan(random: &mut Random, model: Model, long: bool) -> Plan {
    if random.chance(6) && long {
        return Plan::over_few_blocks(random, &Flash::blank(model), true);
    }
    let (steps, body_bytes) = match random.below(4) {
        0 => (4, 800),
        1 if long => (5, 2_600),
        _ => (6, if long { 1_300 } else { 1_100 }),
    };
    let size = Size { steps, code_blocks: 1, body_bytes };
    Plan::random(random, &Flash::blank(model), &Options::FRESH, size)
}

struct Play<'a> {
    tape: &'a mut Tape<Calls>,
    random: Random,
    /// The sheet by which the play went on last.
    plan: Plan,
    /// How often a reply is wrong.
    wrong_percent: usize,
    /// How often something lent is changed between two calls.
    busy_percent: usize,
}

impl Play<'_> {
    fn write(&mut self, is_first: bool) {
        if !is_first {
            self.take_chip(self.plan.model);
            self.lend_at_start();
        }
        let bytes = if self.random.chance(6) {
            self.plan.faulty_bytes(&mut self.random)
        } else {
            self.plan.bytes()
        };
        self.put_sheet(&bytes);
        let mut told = self.go();
        let most_calls = 90;
        for _ in 0..most_calls {
            if told.starts_with("end") {
                break;
            }
            if told.starts_with("refused") && self.random.chance(75) {
                self.mend();
            }
            told = self.next_call();
        }
        for _ in 0..self.random.below(4) {
            if self.random.chance(40) {
                self.change_something();
            }
            if self.random.chance(25) {
                self.go();
            } else {
                self.reply();
            }
        }
    }

    fn take_chip(&mut self, model: Model) {
        let line = chip_line(&mut self.random, model);
        self.tape.line(&line);
    }

    fn lend_at_start(&mut self) {
        // A list that stays keeps the entries of the play before.
        if self.random.chance(50) {
            let sums = if self.random.chance(40) { self.some_sums() } else { 64 };
            self.tape.line(&format!("sums {sums}"));
        }
        let room = if self.random.chance(20) { self.some_room() } else { 260 };
        self.tape.line(&format!("room {room}"));
    }

    /// Around the number of entries that is just enough.
    fn some_sums(&mut self) -> usize {
        let steps = self.plan.steps.len();
        let choices = [0, steps.saturating_sub(1), steps, steps, steps + 1, 63, 64];
        self.random.pick(&choices)
    }

    fn some_room(&mut self) -> usize {
        self.random.pick(&[0, 5, 12, 259, 260, 261, 300])
    }

    fn put_sheet(&mut self, bytes: &[u8]) {
        let text = sheet_lines(&mut self.random, bytes);
        if self.random.one_in(40) {
            // The line between cuts this part off from the sheet.
            self.tape.line("sheet 01 00");
            if self.random.chance(50) {
                self.tape.line("room 260");
            } else {
                self.take_chip(self.tape.runner.model());
            }
        }
        self.tape.lines(&text);
    }

    /// Lends what the play needs to go on.
    fn mend(&mut self) {
        if self.tape.runner.model() != self.plan.model {
            self.take_chip(self.plan.model);
        }
        let bytes = self.plan.bytes();
        self.put_sheet(&bytes);
        if self.tape.runner.sums_lent() < self.plan.steps.len() {
            self.tape.line("sums 64");
        }
        self.tape.line("room 260");
    }

    fn go(&mut self) -> String {
        let count = if self.random.chance(25) { self.random.between(1, 8) } else { 0 };
        let reply = self.random.bytes(count);
        self.tape.line(&byte_line("go", &reply))
    }

    fn next_call(&mut self) -> String {
        let mut tried = None;
        if self.random.chance(self.busy_percent) {
            tried = self.change_something();
        }
        if self.random.one_in(100) {
            return self.go();
        }
        let told = self.reply();
        if let Some(plan) = tried
            && !told.starts_with("refused")
        {
            self.plan = plan;
        }
        told
    }

    /// Changes the sheet, the room, the list or the chip. A changed plan is
    /// given back.
    fn change_something(&mut self) -> Option<Plan> {
        match self.random.below(11) {
            0 => {
                let room = self.some_room();
                self.tape.line(&format!("room {room}"));
                None
            }
            1 => {
                let sums = self.some_sums();
                self.tape.line(&format!("sums {sums}"));
                None
            }
            2 => {
                let bytes = self.plan.faulty_bytes(&mut self.random);
                self.put_sheet(&bytes);
                if self.random.chance(30) {
                    // The sheet is named before the list.
                    self.tape.line("sums 0");
                }
                None
            }
            3 => {
                let model = match self.random.below(5) {
                    0 => other_model(&mut self.random),
                    _ => random_model(&mut self.random),
                };
                self.take_chip(model);
                None
            }
            _ => {
                let plan = self.changed_plan();
                self.put_sheet(&plan.bytes());
                Some(plan)
            }
        }
    }

    fn changed_plan(&mut self) -> Plan {
        let mut plan = self.plan.clone();
        let step = self.tape.runner.player().map_or(0, |player| player.steps_finished());
        match self.random.below(12) {
            0 => plan.steps.truncate(self.random.between(step.saturating_sub(1), step + 1)),
            1 => {
                plan = random_plan(&mut self.random, self.plan.model, self.tape.has_room());
            }
            2 => plan.steps.push(self.random_step(None)),
            // Another kind over the same blocks. Write and verify await the
            // same, and so do others, but they are not the same step.
            3..6 => {
                if let Some(step) = plan.steps.get_mut(step) {
                    step.kind = self.other_kind(plan.form, step.kind);
                }
            }
            // The same kind over other blocks: fewer, or more.
            6 | 7 => {
                if let Some(now) = plan.steps.get(step) {
                    let kind = now.kind;
                    plan.steps[step] = self.random_step(Some(kind));
                }
            }
            // The same steps in the other form; kinds 5 and 6 are none of
            // form 1's, and form 1 has one chip.
            8 => {
                plan.form = if plan.form == Form::One { Form::Two } else { Form::One };
                plan.model = if plan.form == Form::One { Model::SMALL } else { plan.model };
            }
            // The same steps for the other chip, which takes its place.
            9 => {
                plan.model = match plan.model {
                    Model::SMALL => Model::LARGE,
                    _ => Model::SMALL,
                };
                plan.form = Form::Two;
                self.take_chip(plan.model);
            }
            // The last step shuts the chip.
            10 => {
                if plan.form == Form::Two
                    && let Some(last) = plan.steps.last_mut()
                {
                    last.kind = Kind::Lock;
                    last.body.clear();
                    last.lock = shutting_lock(&mut self.random);
                }
            }
            _ => {
                if step < plan.steps.len() {
                    plan.steps[step] = self.random_step(None);
                }
            }
        }
        plan
    }

    /// A kind that has a body if and only if this one has; of those that are
    /// answered alike often the likest.
    fn other_kind(&mut self, form: Form, kind: Kind) -> Kind {
        match kind {
            Kind::Blank if self.random.chance(60) => return Kind::Lock,
            Kind::Lock if self.random.chance(60) => return Kind::Blank,
            _ => {}
        }
        let others: Vec<Kind> = Kind::of_form(form)
            .iter()
            .copied()
            .filter(|other| *other != kind && other.has_body() == kind.has_body())
            .collect();
        self.random.pick(&others)
    }

    fn random_step(&mut self, kind: Option<Kind>) -> PlannedStep {
        let kind = kind.unwrap_or_else(|| self.random.pick(Kind::of_form(self.plan.form)));
        // Bodies of code blocks make long sheets.
        let area = match kind.has_body() {
            true if self.random.chance(90) => Area::Data,
            _ => random_area(&mut self.random),
        };
        let most_blocks = match area {
            Area::Code if kind.has_body() => 1,
            _ => 5,
        };
        let model = self.plan.model;
        let span = random_span(&mut self.random, model, area, most_blocks);
        PlannedStep::random(&mut self.random, kind, span, &Flash::blank(model))
    }

    /// Whether the step awaited, in the sheet in hand, is a lock to which
    /// nothing is due.
    fn nothing_is_due(&self) -> bool {
        let calls = &self.tape.runner;
        let step = calls.player().map_or(0, |player| player.steps_finished());
        let Ok(sheet) = Sheet::read(calls.sheet()) else {
            return false;
        };
        matches!(sheet.steps.get(step), Some(Step::Lock(lock)) if lock.clears_ifpr())
    }

    fn reply(&mut self) -> String {
        let awaited = self.tape.runner.player().and_then(|player| player.awaited());
        let bytes = match awaited {
            Some(Awaited::Lock) if self.nothing_is_due() => {
                if self.random.chance(self.wrong_percent * 2) {
                    self.word_of_a_shut_chip()
                } else {
                    Vec::new()
                }
            }
            Some(awaited) => {
                // A sum has the most ways to go wrong.
                let weight = if awaited == Awaited::Sum { 3 } else { 1 };
                if self.random.chance(self.wrong_percent * weight) {
                    self.wrong_reply(awaited)
                } else {
                    self.right_reply(awaited)
                }
            }
            None => {
                let count = self.random.below(8);
                self.random.bytes(count)
            }
        };
        self.tape.line(&byte_line("<", &bytes))
    }

    /// Any byte at all where none is due.
    fn word_of_a_shut_chip(&mut self) -> Vec<u8> {
        match self.random.below(4) {
            0 => frames::answer(&[status::ACK]),
            1 => frames::answer(&[self.some_status()]),
            2 => vec![self.random.pick(&[0x00, 0x02, 0x06, 0xFF])],
            _ => {
                let count = self.random.between(1, 8);
                self.random.bytes(count)
            }
        }
    }

    fn right_reply(&mut self, awaited: Awaited) -> Vec<u8> {
        match awaited {
            Awaited::Block(_) | Awaited::Opening | Awaited::Blank | Awaited::Lock => {
                frames::answer(&[status::ACK])
            }
            Awaited::Page(_) => frames::answer(&[status::ACK, status::ACK]),
            Awaited::Sum => {
                let sum = self.random.bytes(2);
                [frames::answer(&[status::ACK]), frames::answer(&sum)].concat()
            }
        }
    }

    fn some_status(&mut self) -> u8 {
        if self.random.chance(15) {
            return self.random.byte();
        }
        self.random.pick(&[0x04, 0x05, 0x06, 0x07, 0x0F, 0x10, 0x15, 0x1B, 0x1C, 0x24])
    }

    fn wrong_reply(&mut self, awaited: Awaited) -> Vec<u8> {
        let mut reply = self.right_reply(awaited);
        // The place of a frame in the reply: the first or, of a sum, the second.
        let start = match awaited {
            Awaited::Sum if self.random.chance(50) => 5,
            _ => 0,
        };
        let length = 4 + usize::from(reply[start + 1]);
        let (sum, end) = (start + length - 2, start + length - 1);
        match self.random.below(24) {
            0..10 => return self.status_reply(awaited),
            10 => return Vec::new(),
            11 => reply.truncate(self.random.below(reply.len())),
            12 => reply.push(self.random.byte()),
            13 => reply = [reply.clone(), reply].concat(),
            14 => reply[start] = self.random.pick(&[0x01, 0x00, 0x03]),
            15 => reply[start + 1] = self.random.other_byte(reply[start + 1]),
            // LEN wrong, SUM fitting it.
            16 => {
                reply[start + 1] += 1;
                reply[sum] = reply[sum].wrapping_sub(1);
            }
            17 => reply[sum] = self.random.other_byte(reply[sum]),
            18 => reply[end] = frames::MORE,
            19 => reply[end] = self.random.other_byte(frames::END),
            // A well-formed frame of another length.
            20 => {
                let count = self.random.pick(&[1, 2, 3, 4]);
                let mut body = vec![status::ACK];
                body.extend(self.random.bytes(count - 1));
                reply = frames::answer(&body);
            }
            21 => {
                let others = [Awaited::Block(0), Awaited::Page(0), Awaited::Sum];
                let other = self.random.pick(&others);
                reply = self.right_reply(other);
            }
            22 => {
                let count = self.random.between(1, 12);
                reply = self.random.bytes(count);
            }
            // A stray byte before the answer.
            _ => reply.insert(0, self.random.byte()),
        }
        reply
    }

    /// A well-formed answer with status bytes, 06h among them.
    fn status_reply(&mut self, awaited: Awaited) -> Vec<u8> {
        let (first, second) = (self.some_status(), self.some_status());
        match awaited {
            Awaited::Block(_) | Awaited::Opening | Awaited::Blank | Awaited::Lock => {
                frames::answer(&[first])
            }
            Awaited::Page(_) => match self.random.below(3) {
                0 => frames::answer(&[status::ACK, second]),
                1 => frames::answer(&[first, status::ACK]),
                _ => frames::answer(&[first, second]),
            },
            Awaited::Sum if self.random.chance(40) => frames::answer(&[first]),
            // Only after 06h a second frame is due.
            Awaited::Sum => [frames::answer(&[first]), frames::answer(&[second, 0x00])].concat(),
        }
    }
}
