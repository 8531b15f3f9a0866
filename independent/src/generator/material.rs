//! What all kinds of cases are made of: prepared chips, address pairs, sheets
//! and their faults.

use super::random::Random;
use crate::chip::{Area, BLANK, CONNECTION_ID, Flash, Model, PAGE, Span};
use crate::frames::address_bytes;
use crate::lines::{byte_line, flash_line};
use crate::meaning::meaning;
use crate::options::{self, Options};
use crate::sheet::{
    ENTRY_LENGTH, FORM_2_MARK, Form, Kind, Lock, MOST_STEPS, Sheet, Step, writes_a_page_twice,
};
use crate::status;

/// One of the two chips.
pub fn random_model(random: &mut Random) -> Model {
    if random.chance(55) { Model::SMALL } else { Model::LARGE }
}

/// Block counts of neither chip: near the two, the two mixed, or any.
pub fn other_model(random: &mut Random) -> Model {
    loop {
        let (code_blocks, data_blocks) = match random.below(3) {
            0 => random.pick(&[(16, 32), (64, 8), (8, 16), (32, 64), (8, 8), (16, 16), (64, 64)]),
            1 => {
                let near = [0, 7, 8, 9, 15, 16, 17, 31, 32, 33, 63, 64, 65, 255];
                (random.pick(&near), random.pick(&near))
            }
            _ => (random.below(256), random.below(256)),
        };
        let model = Model { code_blocks, data_blocks };
        if model.check().is_err() {
            return model;
        }
    }
}

/// A `chip` line, with the counts or, where there is one, with the name.
pub fn chip_line(random: &mut Random, model: Model) -> String {
    match model {
        Model::SMALL if random.chance(60) => String::from("chip small\n"),
        Model::LARGE if random.chance(60) => String::from("chip large\n"),
        Model { code_blocks, data_blocks } => format!("chip {code_blocks} {data_blocks}\n"),
    }
}

/// A line that takes a fresh chip, of either kind.
pub fn fresh_line(random: &mut Random) -> String {
    match random_model(random) {
        Model::SMALL if random.chance(50) => String::from("fresh\n"),
        model => chip_line(random, model),
    }
}

/// What a chip holds before its power-on.
pub struct Preparation {
    model: Model,
    pub options: Option<Options>,
    pub patches: Vec<Patch>,
}

pub struct Patch {
    area: Area,
    address: u32,
    bytes: Vec<u8>,
}

impl Preparation {
    pub fn random(random: &mut Random, model: Model) -> Preparation {
        let options = random.chance(70).then(|| random_options(random));
        let asks_for_id = options.is_some_and(|options| !options.sf2_has(options::IDEN));
        let mut patches = Vec::new();
        if random.chance(if asks_for_id { 70 } else { 10 }) {
            let address = CONNECTION_ID.start as u32;
            patches.push(Patch { area: Area::Code, address, bytes: random.bytes(10) });
        }
        if random.chance(60) {
            for _ in 0..random.between(1, 4) {
                patches.push(random_patch(random, model));
            }
        }
        Preparation { model, options, patches }
    }

    pub fn lines(&self) -> String {
        let mut text = String::new();
        if let Some(Options { sf1, sf2, sws, swe }) = self.options {
            text.push_str(&format!("options {sf1:02X} {sf2:02X} {sws:04X} {swe:04X}\n"));
        }
        for patch in &self.patches {
            text.push_str(&flash_line(patch.area, patch.address, &patch.bytes));
        }
        text
    }

    /// A chip's contents after this preparation.
    pub fn contents(&self) -> (Flash, Options) {
        let mut flash = Flash::blank(self.model);
        for patch in &self.patches {
            flash
                .store(patch.area, patch.address, &patch.bytes)
                .expect("a patch lies inside its flash");
        }
        (flash, self.options.unwrap_or(Options::FRESH))
    }
}

/// Options with some named bits 0 and any stray bits.
pub fn random_options(random: &mut Random) -> Options {
    let mut options = match random.below(3) {
        0 => Options::FRESH,
        // The named bits alone.
        1 => Options { sf1: 0x16, sf2: 0x1D, sws: 0x81FF, swe: 0x81FF },
        _ => Options {
            sf1: random.byte() | 0x16,
            sf2: random.byte() | 0x1D,
            sws: random.word() | 0x81FF,
            swe: random.word() | 0x81FF,
        },
    };
    for (flag, percent) in [(options::BTPR, 22), (options::SEPR, 14), (options::WRPR, 14)] {
        if random.chance(percent) {
            options.sf1 &= !flag;
        }
    }
    let sf2_flags =
        [(options::IDEN, 25), (options::IFPR, 4), (options::SWPR, 15), (options::CMPR, 15)];
    for (flag, percent) in sf2_flags {
        if random.chance(percent) {
            options.sf2 &= !flag;
        }
    }
    if random.chance(18) {
        options.sws &= !options::FSPR;
    }
    if random.chance(30) {
        options.swe &= !options::FSWC;
    }
    if random.chance(60) {
        let start = random_window_block(random);
        let end = if random.chance(35) { start } else { random_window_block(random) };
        options.sws = (options.sws & !options::WINDOW_BLOCK) | start;
        options.swe = (options.swe & !options::WINDOW_BLOCK) | end;
    }
    options
}

fn random_window_block(random: &mut Random) -> u16 {
    match random.below(3) {
        0 => random.below(16) as u16,
        1 => random.pick(&[0, 0, 0, 15, 16, 63, 64, 255, 256, 511]),
        _ => random.below(512) as u16,
    }
}

fn random_patch(random: &mut Random, model: Model) -> Patch {
    let area = random_area(random);
    let length = model.length(area);
    let pages = length / PAGE;
    let (start, bytes) = match random.below(4) {
        // The first or last byte of a page, often at an edge of some kind.
        0 => {
            let edges: &[usize] = match area {
                Area::Code => &[0, 7, 8, 63, 64, pages - 1],
                Area::Data => &[0, 1, 2, 7, pages - 1],
            };
            let page = if random.chance(60) { random.pick(edges) } else { random.below(pages) };
            (page * PAGE + random.pick(&[0, PAGE - 1]), vec![random.pick(&[0x00, 0xFE, 0x7F])])
        }
        1 => (random.below(pages) * PAGE, random.bytes(PAGE)),
        2 => (random.below(pages) * PAGE, vec![random.byte(); PAGE]),
        _ => {
            let count = random.between(1, 40);
            (random.below(length - count), random.bytes(count))
        }
    };
    Patch { area, address: area.first_address() + start as u32, bytes }
}

pub fn random_area(random: &mut Random) -> Area {
    if random.chance(60) { Area::Data } else { Area::Code }
}

/// One or more blocks of a flash, mostly few.
pub fn random_span(random: &mut Random, model: Model, area: Area, most_blocks: usize) -> Span {
    let blocks = model.blocks(area);
    let first = match area {
        Area::Code if random.chance(50) => random.pick(&[0, 6, 7, 8, 15, blocks - 1]),
        Area::Data if random.chance(20) => random.pick(&[0, 7, blocks - 1]),
        _ => random.below(blocks),
    };
    let room = (blocks - first).min(most_blocks);
    let count = if random.chance(50) { 1 } else { random.between(1, room) };
    let length = area.block_length();
    Span { area, start: first * length, length: count * length }
}

/// A block that is not blank and some before and behind it, up to the most that
/// a flash allows; None if all are blank.
fn span_around_dirt(
    random: &mut Random,
    flash: &Flash,
    most: impl Fn(Area) -> usize,
) -> Option<Span> {
    let mut dirty = Vec::new();
    for area in Area::BOTH {
        for (index, block) in flash.area(area).chunks(area.block_length()).enumerate() {
            if block.iter().any(|&byte| byte != BLANK) {
                dirty.push((area, index));
            }
        }
    }
    if dirty.is_empty() {
        return None;
    }
    let (area, block) = random.pick(&dirty);
    let most = most(area).min(4);
    let before = random.below(most).min(block);
    let behind = random.below(most - before).min(flash.model().blocks(area) - 1 - block);
    let length = area.block_length();
    Some(Span { area, start: (block - before) * length, length: (before + 1 + behind) * length })
}

/// Some neighbouring blocks of a span.
fn part_of(random: &mut Random, span: Span) -> Span {
    let first = random.below(span.blocks());
    let count = random.between(1, span.blocks() - first);
    let length = span.area.block_length();
    Span { start: span.start + first * length, length: count * length, ..span }
}

/// A pair of addresses that is not valid for a chip.
pub fn bad_pair(random: &mut Random, model: Model) -> (u32, u32) {
    let past = |area: Area| area.first_address() + model.length(area) as u32;
    let (past_code, past_data) = (past(Area::Code), past(Area::Data));
    loop {
        let area = random_area(random);
        let span = random_span(random, model, area, 3);
        let (sad, ead) = (span.first_address(), span.last_address());
        let pair = match random.below(12) {
            0 => (sad + 1, ead),
            1 => (sad, ead - 1),
            2 => (sad, ead + 1),
            3 => (ead, sad),
            // Pages, but not blocks of code flash.
            4 => (sad + PAGE as u32, ead),
            5 => (sad, ead - PAGE as u32),
            // From one flash into the other.
            6 => {
                let starts = [0x00000, 0x00800, past_code - 0x800];
                (random.pick(&starts), random.pick(&[0xF10FF, past_data - 1]))
            }
            7 => (random.pick(&[past_code, 0xF0800, past_data, 0xFF800]), ead + 0x800),
            8 => (sad, ead + random.pick(&[past_code, 0x10_0000, 0x80_0000])),
            // The first block that is not there, alone and with the last one.
            9 => {
                let (past, length) = (past(area), area.block_length() as u32);
                (random.pick(&[past - length, past]), past + length - 1)
            }
            // Well for the large chip.
            10 => {
                let span = random_span(random, Model::LARGE, area, 3);
                (span.first_address(), span.last_address())
            }
            _ => (random.below(1 << 24) as u32, random.below(1 << 24) as u32),
        };
        if model.pair(pair.0, pair.1).is_none() && pair.0.max(pair.1) < 1 << 24 {
            return pair;
        }
    }
}

/// A page or body of bytes of one sort.
pub fn random_body(random: &mut Random, length: usize) -> Vec<u8> {
    match random.below(6) {
        0 => vec![0xFF; length],
        1 => vec![random.byte(); length],
        2 => (0..length).map(|at| at as u8).collect(),
        // Random pages, some of them blank.
        3 => (0..length / PAGE)
            .flat_map(|_| if random.chance(40) { vec![0xFF; PAGE] } else { random.bytes(PAGE) })
            .collect(),
        _ => random.bytes(length),
    }
}

/// Changes one byte.
pub fn change_byte(random: &mut Random, bytes: &mut [u8]) {
    let at = match random.below(4) {
        0 => 0,
        1 => bytes.len() - 1,
        _ => random.below(bytes.len()),
    };
    bytes[at] = random.other_byte(bytes[at]);
}

/// Flags for a lock that leaves the chip open.
pub fn random_lock(random: &mut Random) -> Lock {
    let Options { mut sf1, mut sf2, .. } = match random.below(3) {
        0 => Options::FRESH,
        _ => random_options(random),
    };
    match random.below(8) {
        0 => sf1 &= !options::BTPR,
        1 => sf1 &= !options::WRPR,
        2 => sf2 &= !options::IDEN,
        _ => {}
    }
    Lock { sf1, sf2: sf2 | options::IFPR }
}

/// Flags for a lock that clears IFPR.
pub fn shutting_lock(random: &mut Random) -> Lock {
    let Lock { sf1, sf2 } = random_lock(random);
    Lock { sf1, sf2: sf2 & !options::IFPR }
}

/// A sheet before it is written down.
#[derive(Clone)]
pub struct Plan {
    pub form: Form,
    pub model: Model,
    pub steps: Vec<PlannedStep>,
}

/// A step with all that a step of any kind can have.
#[derive(Clone)]
pub struct PlannedStep {
    pub kind: Kind,
    pub span: Span,
    /// Empty for a kind without a body.
    pub body: Vec<u8>,
    /// Read of a lock alone.
    pub lock: Lock,
}

/// How large a plan may become.
#[derive(Clone, Copy)]
pub struct Size {
    pub steps: usize,
    /// Of a code span with a body; other spans are free.
    pub code_blocks: usize,
    /// Of all bodies together.
    pub body_bytes: usize,
}

impl Plan {
    /// A plan made for a chip: mostly its steps do well, and verify bodies
    /// match, up to some step. No page is written twice with no erase between.
    pub fn random(random: &mut Random, flash: &Flash, options: &Options, size: Size) -> Plan {
        let mut plan = Plan::empty(random, flash.model());
        let (mut flash, mut options) = (flash.clone(), *options);
        let mut body_bytes = 0;
        let wanted = if random.chance(4) { 0 } else { random.between(1, size.steps) };
        let tolerance = random.pick(&[5, 50, 100, 100]);
        for _ in 0..wanted * 3 {
            if plan.steps.len() == wanted {
                break;
            }
            let mut step = plan.random_step(random, &flash, size);
            if plan.would_write_twice(&step) {
                // The erase due before it; the write may come next.
                step = PlannedStep::random(random, Kind::Erase, step.span, &flash);
            }
            if body_bytes + step.body.len() > size.body_bytes {
                continue;
            }
            let (mut flash_after, mut options_after) = (flash.clone(), options);
            let outcome = meaning(&plan.of_step(&step), &mut flash_after, &mut options_after);
            if outcome.status != status::ACK && !random.chance(tolerance) {
                continue;
            }
            (flash, options) = (flash_after, options_after);
            body_bytes += step.body.len();
            plan.steps.push(step);
        }
        if plan.form == Form::Two && random.chance(15) {
            plan.shut(random);
        }
        plan
    }

    /// Many steps over a few neighbouring blocks. If not `clean`, a page may
    /// be written twice with no erase between.
    pub fn over_few_blocks(random: &mut Random, flash: &Flash, clean: bool) -> Plan {
        let mut plan = Plan::empty(random, flash.model());
        let mut flash = flash.clone();
        let area = if random.chance(85) { Area::Data } else { Area::Code };
        let all = random_span(random, plan.model, area, 3);
        let most = if area == Area::Code { 5 } else { 16 };
        let erase_percent = random.pick(&[0, 40, 80, 95]);
        for _ in 0..random.between(2, most) {
            let span = part_of(random, all);
            let kind = match plan.form {
                Form::Two if random.chance(10) => random.pick(&[Kind::Blank, Kind::Lock]),
                _ => random.pick(&[
                    Kind::Erase,
                    Kind::Write,
                    Kind::Write,
                    Kind::Write,
                    Kind::Verify,
                    Kind::Sum,
                ]),
            };
            let mut step = PlannedStep::random(random, kind, span, &flash);
            if plan.would_write_twice(&step) && (clean || random.chance(erase_percent)) {
                // Mostly of all that is written, or of a part: not enough.
                let erased = if clean || random.chance(90) { span } else { part_of(random, span) };
                let erase = PlannedStep::random(random, Kind::Erase, erased, &flash);
                plan.steps.push(erase);
                flash.part_mut(erased).fill(BLANK);
            }
            if step.kind == Kind::Lock {
                // All the steps after it are wanted.
                step.lock = Lock { sf1: 0xFF, sf2: 0xFF };
            }
            meaning(&plan.of_step(&step), &mut flash, &mut Options::FRESH.clone());
            plan.steps.push(step);
        }
        plan
    }

    /// No step yet, for a chip, in a form that can name it.
    fn empty(random: &mut Random, model: Model) -> Plan {
        let form = match model {
            Model::SMALL if random.chance(50) => Form::One,
            _ => Form::Two,
        };
        Plan { form, model, steps: Vec::new() }
    }

    fn would_write_twice(&self, step: &PlannedStep) -> bool {
        let steps: Vec<Step> = self.steps.iter().chain([step]).map(PlannedStep::as_step).collect();
        writes_a_page_twice(&steps)
    }

    fn of_step<'a>(&self, step: &'a PlannedStep) -> Sheet<'a> {
        Sheet { form: self.form, model: self.model, steps: vec![step.as_step()] }
    }

    /// Makes the last step a lock that clears IFPR.
    fn shut(&mut self, random: &mut Random) {
        if let Some(last) = self.steps.last_mut() {
            let lock = shutting_lock(random);
            *last = PlannedStep { kind: Kind::Lock, span: last.span, body: Vec::new(), lock };
        }
    }

    fn random_step(&self, random: &mut Random, flash: &Flash, size: Size) -> PlannedStep {
        use Kind::{Blank, Erase, Lock, Sum, Verify, Write};
        let kind = match self.form {
            Form::Two if random.chance(25) => random.pick(&[Blank, Lock]),
            _ => random.pick(&[Erase, Erase, Write, Write, Write, Verify, Verify, Sum, Sum]),
        };
        let most = |area: Area| match area {
            Area::Code if kind.has_body() => size.code_blocks,
            _ => 16,
        };
        let mut span = match self.steps.last() {
            Some(before) if random.chance(50) => before.span,
            _ => {
                let area = random_area(random);
                random_span(random, self.model, area, most(area))
            }
        };
        if kind == Kind::Write
            && random.chance(50)
            && let Some(around) = span_around_dirt(random, flash, most)
        {
            span = around;
        }
        PlannedStep::random(random, kind, span, flash)
    }

    pub fn bytes(&self) -> Vec<u8> {
        let steps = self.steps.iter().map(PlannedStep::as_step).collect();
        Sheet { form: self.form, model: self.model, steps }.bytes()
    }

    /// Writes the blocks of a write step, or some of them, once more.
    fn write_twice(&mut self, random: &mut Random) {
        let writes: Vec<usize> =
            (0..self.steps.len()).filter(|&index| self.steps[index].kind == Kind::Write).collect();
        if writes.is_empty() || self.steps.len() == MOST_STEPS {
            return;
        }
        let first = random.pick(&writes);
        let mut step = self.steps[first].clone();
        if random.chance(40) {
            step.span = part_of(random, step.span);
            step.body = random_body(random, step.span.length);
        }
        if random.chance(25) {
            // Even if the first body was all FFh.
            self.steps[first].body.fill(BLANK);
        }
        let at = random.between(first + 1, self.steps.len());
        self.steps.insert(at, step);
    }

    /// The plan's bytes with one or more faults in them.
    pub fn faulty_bytes(&self, random: &mut Random) -> Vec<u8> {
        if random.chance(14) {
            let mut plan = self.clone();
            plan.write_twice(random);
            let mut bytes = plan.bytes();
            match random.below(10) {
                // Bytes left over are found first.
                0 | 1 => bytes.push(random.byte()),
                2..5 => bytes = plan.faulty_bytes(random),
                _ => {}
            }
            return bytes;
        }
        let mut faults: Vec<Fault> = Vec::new();
        for _ in 0..random.pick(&[1, 1, 2, 2, 3]) {
            faults.push(match self.form {
                Form::Two if random.chance(30) => random.pick(&Fault::OF_FORM_2),
                _ => random.pick(&Fault::CHOICES),
            });
        }
        // Faults of length come last, so that the others find their bytes.
        faults.sort();
        let mut bytes = self.bytes();
        for fault in faults {
            fault.put_in(random, &mut bytes, self);
        }
        bytes
    }
}

impl PlannedStep {
    pub fn random(random: &mut Random, kind: Kind, span: Span, flash: &Flash) -> PlannedStep {
        let body = match kind {
            Kind::Write => random_body(random, span.length),
            Kind::Verify if random.chance(15) => random_body(random, span.length),
            Kind::Verify => {
                let mut body = flash.part(span).to_vec();
                if random.chance(20) {
                    change_byte(random, &mut body);
                }
                body
            }
            _ => Vec::new(),
        };
        PlannedStep { kind, span, body, lock: random_lock(random) }
    }

    fn as_step(&self) -> Step<'_> {
        match self.kind {
            Kind::Erase => Step::Erase(self.span),
            Kind::Write => Step::Write(self.span, &self.body),
            Kind::Verify => Step::Verify(self.span, &self.body),
            Kind::Sum => Step::Sum(self.span),
            Kind::Blank => Step::Blank(self.span),
            Kind::Lock => Step::Lock(self.lock),
        }
    }
}

/// A fault of a sheet, named by the refusal it leads to when alone.
#[derive(Clone, Copy, PartialEq, Eq, PartialOrd, Ord)]
enum Fault {
    J4,
    J5,
    J6,
    J7,
    J12,
    J11,
    J2,
    /// A mark of form 2 that is none: J2 too.
    Mark,
    J9,
    J8,
    J3,
    J1,
}

impl Fault {
    /// The faults of both forms; those that others hide easily come more than
    /// once.
    const CHOICES: [Fault; 18] = [
        Fault::J4,
        Fault::J4,
        Fault::J5,
        Fault::J5,
        Fault::J6,
        Fault::J6,
        Fault::J6,
        Fault::J7,
        Fault::J7,
        Fault::J7,
        Fault::J2,
        Fault::J9,
        Fault::J9,
        Fault::J8,
        Fault::J8,
        Fault::J8,
        Fault::J3,
        Fault::J1,
    ];

    const OF_FORM_2: [Fault; 6] =
        [Fault::J11, Fault::J11, Fault::J12, Fault::J12, Fault::J12, Fault::Mark];

    /// Changes the bytes of a plan. At least one byte stays.
    fn put_in(self, random: &mut Random, bytes: &mut Vec<u8>, plan: &Plan) {
        let count = plan.steps.len();
        let head = plan.form.head_length();
        let table_end = plan.form.table_end(count);
        let of_entries = [Fault::J4, Fault::J5, Fault::J6, Fault::J7, Fault::J12];
        if count == 0 && of_entries.contains(&self) {
            return;
        }
        let entry = head + ENTRY_LENGTH * random.below(count.max(1));
        match self {
            Fault::J4 => {
                bytes[entry] = match plan.form {
                    Form::One => random.pick(&[0, 5, 6, 0x81, 0xFF]),
                    Form::Two => random.pick(&[0, 7, 8, 0x81, 0xFF]),
                };
            }
            Fault::J5 => bytes[entry + 7] = random.pick(&[1, 0x80, 0xFF]),
            Fault::J6 => {
                let (sad, ead) = bad_pair(random, plan.model);
                bytes[entry + 1..entry + 4].copy_from_slice(&address_bytes(sad));
                bytes[entry + 4..entry + 7].copy_from_slice(&address_bytes(ead));
            }
            Fault::J7 => {
                let at = entry + 8 + random.below(4);
                bytes[at] = match random.below(3) {
                    0 => bytes[at].wrapping_add(1),
                    1 => bytes[at].wrapping_sub(1),
                    _ => random.other_byte(bytes[at]),
                };
            }
            Fault::J12 => put_lock_fault(random, &mut bytes[entry..entry + ENTRY_LENGTH]),
            Fault::J11 => match random.below(4) {
                0 => bytes[3] = random.pick(&[1, 0x80, 0xFF]),
                _ => bytes[2] = random.pick(&[0, 3, 4, 0x81, 0xFF]),
            },
            Fault::J2 => {
                let wrong = random.pick(&[65, 66, 256, 0x4000, 0xFFFF]);
                bytes[head - 2..head].copy_from_slice(&u16::to_le_bytes(wrong));
            }
            Fault::Mark => {
                let at = random.below(2);
                bytes[at] = random.other_byte(bytes[at]);
            }
            Fault::J9 => {
                let more = random.between(1, 3);
                bytes.extend(random.bytes(more));
            }
            Fault::J8 if bytes.len() > table_end => {
                let bodies = bytes.len() - table_end;
                let kept = if random.chance(50) { bodies - 1 } else { random.below(bodies) };
                bytes.truncate(table_end + kept);
            }
            Fault::J8 => {}
            Fault::J3 if count > 0 => {
                let table = table_end - head;
                let kept = if random.chance(50) { table - 1 } else { random.below(table) };
                bytes.truncate(head + kept);
            }
            Fault::J3 => bytes[head - 2] = random.between(1, MOST_STEPS) as u8,
            Fault::J1 => bytes.truncate(random.between(1, head - 1)),
        }
    }
}

/// Makes an entry a lock with wrong filler, or one that clears IFPR, which is
/// well only in the last place.
fn put_lock_fault(random: &mut Random, entry: &mut [u8]) {
    let Lock { sf1, sf2 } = random_lock(random);
    entry[..7].copy_from_slice(&[Kind::Lock.number(), sf1, sf2, 0, 0, 0, 0]);
    if random.chance(50) {
        entry[2] &= !options::IFPR;
    } else {
        entry[random.between(3, 6)] = random.pick(&[1, 0x80, 0xFF]);
    }
}

/// `sheet` lines for these bytes, none of them long.
pub fn sheet_lines(random: &mut Random, bytes: &[u8]) -> String {
    const MOST_OF_LINE: usize = 4_096;
    let most = if random.chance(70) { MOST_OF_LINE } else { random.between(16, 1_024) };
    bytes.chunks(most).map(|chunk| byte_line("sheet", chunk)).collect()
}

/// A sheet at the limit of length, or some bytes past it.
pub fn huge_sheet(random: &mut Random) -> Vec<u8> {
    let form = random.pick(&[Form::One, Form::Two]);
    let length = form.most_bytes() + random.pick(&[0, 1]) - random.pick(&[0, 0, 4]);
    let mut bytes = vec![0; length];
    if form == Form::Two {
        bytes[..FORM_2_MARK.len()].copy_from_slice(&FORM_2_MARK);
        bytes[2] = random.pick(&[0, 1, 1, 2]);
    }
    bytes[form.head_length() - 2] = random.pick(&[0, 65]);
    bytes
}
