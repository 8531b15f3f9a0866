//! The job sheet in both its forms: read, judged, written and moved.

use std::collections::BTreeSet;

use crate::chip::{D0, Model, Span};
use crate::frames::address_bytes;
use crate::options::IFPR;

/// The most steps of a sheet.
pub const MOST_STEPS: usize = 64;

/// Bytes of an entry: kind, SAD, EAD, a zero byte, body offset.
pub const ENTRY_LENGTH: usize = 12;

/// The first two bytes of form 2. As a count of form 1 they are 766.
pub const FORM_2_MARK: [u8; 2] = [0xFE, 0x02];

#[derive(Clone, Copy, Debug, PartialEq, Eq)]
pub enum Form {
    One,
    Two,
}

impl Form {
    /// The most bytes of a sheet in any form.
    pub const MOST_BYTES_OF_ANY: usize = 65_540;

    fn of(bytes: &[u8]) -> Form {
        if bytes.starts_with(&FORM_2_MARK) { Form::Two } else { Form::One }
    }

    /// Bytes before the entries; the last two are the count.
    pub const fn head_length(self) -> usize {
        match self {
            Form::One => 2,
            Form::Two => 6,
        }
    }

    pub const fn most_bytes(self) -> usize {
        match self {
            Form::One => 65_536,
            Form::Two => Form::MOST_BYTES_OF_ANY,
        }
    }

    /// Where the table of `count` entries ends and the bodies begin.
    pub const fn table_end(self, count: usize) -> usize {
        self.head_length() + ENTRY_LENGTH * count
    }
}

#[derive(Clone, Copy, Debug, PartialEq, Eq)]
pub enum Kind {
    Erase,
    Write,
    Verify,
    Sum,
    /// Of form 2 alone.
    Blank,
    /// Of form 2 alone.
    Lock,
}

impl Kind {
    pub const OF_FORM_1: [Kind; 4] = [Kind::Erase, Kind::Write, Kind::Verify, Kind::Sum];
    pub const ALL: [Kind; 6] =
        [Kind::Erase, Kind::Write, Kind::Verify, Kind::Sum, Kind::Blank, Kind::Lock];

    /// The kinds that a sheet of a form can have.
    pub fn of_form(form: Form) -> &'static [Kind] {
        match form {
            Form::One => &Kind::OF_FORM_1,
            Form::Two => &Kind::ALL,
        }
    }

    pub fn number(self) -> u8 {
        match self {
            Kind::Erase => 1,
            Kind::Write => 2,
            Kind::Verify => 3,
            Kind::Sum => 4,
            Kind::Blank => 5,
            Kind::Lock => 6,
        }
    }

    pub fn from_number(number: u8, form: Form) -> Option<Kind> {
        Kind::of_form(form).iter().copied().find(|kind| kind.number() == number)
    }

    pub fn name(self) -> &'static str {
        match self {
            Kind::Erase => "erase",
            Kind::Write => "write",
            Kind::Verify => "verify",
            Kind::Sum => "sum",
            Kind::Blank => "blank",
            Kind::Lock => "lock",
        }
    }

    pub fn has_body(self) -> bool {
        matches!(self, Kind::Write | Kind::Verify)
    }
}

/// The flag bytes that a lock sends.
#[derive(Clone, Copy, Debug, PartialEq, Eq)]
pub struct Lock {
    pub sf1: u8,
    pub sf2: u8,
}

impl Lock {
    /// Whether it shuts the chip, which then gives no answer.
    pub fn clears_ifpr(self) -> bool {
        self.sf2 & IFPR == 0
    }
}

/// A step over blocks, with the bytes of all pages where the kind has a body;
/// or a lock.
#[derive(Clone, Copy, Debug, PartialEq, Eq)]
pub enum Step<'a> {
    Erase(Span),
    Write(Span, &'a [u8]),
    Verify(Span, &'a [u8]),
    Sum(Span),
    Blank(Span),
    Lock(Lock),
}

impl<'a> Step<'a> {
    pub fn kind(&self) -> Kind {
        match self {
            Step::Erase(_) => Kind::Erase,
            Step::Write(..) => Kind::Write,
            Step::Verify(..) => Kind::Verify,
            Step::Sum(_) => Kind::Sum,
            Step::Blank(_) => Kind::Blank,
            Step::Lock(_) => Kind::Lock,
        }
    }

    pub fn body(&self) -> &'a [u8] {
        match self {
            Step::Write(_, body) | Step::Verify(_, body) => body,
            _ => &[],
        }
    }

    /// The six bytes SAD and EAD of its entry.
    fn address_field(&self) -> [u8; 6] {
        match *self {
            Step::Erase(span)
            | Step::Write(span, _)
            | Step::Verify(span, _)
            | Step::Sum(span)
            | Step::Blank(span) => {
                let [low, middle, high] = address_bytes(span.first_address());
                let [last_low, last_middle, last_high] = address_bytes(span.last_address());
                [low, middle, high, last_low, last_middle, last_high]
            }
            Step::Lock(Lock { sf1, sf2 }) => [sf1, sf2, 0, 0, 0, 0],
        }
    }
}

#[derive(Clone, Debug, PartialEq, Eq)]
pub struct Sheet<'a> {
    pub form: Form,
    /// The chip it is for, always the small one in form 1.
    pub model: Model,
    pub steps: Vec<Step<'a>>,
}

/// Refusal Jn of a sheet.
#[derive(Clone, Copy, Debug, PartialEq, Eq)]
pub struct Jn(pub u8);

/// Refusal of a sheet that is to be played to a chip.
#[derive(Clone, Copy, Debug, PartialEq, Eq)]
pub enum Unfit {
    Chip(D0),
    Sheet(Jn),
}

impl<'a> Sheet<'a> {
    /// Reads a sheet, or names the first refusal that applies of those that
    /// are the sheet's own.
    pub fn read(bytes: &'a [u8]) -> Result<Sheet<'a>, Jn> {
        let form = Form::of(bytes);
        let head = bytes.get(..form.head_length()).ok_or(Jn(1))?;
        if bytes.len() > form.most_bytes() {
            return Err(Jn(1));
        }
        let [front @ .., low, high] = head else {
            return Err(Jn(1));
        };
        let count = usize::from(u16::from_le_bytes([*low, *high]));
        if count > MOST_STEPS {
            return Err(Jn(2));
        }
        let model = match front {
            [] | [_, _, 1, 0] => Model::SMALL,
            [_, _, 2, 0] => Model::LARGE,
            _ => return Err(Jn(11)),
        };
        let table_end = form.table_end(count);
        let table = bytes.get(form.head_length()..table_end).ok_or(Jn(3))?;
        let mut steps = Vec::with_capacity(count);
        let mut body_start = table_end;
        for (index, entry) in table.chunks_exact(ENTRY_LENGTH).enumerate() {
            let place = Place { form, model, last: index + 1 == count, body_start };
            let step = read_entry(entry, bytes, place)?;
            body_start += step.body().len();
            steps.push(step);
        }
        if body_start != bytes.len() {
            return Err(Jn(9));
        }
        if writes_a_page_twice(&steps) {
            return Err(Jn(13));
        }
        Ok(Sheet { form, model, steps })
    }

    /// The same for a sheet that is to be played to a chip.
    pub fn read_for(bytes: &'a [u8], model: Model) -> Result<Sheet<'a>, Unfit> {
        model.check().map_err(Unfit::Chip)?;
        let sheet = Sheet::read(bytes).map_err(Unfit::Sheet)?;
        if sheet.model != model {
            return Err(Unfit::Sheet(Jn(14)));
        }
        Ok(sheet)
    }

    /// The sheet written down.
    pub fn bytes(&self) -> Vec<u8> {
        let mut bytes = Vec::new();
        if self.form == Form::Two {
            let number = if self.model == Model::LARGE { 2 } else { 1 };
            bytes.extend(FORM_2_MARK);
            bytes.extend([number, 0]);
        }
        bytes.extend((self.steps.len() as u16).to_le_bytes());
        let mut offset = self.form.table_end(self.steps.len());
        for step in &self.steps {
            bytes.push(step.kind().number());
            bytes.extend(step.address_field());
            bytes.push(0);
            bytes.extend((offset as u32).to_le_bytes());
            offset += step.body().len();
        }
        for step in &self.steps {
            bytes.extend(step.body());
        }
        bytes
    }
}

/// Where an entry stands.
#[derive(Clone, Copy)]
struct Place {
    form: Form,
    model: Model,
    /// Whether it is the last entry.
    last: bool,
    /// Where its body is due.
    body_start: usize,
}

fn read_entry<'a>(entry: &[u8], bytes: &'a [u8], place: Place) -> Result<Step<'a>, Jn> {
    let number = |at: usize, length: usize| {
        entry[at..at + length]
            .iter()
            .rev()
            .fold(0u32, |number, &byte| number << 8 | u32::from(byte))
    };
    let kind = Kind::from_number(entry[0], place.form).ok_or(Jn(4))?;
    if entry[7] != 0 {
        return Err(Jn(5));
    }
    let span = || place.model.pair(number(1, 3), number(4, 3)).ok_or(Jn(6));
    let step = match kind {
        Kind::Erase => Step::Erase(span()?),
        Kind::Write => Step::Write(span()?, &[]),
        Kind::Verify => Step::Verify(span()?, &[]),
        Kind::Sum => Step::Sum(span()?),
        Kind::Blank => Step::Blank(span()?),
        Kind::Lock => Step::Lock(read_lock(entry, place.last)?),
    };
    let start = place.body_start;
    if number(8, 4) as usize != start {
        return Err(Jn(7));
    }
    let body = |span: Span| bytes.get(start..start + span.length).ok_or(Jn(8));
    Ok(match step {
        Step::Write(span, _) => Step::Write(span, body(span)?),
        Step::Verify(span, _) => Step::Verify(span, body(span)?),
        step => step,
    })
}

fn read_lock(entry: &[u8], last: bool) -> Result<Lock, Jn> {
    let lock = Lock { sf1: entry[1], sf2: entry[2] };
    let has_filler = entry[3..7] == [0; 4];
    if !has_filler || lock.clears_ifpr() && !last {
        return Err(Jn(12));
    }
    Ok(lock)
}

/// Whether two write steps cover the same page with no erase step of its block
/// between them, whatever they write.
pub fn writes_a_page_twice(steps: &[Step]) -> bool {
    // The pages written and not erased since, by their first address.
    let mut written: BTreeSet<u32> = BTreeSet::new();
    for step in steps {
        match step {
            Step::Erase(span) => {
                written.retain(|page| !(span.first_address()..=span.last_address()).contains(page));
            }
            Step::Write(span, _) => {
                for index in 0..span.pages() {
                    if !written.insert(span.page(index).first_address()) {
                        return true;
                    }
                }
            }
            _ => {}
        }
    }
    false
}

/// A sheet in the form asked for.
pub fn move_to(bytes: &[u8], form: Form) -> Result<Vec<u8>, Jn> {
    let sheet = Sheet::read(bytes)?;
    let is_open = match form {
        Form::One => {
            let has_new_kinds =
                sheet.steps.iter().any(|step| !Kind::OF_FORM_1.contains(&step.kind()));
            sheet.model == Model::SMALL && !has_new_kinds
        }
        Form::Two => true,
    };
    if sheet.form == form || !is_open {
        return Err(Jn(15));
    }
    Ok(Sheet { form, ..sheet }.bytes())
}
