//! The chip's two flashes: where they lie, their blocks and their pages.

use std::ops::Range;

/// Bytes of a page.
pub const PAGE: usize = 256;

/// What an erased byte reads.
pub const BLANK: u8 = 0xFF;

/// The connection ID, as a part of code flash.
pub const CONNECTION_ID: Range<usize> = 0xC4..0xCE;

/// Boot cluster 0 is code blocks 0 to 7.
const BOOT_CLUSTER: Range<usize> = 0..8 * Area::Code.block_length();

/// One of the two flashes.
#[derive(Clone, Copy, Debug, PartialEq, Eq)]
pub enum Area {
    Code,
    Data,
}

impl Area {
    pub const BOTH: [Area; 2] = [Area::Code, Area::Data];

    pub const fn name(self) -> &'static str {
        match self {
            Area::Code => "code",
            Area::Data => "data",
        }
    }

    pub const fn first_address(self) -> u32 {
        match self {
            Area::Code => 0x00000,
            Area::Data => 0xF1000,
        }
    }

    pub const fn block_length(self) -> usize {
        match self {
            Area::Code => 2_048,
            Area::Data => 256,
        }
    }
}

/// What a chip is known by: its block counts.
#[derive(Clone, Copy, Debug, PartialEq, Eq)]
pub struct Model {
    pub code_blocks: usize,
    pub data_blocks: usize,
}

/// The refusal of block counts that are those of no chip.
#[derive(Clone, Copy, Debug, PartialEq, Eq)]
pub struct D0;

impl Model {
    pub const SMALL: Model = Model { code_blocks: 16, data_blocks: 8 };
    pub const LARGE: Model = Model { code_blocks: 64, data_blocks: 32 };

    /// There are two chips, and no others.
    pub fn check(self) -> Result<(), D0> {
        if self == Model::SMALL || self == Model::LARGE { Ok(()) } else { Err(D0) }
    }

    pub fn blocks(self, area: Area) -> usize {
        match area {
            Area::Code => self.code_blocks,
            Area::Data => self.data_blocks,
        }
    }

    pub fn length(self, area: Area) -> usize {
        self.blocks(area) * area.block_length()
    }

    pub fn last_code_block(self) -> usize {
        self.code_blocks - 1
    }

    /// The place of an address in a flash, counted from its first byte.
    pub fn offset_in(self, area: Area, address: u32) -> Option<usize> {
        let offset = address.checked_sub(area.first_address())? as usize;
        (offset < self.length(area)).then_some(offset)
    }

    /// The flash that holds an address, and the address's place in it.
    pub fn holding(self, address: u32) -> Option<(Area, usize)> {
        Area::BOTH.into_iter().find_map(|area| Some((area, self.offset_in(area, address)?)))
    }

    /// The blocks named by an address pair, if the pair is valid.
    pub fn pair(self, sad: u32, ead: u32) -> Option<Span> {
        let (area, start) = self.holding(sad)?;
        let last = self.offset_in(area, ead)?;
        let block = area.block_length();
        let valid = start <= last && start % block == 0 && (last + 1) % block == 0;
        valid.then(|| Span { area, start, length: last + 1 - start })
    }

    /// The block whose first byte an erase address names.
    pub fn block(self, sad: u32) -> Option<Span> {
        let (area, start) = self.holding(sad)?;
        let length = area.block_length();
        (start % length == 0).then_some(Span { area, start, length })
    }
}

/// A stretch of one flash: whole blocks, one block or one page.
#[derive(Clone, Copy, Debug, PartialEq, Eq)]
pub struct Span {
    pub area: Area,
    pub start: usize,
    pub length: usize,
}

impl Span {
    pub fn blocks(self) -> usize {
        self.length / self.area.block_length()
    }

    pub fn pages(self) -> usize {
        self.length / PAGE
    }

    /// Block `index` of this span, from 0.
    pub fn block(self, index: usize) -> Span {
        let length = self.area.block_length();
        Span { start: self.start + index * length, length, ..self }
    }

    /// Page `index` of this span, from 0.
    pub fn page(self, index: usize) -> Span {
        Span { start: self.start + index * PAGE, length: PAGE, ..self }
    }

    pub fn first_address(self) -> u32 {
        self.area.first_address() + self.start as u32
    }

    pub fn last_address(self) -> u32 {
        self.first_address() + self.length as u32 - 1
    }

    /// Whether this block or page lies in boot cluster 0.
    pub fn in_boot_cluster(self) -> bool {
        self.area == Area::Code && BOOT_CLUSTER.contains(&self.start)
    }
}

/// A chip's block counts and the contents of both its flashes.
#[derive(Clone, PartialEq, Eq)]
pub struct Flash {
    model: Model,
    code: Vec<u8>,
    data: Vec<u8>,
}

impl Flash {
    pub fn blank(model: Model) -> Flash {
        let blank = |area| vec![BLANK; model.length(area)];
        Flash { model, code: blank(Area::Code), data: blank(Area::Data) }
    }

    pub fn model(&self) -> Model {
        self.model
    }

    pub fn area(&self, area: Area) -> &[u8] {
        match area {
            Area::Code => &self.code,
            Area::Data => &self.data,
        }
    }

    pub fn area_mut(&mut self, area: Area) -> &mut [u8] {
        match area {
            Area::Code => &mut self.code,
            Area::Data => &mut self.data,
        }
    }

    pub fn part(&self, span: Span) -> &[u8] {
        &self.area(span.area)[span.start..span.start + span.length]
    }

    pub fn part_mut(&mut self, span: Span) -> &mut [u8] {
        &mut self.area_mut(span.area)[span.start..span.start + span.length]
    }

    /// The place of the first byte of a span that is not blank, as block of the
    /// flash and page of the block.
    pub fn first_not_blank(&self, span: Span) -> Option<(usize, usize)> {
        let at = span.start + self.part(span).iter().position(|&byte| byte != BLANK)?;
        let block = span.area.block_length();
        Some((at / block, at % block / PAGE))
    }

    pub fn is_blank(&self) -> bool {
        Area::BOTH.iter().all(|&area| all_blank(self.area(area)))
    }

    pub fn connection_id(&self) -> &[u8] {
        &self.code[CONNECTION_ID]
    }

    /// Stores bytes from an address on; None, and nothing stored, if any of
    /// them would lie outside that flash.
    pub fn store(&mut self, area: Area, address: u32, bytes: &[u8]) -> Option<()> {
        let start = self.model.offset_in(area, address)?;
        self.area_mut(area).get_mut(start..start + bytes.len())?.copy_from_slice(bytes);
        Some(())
    }
}

pub fn all_blank(bytes: &[u8]) -> bool {
    bytes.iter().all(|&byte| byte == BLANK)
}

/// From 0000h each byte is subtracted; borrows are dropped.
pub fn checksum(bytes: &[u8]) -> u16 {
    bytes.iter().fold(0u16, |sum, &byte| sum.wrapping_sub(u16::from(byte)))
}
