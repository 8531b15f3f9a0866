//! The option bits: two flag bytes and two window words.

use crate::chip::Span;

/// SF1: protection of boot cluster 0.
pub const BTPR: u8 = 1 << 1;
/// SF1: protection against erase.
pub const SEPR: u8 = 1 << 2;
/// SF1: protection against writing.
pub const WRPR: u8 = 1 << 4;
/// SF2: 0 asks for the connection ID.
pub const IDEN: u8 = 1 << 0;
/// SF2: 0 shuts the interface.
pub const IFPR: u8 = 1 << 2;
/// SF2: kept and shown only.
pub const SWPR: u8 = 1 << 3;
/// SF2: kept and shown only.
pub const CMPR: u8 = 1 << 4;
/// SWS and SWE: the block number, FSWS and FSWE.
pub const WINDOW_BLOCK: u16 = 0x01FF;
/// SWS: protection of the window.
pub const FSPR: u16 = 1 << 15;
/// SWE: sense of the window.
pub const FSWC: u16 = 1 << 15;

/// SF1: always read as 1, whatever is stored.
const BTFLG: u8 = 1 << 0;

const SF1_BITS: u8 = BTPR | SEPR | WRPR;
const SF2_BITS: u8 = IDEN | IFPR | SWPR | CMPR;
const SWS_BITS: u16 = WINDOW_BLOCK | FSPR;
const SWE_BITS: u16 = WINDOW_BLOCK | FSWC;

/// The flags that Security Set can clear.
const SETTABLE_SF1: u8 = BTPR | SEPR | WRPR;
const SETTABLE_SF2: u8 = IDEN | IFPR;

/// The options as they are stored, stray bits among them.
#[derive(Clone, Copy, Debug, PartialEq, Eq)]
pub struct Options {
    pub sf1: u8,
    pub sf2: u8,
    pub sws: u16,
    pub swe: u16,
}

impl Options {
    /// Every named bit is 1. The unnamed ones are left open; they are taken
    /// as 1 too, as in blank memory.
    pub const FRESH: Options = Options { sf1: 0xFF, sf2: 0xFF, sws: 0xFFFF, swe: 0xFFFF };

    /// The flag's value; `flag` is one of the constants for SF1.
    pub fn sf1_has(&self, flag: u8) -> bool {
        self.sf1 & flag != 0
    }

    /// The flag's value; `flag` is one of the constants for SF2.
    pub fn sf2_has(&self, flag: u8) -> bool {
        self.sf2 & flag != 0
    }

    pub fn window_is_open(&self) -> bool {
        self.sws & FSPR != 0
    }

    /// Whether every option bit is 1, whatever the stray bits are.
    pub fn are_blank(&self) -> bool {
        let Options { sf1, sf2, sws, swe } = self;
        sf1 & SF1_BITS == SF1_BITS
            && sf2 & SF2_BITS == SF2_BITS
            && sws & SWS_BITS == SWS_BITS
            && swe & SWE_BITS == SWE_BITS
    }

    pub fn erase_protects(&self, block: Span) -> bool {
        !self.sf1_has(SEPR) || self.boot_protects(block)
    }

    pub fn write_protects(&self, page: Span) -> bool {
        !self.sf1_has(WRPR) || self.boot_protects(page)
    }

    fn boot_protects(&self, part: Span) -> bool {
        !self.sf1_has(BTPR) && part.in_boot_cluster()
    }

    /// Security Set: each settable flag is the AND of old and sent.
    pub fn clear_flags(&mut self, sf1: u8, sf2: u8) {
        self.sf1 &= sf1 | !SETTABLE_SF1;
        self.sf2 &= sf2 | !SETTABLE_SF2;
    }

    /// Security Release: every option bit but IDEN becomes 1, stray bits stay.
    pub fn release(&mut self) {
        self.sf1 |= SF1_BITS;
        self.sf2 |= SF2_BITS & !IDEN;
        self.sws |= SWS_BITS;
        self.swe |= SWE_BITS;
    }

    /// Window Set: the named bits are stored, stray bits stay.
    pub fn set_window(&mut self, sws: u16, swe: u16) {
        self.sws = (self.sws & !SWS_BITS) | (sws & SWS_BITS);
        self.swe = (self.swe & !SWE_BITS) | (swe & SWE_BITS);
    }

    /// What Security Get shows.
    pub fn shown_flags(&self) -> [u8; 3] {
        [(self.sf1 & SF1_BITS) | BTFLG, self.sf2 & SF2_BITS, 0x00]
    }

    /// What Window Get shows: SWS and SWE, low byte first. An empty window is
    /// shown as all of code flash.
    pub fn shown_window(&self, last_code_block: usize) -> [u8; 4] {
        let (mut start, mut end) = (self.sws & WINDOW_BLOCK, self.swe & WINDOW_BLOCK);
        if start == end {
            (start, end) = (0, last_code_block as u16);
        }
        let [sws_low, sws_high] = (start | (self.sws & FSPR)).to_le_bytes();
        let [swe_low, swe_high] = (end | (self.swe & FSWC)).to_le_bytes();
        [sws_low, sws_high, swe_low, swe_high]
    }
}
