//! The stand-in's note: what it says of an answer, off the wire.

use std::fmt;

use crate::chip::Area;

#[derive(Clone, Copy, Debug, PartialEq, Eq)]
pub enum Note {
    /// Where the first byte lies that is not FFh: the block in its flash, the
    /// page in its block.
    NotBlank { area: Area, block: usize, page: usize },
    /// Only an option bit is not 1.
    Options,
    /// A frame's end byte is not the one due.
    End,
    /// A frame's LEN is not the one due.
    Len { expected: u8, found: u8 },
}

impl fmt::Display for Note {
    fn fmt(&self, out: &mut fmt::Formatter) -> fmt::Result {
        match self {
            Note::NotBlank { area, block, page } => {
                write!(out, "note {} {block} {page}", area.name())
            }
            Note::Options => out.write_str("note options"),
            Note::End => out.write_str("note end"),
            Note::Len { expected, found } => write!(out, "note len {expected:02X} {found:02X}"),
        }
    }
}
