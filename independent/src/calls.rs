//! The `frames` program: the player by itself, with replies from the input.

use crate::chip::Model;
use crate::frames;
use crate::lines::{
    LineRunner, SheetInHand, byte_line, chip_model, decimal_number, hex_bytes, some_hex_bytes,
};
use crate::player::{Player, Turn};
use crate::sheet::MOST_STEPS;

/// The longest frame buffer that can be lent.
pub const MOST_ROOM: usize = 300;

pub struct Calls {
    /// The chip that later calls play to.
    model: Model,
    sheet: SheetInHand,
    room: usize,
    sums: Vec<u16>,
    /// None before the first `go`.
    player: Option<Player>,
}

impl Calls {
    pub fn new() -> Calls {
        Calls {
            model: Model::SMALL,
            sheet: SheetInHand::default(),
            room: frames::LONGEST,
            sums: vec![0; MOST_STEPS],
            player: None,
        }
    }

    pub fn model(&self) -> Model {
        self.model
    }

    /// The sheet in hand.
    pub fn sheet(&self) -> &[u8] {
        self.sheet.bytes()
    }

    pub fn player(&self) -> Option<&Player> {
        self.player.as_ref()
    }

    /// How many entries the list of sums lent has.
    pub fn sums_lent(&self) -> usize {
        self.sums.len()
    }

    /// One call of the player and the lines that tell of it.
    fn call(&mut self, reply: &[u8]) -> Option<String> {
        let player = self.player.as_mut()?;
        let sheet = self.sheet.bytes();
        let text = match player.call(self.model, sheet, reply, self.room, &mut self.sums) {
            Ok(Turn::Frame(frame)) => byte_line(">", &frame),
            Ok(Turn::End(report)) => format!("{report}\n{}", self.sums_line()),
            Err(refusal) => format!("refused {refusal}\n"),
        };
        Some(text)
    }

    fn sums_line(&self) -> String {
        let entries: String = self.sums.iter().map(|sum| format!(" {sum:04X}")).collect();
        format!("sums{entries}\n")
    }
}

impl LineRunner for Calls {
    fn run(&mut self, words: &[&[u8]], out: &mut String) -> Option<()> {
        let (lead, rest) = words.split_first()?;
        if *lead == b"sheet" {
            self.sheet.add(&some_hex_bytes(rest)?);
            return Some(());
        }
        match (*lead, rest) {
            (b"chip", _) => self.model = chip_model(rest)?,
            (b"sums", [number]) => self.sums = vec![0; decimal_number(number, MOST_STEPS)?],
            (b"room", [number]) => self.room = decimal_number(number, MOST_ROOM)?,
            (b"go", _) => {
                let reply = hex_bytes(rest)?;
                self.player = Some(Player::new());
                out.push_str(&self.call(&reply)?);
            }
            (b"<", _) => out.push_str(&self.call(&hex_bytes(rest)?)?),
            _ => return None,
        }
        self.sheet.close();
        Some(())
    }
}
