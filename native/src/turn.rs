//! A turn: one line, the turn register and the seal book. An answer needs only
//! how many rows there are and the tallies, but the books are part of a turn.

use crate::call::{Call, Deed, Row, Seal, Step};
use crate::line::{Line, MOST_SECTIONS};
use crate::refusal::Refusal;

pub const REGISTER_ROOM: usize = 1_000;
pub const SEAL_ROOM: usize = 50;

#[derive(Clone, Copy, Debug, Default)]
pub struct Tally {
    pub givings: u32,
    pub leavings: u32,
    pub unsealings: u32,
}

#[derive(Clone, Debug)]
pub struct Turn {
    line: Line,
    register: Vec<Row>,
    seals: Vec<Seal>,
    tallies: [Tally; MOST_SECTIONS],
}

impl Turn {
    pub fn new(sections: usize) -> Turn {
        Turn {
            line: Line::new(sections),
            register: Vec::with_capacity(REGISTER_ROOM),
            seals: Vec::with_capacity(SEAL_ROOM),
            tallies: [Tally::default(); MOST_SECTIONS],
        }
    }

    pub fn line(&self) -> &Line {
        &self.line
    }

    pub fn register(&self) -> &[Row] {
        &self.register
    }

    pub fn seals(&self) -> &[Seal] {
        &self.seals
    }

    /// One for each section, in order.
    pub fn tallies(&self) -> &[Tally] {
        &self.tallies
    }

    pub fn work(&mut self, call: Call) -> Result<(), Refusal> {
        if self.register.len() == REGISTER_ROOM {
            return Err(Refusal::RegisterFull);
        }
        let unseals = matches!(
            call,
            Call::Work {
                deed: Deed::Unseal,
                ..
            }
        );
        if unseals && self.seals.len() == SEAL_ROOM {
            return Err(Refusal::SealBookFull);
        }
        let row = self.line.work(call)?;
        match row {
            Row::Worked {
                deed: Deed::Give,
                section,
                ..
            } => {
                self.tallies[usize::from(section)].givings += 1;
            }
            Row::Moved {
                step: Step::Leave,
                section,
                ..
            } => {
                self.tallies[usize::from(section)].leavings += 1;
            }
            Row::Worked {
                deed: Deed::Unseal,
                section,
                direction,
            } => {
                self.tallies[usize::from(section)].unsealings += 1;
                self.seals.push(Seal {
                    section,
                    direction,
                    row: self.register.len(),
                });
            }
            _ => {}
        }
        self.register.push(row);
        Ok(())
    }
}
