//! The table of trains.

use crate::instrument::Direction;

pub const MOST_TRAINS: usize = 64;

#[derive(Clone, Copy, Debug, PartialEq, Eq)]
pub enum Whereabouts {
    Post(u8),
    Running { section: u8, direction: Direction },
    OnPedal { section: u8, direction: Direction },
}

#[derive(Clone, Copy, Debug)]
pub struct Train {
    pub number: u32,
    pub at: Whereabouts,
}

/// The trains present are the first `count` records, in no order that matters.
#[derive(Clone, Debug)]
pub struct Trains {
    records: [Train; MOST_TRAINS],
    count: usize,
}

impl Train {
    fn inside(&self, wanted: u8) -> bool {
        match self.at {
            Whereabouts::Post(_) => false,
            Whereabouts::Running { section, .. } | Whereabouts::OnPedal { section, .. } => {
                section == wanted
            }
        }
    }
}

impl Trains {
    pub fn none() -> Trains {
        Trains {
            records: [Train {
                number: 0,
                at: Whereabouts::Post(0),
            }; MOST_TRAINS],
            count: 0,
        }
    }

    pub fn present(&self) -> &[Train] {
        &self.records[..self.count]
    }

    pub fn is_full(&self) -> bool {
        self.count == MOST_TRAINS
    }

    pub fn find(&self, number: u32) -> Option<usize> {
        self.present()
            .iter()
            .position(|train| train.number == number)
    }

    pub fn at(&self, index: usize) -> Whereabouts {
        self.records[index].at
    }

    pub fn set(&mut self, index: usize, at: Whereabouts) {
        self.records[index].at = at;
    }

    pub fn add(&mut self, number: u32, post: u8) {
        self.records[self.count] = Train {
            number,
            at: Whereabouts::Post(post),
        };
        self.count += 1;
    }

    pub fn remove(&mut self, index: usize) {
        self.count -= 1;
        self.records[index] = self.records[self.count];
    }

    /// The number of the train inside a section.
    pub fn inside(&self, section: u8) -> Option<u32> {
        let train = self.present().iter().find(|train| train.inside(section))?;
        Some(train.number)
    }

    pub fn on_pedal(&self, section: u8, direction: Direction) -> bool {
        let wanted = Whereabouts::OnPedal { section, direction };
        self.present().iter().any(|train| train.at == wanted)
    }
}
