//! The line: sections with their signals and pedal marks, and the trains.

use crate::call::{Call, Deed, Row, Step};
use crate::instrument::{Action, Direction, Phase};
use crate::refusal::Refusal;
use crate::trains::{Trains, Whereabouts};

pub const MOST_SECTIONS: usize = 16;
const MOST_TRAIN_NUMBER: u32 = 99_999;

#[derive(Clone, Copy, Debug, PartialEq, Eq)]
pub enum BlockSignal {
    Closed,
    Open,
    Fallen,
}

#[derive(Clone, Copy, Debug, PartialEq, Eq)]
pub enum HomeSignal {
    Shut,
    Open,
}

/// The signals stand in the order of the directions.
#[derive(Clone, Copy, Debug)]
pub struct Section {
    phase: Phase,
    block: [BlockSignal; 2],
    home: [HomeSignal; 2],
    pedal: bool,
}

#[derive(Clone, Debug)]
pub struct Line {
    sections: [Section; MOST_SECTIONS],
    count: usize,
    trains: Trains,
}

impl Section {
    const NEW: Section = Section {
        phase: Phase::Rest,
        block: [BlockSignal::Closed; 2],
        home: [HomeSignal::Shut; 2],
        pedal: false,
    };

    pub fn phase(&self) -> Phase {
        self.phase
    }

    pub fn block(&self, direction: Direction) -> BlockSignal {
        self.block[direction as usize]
    }

    pub fn home(&self, direction: Direction) -> HomeSignal {
        self.home[direction as usize]
    }

    pub fn pedal(&self) -> bool {
        self.pedal
    }

    fn act(&mut self, section: u8, action: Action, direction: Direction) -> Result<(), Refusal> {
        let phase = self.phase;
        self.phase = phase
            .after(action, direction)
            .map_err(|fault| Refusal::Instrument {
                fault,
                section,
                phase,
            })?;
        Ok(())
    }
}

fn check(holds: bool, refusal: Refusal) -> Result<(), Refusal> {
    if holds {
        Ok(())
    } else {
        Err(refusal)
    }
}

fn check_number(train: u32) -> Result<(), Refusal> {
    check(
        (1..=MOST_TRAIN_NUMBER).contains(&train),
        Refusal::TrainNumber,
    )
}

impl Line {
    /// A line over an instrument at rest with 1 to 16 sections.
    pub fn new(count: usize) -> Line {
        assert!((1..=MOST_SECTIONS).contains(&count));
        Line {
            sections: [Section::NEW; MOST_SECTIONS],
            count,
            trains: Trains::none(),
        }
    }

    pub fn sections(&self) -> &[Section] {
        &self.sections[..self.count]
    }

    pub fn trains(&self) -> &Trains {
        &self.trains
    }

    /// Works a call, and tells what was done; a refused one changes nothing.
    pub fn work(&mut self, call: Call) -> Result<Row, Refusal> {
        match call {
            Call::Place { train, post } => self.place(train, post),
            Call::Withdraw { train } => self.withdraw(train),
            Call::Work {
                deed,
                section,
                direction,
            } => {
                let section = self.section(section)?;
                self.deed(deed, section, direction)?;
                Ok(Row::Worked {
                    deed,
                    section,
                    direction,
                })
            }
            Call::Move {
                step,
                train,
                section,
            } => {
                check_number(train)?;
                let section = self.section(section)?;
                let index = self.trains.find(train).ok_or(Refusal::TrainAbsent)?;
                let direction = self.step(step, index, section)?;
                Ok(Row::Moved {
                    step,
                    train,
                    section,
                    direction,
                })
            }
        }
    }

    fn section(&self, section: u32) -> Result<u8, Refusal> {
        check((section as usize) < self.count, Refusal::NoSection)?;
        Ok(section as u8)
    }

    fn place(&mut self, train: u32, post: u32) -> Result<Row, Refusal> {
        check_number(train)?;
        check(post as usize <= self.count, Refusal::NoPost)?;
        check(self.trains.find(train).is_none(), Refusal::TrainPresent)?;
        check(!self.trains.is_full(), Refusal::LineFull)?;
        let post = post as u8;
        self.trains.add(train, post);
        Ok(Row::Placed { train, post })
    }

    fn withdraw(&mut self, train: u32) -> Result<Row, Refusal> {
        check_number(train)?;
        let index = self.trains.find(train).ok_or(Refusal::TrainAbsent)?;
        match self.trains.at(index) {
            Whereabouts::Post(post) => {
                self.trains.remove(index);
                Ok(Row::Withdrawn { train, post })
            }
            _ => Err(Refusal::TrainElsewhere),
        }
    }

    fn deed(&mut self, deed: Deed, number: u8, direction: Direction) -> Result<(), Refusal> {
        let section = &mut self.sections[usize::from(number)];
        let way = direction as usize;
        match deed {
            Deed::Give => section.act(number, Action::Give, direction)?,
            Deed::OpenSignal => {
                section.act(number, Action::Open, direction)?;
                section.block[way] = BlockSignal::Open;
            }
            Deed::CloseSignal => {
                check(
                    section.block[way] != BlockSignal::Closed,
                    Refusal::BlockSignal,
                )?;
                section.block[way] = BlockSignal::Closed;
            }
            Deed::Return => {
                check(
                    section.block[way] == BlockSignal::Closed,
                    Refusal::BlockSignal,
                )?;
                section.act(number, Action::Return, direction)?;
            }
            Deed::OpenHome => {
                check(section.home[way] == HomeSignal::Shut, Refusal::HomeSignal)?;
                section.home[way] = HomeSignal::Open;
            }
            Deed::ShutHome => {
                check(section.home[way] == HomeSignal::Open, Refusal::HomeSignal)?;
                check(!self.trains.on_pedal(number, direction), Refusal::Pedal)?;
                section.home[way] = HomeSignal::Shut;
            }
            Deed::Clear => {
                check(section.home[way] == HomeSignal::Shut, Refusal::HomeSignal)?;
                check(section.pedal, Refusal::Pedal)?;
                section.act(number, Action::Clear, direction)?;
            }
            Deed::Unseal => {
                check(section.home[way] == HomeSignal::Shut, Refusal::HomeSignal)?;
                check(self.trains.inside(number).is_none(), Refusal::TrainInside)?;
                check(!section.pedal, Refusal::Pedal)?;
                section.act(number, Action::Clear, direction)?;
            }
            Deed::Restore => {
                check(section.home[way] == HomeSignal::Shut, Refusal::HomeSignal)?;
                section.act(number, Action::Restore, direction)?;
                section.pedal = false;
            }
        }
        Ok(())
    }

    /// Moves a present train, and answers its direction.
    fn step(&mut self, step: Step, train: usize, number: u8) -> Result<Direction, Refusal> {
        let section = &mut self.sections[usize::from(number)];
        match (step, self.trains.at(train)) {
            (Step::Enter, Whereabouts::Post(post)) => {
                let direction = if post == number {
                    Direction::Up
                } else if post == number + 1 {
                    Direction::Down
                } else {
                    return Err(Refusal::TrainElsewhere);
                };
                let signal = &mut section.block[direction as usize];
                check(*signal == BlockSignal::Open, Refusal::BlockSignal)?;
                *signal = BlockSignal::Fallen;
                self.trains.set(
                    train,
                    Whereabouts::Running {
                        section: number,
                        direction,
                    },
                );
                Ok(direction)
            }
            (
                Step::Reach,
                Whereabouts::Running {
                    section: found,
                    direction,
                },
            ) if found == number => {
                let home = section.home[direction as usize];
                check(home == HomeSignal::Open, Refusal::HomeSignal)?;
                self.trains.set(
                    train,
                    Whereabouts::OnPedal {
                        section: number,
                        direction,
                    },
                );
                Ok(direction)
            }
            (
                Step::Leave,
                Whereabouts::OnPedal {
                    section: found,
                    direction,
                },
            ) if found == number => {
                let exit = match direction {
                    Direction::Up => number + 1,
                    Direction::Down => number,
                };
                self.trains.set(train, Whereabouts::Post(exit));
                section.pedal = true;
                Ok(direction)
            }
            _ => Err(Refusal::TrainElsewhere),
        }
    }
}
