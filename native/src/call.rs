//! The fourteen calls, as read, and the rows that accepted ones leave.

use std::fmt;

use crate::instrument::Direction;

/// What is worked at a section, for a direction.
#[derive(Clone, Copy, Debug, PartialEq, Eq)]
pub enum Deed {
    Give,
    OpenSignal,
    CloseSignal,
    Return,
    OpenHome,
    ShutHome,
    Clear,
    Unseal,
    Restore,
}

/// What a train does at a section.
#[derive(Clone, Copy, Debug, PartialEq, Eq)]
pub enum Step {
    Enter,
    Reach,
    Leave,
}

/// A call with the numbers as they were read: any of them may be out of range.
#[derive(Clone, Copy, Debug, PartialEq, Eq)]
pub enum Call {
    Place {
        train: u32,
        post: u32,
    },
    Withdraw {
        train: u32,
    },
    Work {
        deed: Deed,
        section: u32,
        direction: Direction,
    },
    Move {
        step: Step,
        train: u32,
        section: u32,
    },
}

/// A row of the turn register.
#[derive(Clone, Copy, Debug, PartialEq, Eq)]
pub enum Row {
    Placed {
        train: u32,
        post: u8,
    },
    Withdrawn {
        train: u32,
        post: u8,
    },
    Worked {
        deed: Deed,
        section: u8,
        direction: Direction,
    },
    Moved {
        step: Step,
        train: u32,
        section: u8,
        direction: Direction,
    },
}

/// A row of the seal book; `row` is the row of the register that tells of it.
#[derive(Clone, Copy, Debug, PartialEq, Eq)]
pub struct Seal {
    pub section: u8,
    pub direction: Direction,
    pub row: usize,
}

impl Deed {
    pub const ALL: [Deed; 9] = [
        Deed::Give,
        Deed::OpenSignal,
        Deed::CloseSignal,
        Deed::Return,
        Deed::OpenHome,
        Deed::ShutHome,
        Deed::Clear,
        Deed::Unseal,
        Deed::Restore,
    ];

    fn letter(self) -> char {
        match self {
            Deed::Give => 'G',
            Deed::OpenSignal => 'O',
            Deed::CloseSignal => 'F',
            Deed::Return => 'R',
            Deed::OpenHome => 'H',
            Deed::ShutHome => 'S',
            Deed::Clear => 'D',
            Deed::Unseal => 'U',
            Deed::Restore => 'Z',
        }
    }
}

impl Step {
    pub const ALL: [Step; 3] = [Step::Enter, Step::Reach, Step::Leave];

    fn letter(self) -> char {
        match self {
            Step::Enter => 'E',
            Step::Reach => 'T',
            Step::Leave => 'L',
        }
    }
}

/// As it stands on a sheet, without its line feed.
impl fmt::Display for Call {
    fn fmt(&self, f: &mut fmt::Formatter) -> fmt::Result {
        match *self {
            Call::Place { train, post } => write!(f, "N {train} {post}"),
            Call::Withdraw { train } => write!(f, "W {train}"),
            Call::Work {
                deed,
                section,
                direction,
            } => {
                let way = match direction {
                    Direction::Up => 'u',
                    Direction::Down => 'd',
                };
                write!(f, "{} {section} {way}", deed.letter())
            }
            Call::Move {
                step,
                train,
                section,
            } => {
                write!(f, "{} {train} {section}", step.letter())
            }
        }
    }
}
