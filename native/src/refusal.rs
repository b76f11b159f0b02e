//! Every refusal that a sheet or one of its lines can get, with its number.

use crate::instrument::{Fault, Phase};

/// Of a whole sheet.
#[derive(Clone, Copy, Debug, PartialEq, Eq)]
pub enum SheetRefusal {
    Size,
    Room,
    Heading,
}

/// Of a call. 201, 202 and 301 are not here: a sheet cannot bring them about.
#[derive(Clone, Copy, Debug, PartialEq, Eq)]
pub enum Refusal {
    RegisterFull,
    SealBookFull,
    NoSection,
    NoPost,
    TrainNumber,
    TrainPresent,
    LineFull,
    TrainAbsent,
    TrainElsewhere,
    BlockSignal,
    HomeSignal,
    Pedal,
    TrainInside,
    Instrument {
        fault: Fault,
        section: u8,
        phase: Phase,
    },
}

impl SheetRefusal {
    pub fn number(self) -> i32 {
        match self {
            SheetRefusal::Size => 101,
            SheetRefusal::Room => 106,
            SheetRefusal::Heading => 102,
        }
    }
}

impl Refusal {
    pub fn number(self) -> u32 {
        match self {
            Refusal::RegisterFull => 104,
            Refusal::SealBookFull => 105,
            Refusal::NoSection => 203,
            Refusal::NoPost => 204,
            Refusal::TrainNumber => 205,
            Refusal::TrainPresent => 206,
            Refusal::LineFull => 207,
            Refusal::TrainAbsent => 208,
            Refusal::TrainElsewhere => 209,
            Refusal::BlockSignal => 210,
            Refusal::HomeSignal => 211,
            Refusal::Pedal => 212,
            Refusal::TrainInside => 213,
            Refusal::Instrument {
                fault: Fault::NotAtRest,
                ..
            } => 302,
            Refusal::Instrument {
                fault: Fault::OtherDirection,
                ..
            } => 303,
            Refusal::Instrument {
                fault: Fault::WrongPhase,
                ..
            } => 304,
        }
    }
}
