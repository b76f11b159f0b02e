//! The phases of a section, and the five actions that change them.
//!
//! Interlocked and telephone sections differ in how they keep a phase, not in
//! which phase it is; a sheet asks for the phase only.

#[derive(Clone, Copy, Debug, PartialEq, Eq)]
pub enum Direction {
    Up,
    Down,
}

#[derive(Clone, Copy, Debug, PartialEq, Eq)]
pub enum Phase {
    Rest,
    Given(Direction),
    Opened(Direction),
    Returned(Direction),
    Cleared(Direction),
}

#[derive(Clone, Copy, Debug, PartialEq, Eq)]
pub enum Action {
    Give,
    Open,
    Return,
    Clear,
    Restore,
}

/// Why an action was refused.
#[derive(Clone, Copy, Debug, PartialEq, Eq)]
pub enum Fault {
    NotAtRest,
    OtherDirection,
    WrongPhase,
}

impl Phase {
    pub fn direction(self) -> Option<Direction> {
        match self {
            Phase::Rest => None,
            Phase::Given(d) | Phase::Opened(d) | Phase::Returned(d) | Phase::Cleared(d) => Some(d),
        }
    }

    pub fn code(self) -> u32 {
        let (up, direction) = match self {
            Phase::Rest => return 0,
            Phase::Given(d) => (1, d),
            Phase::Opened(d) => (2, d),
            Phase::Returned(d) => (3, d),
            Phase::Cleared(d) => (4, d),
        };
        match direction {
            Direction::Up => up,
            Direction::Down => up + 4,
        }
    }

    /// The phase that the action leads to from this one.
    pub fn after(self, action: Action, direction: Direction) -> Result<Phase, Fault> {
        let (needed, next) = match action {
            Action::Give => (Phase::Rest, Phase::Given(direction)),
            Action::Open => (Phase::Given(direction), Phase::Opened(direction)),
            Action::Return => (Phase::Opened(direction), Phase::Returned(direction)),
            Action::Clear => (Phase::Returned(direction), Phase::Cleared(direction)),
            Action::Restore => (Phase::Cleared(direction), Phase::Rest),
        };
        if self == needed {
            Ok(next)
        } else if action == Action::Give {
            Err(Fault::NotAtRest)
        } else if self.direction() == Some(direction) {
            Err(Fault::WrongPhase)
        } else {
            Err(Fault::OtherDirection)
        }
    }
}
