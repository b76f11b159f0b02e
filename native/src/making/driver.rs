//! Chooses the next call of a turn: one that the work needs, or any.

use crate::call::{Call, Deed, Step};
use crate::instrument::{Direction, Phase};
use crate::line::{BlockSignal, HomeSignal, Line};
use crate::making::rng::Rng;
use crate::trains::{Train, Whereabouts};

/// How a turn is worked; chances are in percent.
#[derive(Clone, Copy, Debug)]
pub struct Manner {
    /// A release given, or a signal closed, with no train for it: these end in unsealings.
    pub without_train: usize,
    /// A train moved on before the release was returned.
    pub hasty: usize,
    /// As many trains are placed.
    pub trains: usize,
    pub withdraw: usize,
    /// Train numbers are below this.
    pub numbers_below: usize,
    /// A number out of range, in a call made at random.
    pub odd_numbers: usize,
}

fn any_direction(rng: &mut Rng) -> Direction {
    rng.pick(&[Direction::Up, Direction::Down])
}

fn work(deed: Deed, section: usize, direction: Direction) -> Call {
    Call::Work {
        deed,
        section: section as u32,
        direction,
    }
}

fn standing_at(rng: &mut Rng, line: &Line, post: usize) -> Option<u32> {
    let trains = line.trains().present();
    let here = |train: &&Train| train.at == Whereabouts::Post(post as u8);
    let count = trains.iter().filter(here).count();
    if count == 0 {
        return None;
    }
    trains
        .iter()
        .filter(here)
        .nth(rng.below(count))
        .map(|train| train.number)
}

fn train_inside(line: &Line, section: usize) -> Option<Train> {
    let number = line.trains().inside(section as u8)?;
    line.trains()
        .present()
        .iter()
        .find(|train| train.number == number)
        .copied()
}

/// The next call for the train inside a section.
fn move_on(line: &Line, section: usize, train: Train) -> Call {
    let step = match train.at {
        Whereabouts::Running { direction, .. } => {
            if line.sections()[section].home(direction) == HomeSignal::Shut {
                return work(Deed::OpenHome, section, direction);
            }
            Step::Reach
        }
        _ => Step::Leave,
    };
    Call::Move {
        step,
        train: train.number,
        section: section as u32,
    }
}

/// The next call at a section, if the work needs one there.
fn at_section(rng: &mut Rng, line: &Line, manner: &Manner, number: usize) -> Option<Call> {
    let section = &line.sections()[number];
    let inside = train_inside(line, number);
    match section.phase() {
        Phase::Rest => {
            let direction = any_direction(rng);
            let entry = match direction {
                Direction::Up => number,
                Direction::Down => number + 1,
            };
            let wanted =
                standing_at(rng, line, entry).is_some() || rng.percent(manner.without_train);
            wanted.then(|| work(Deed::Give, number, direction))
        }
        Phase::Given(direction) => Some(work(Deed::OpenSignal, number, direction)),
        Phase::Opened(direction) => {
            if let Some(train) = inside.filter(|_| rng.percent(manner.hasty)) {
                return Some(move_on(line, number, train));
            }
            match section.block(direction) {
                BlockSignal::Closed => Some(work(Deed::Return, number, direction)),
                BlockSignal::Fallen => Some(work(Deed::CloseSignal, number, direction)),
                BlockSignal::Open => {
                    let entry = match direction {
                        Direction::Up => number,
                        Direction::Down => number + 1,
                    };
                    if rng.percent(manner.without_train) {
                        return Some(work(Deed::CloseSignal, number, direction));
                    }
                    let train = standing_at(rng, line, entry)?;
                    Some(Call::Move {
                        step: Step::Enter,
                        train,
                        section: number as u32,
                    })
                }
            }
        }
        Phase::Returned(direction) => {
            if let Some(train) = inside {
                return Some(move_on(line, number, train));
            }
            Some(if section.home(direction) == HomeSignal::Open {
                work(Deed::ShutHome, number, direction)
            } else if section.pedal() {
                work(Deed::Clear, number, direction)
            } else {
                work(Deed::Unseal, number, direction)
            })
        }
        Phase::Cleared(direction) => Some(if section.home(direction) == HomeSignal::Open {
            work(Deed::ShutHome, number, direction)
        } else {
            work(Deed::Restore, number, direction)
        }),
    }
}

/// A call that the work of the line needs next.
pub fn needed_call(rng: &mut Rng, line: &Line, manner: &Manner) -> Call {
    let sections = line.sections().len();
    let trains = line.trains().present();
    let placing = if trains.is_empty() { 100 } else { 30 };
    if trains.len() < manner.trains && rng.percent(placing) {
        let mut train = rng.between(1, manner.numbers_below - 1) as u32;
        for _ in 0..3 {
            if line.trains().find(train).is_some() {
                train = rng.between(1, manner.numbers_below - 1) as u32;
            }
        }
        return Call::Place {
            train,
            post: rng.between(0, sections) as u32,
        };
    }
    if !trains.is_empty() && rng.percent(manner.withdraw) {
        return Call::Withdraw {
            train: rng.pick(trains).number,
        };
    }
    let first = rng.below(sections);
    for further in 0..sections {
        let section = (first + further) % sections;
        if let Some(call) = at_section(rng, line, manner, section) {
            return call;
        }
    }
    any_call(rng, line, manner)
}

/// Numbers at edges, and ones that fall into range where bits are lost.
fn odd_number(rng: &mut Rng, near: usize) -> u32 {
    match rng.below(8) {
        0 => 0,
        1 => near as u32,
        2 => near as u32 + 1,
        3 => 256 + rng.between(0, near) as u32,
        4 => 65_536 + rng.between(0, near) as u32,
        5 => rng.pick(&[
            16, 17, 255, 256, 65_535, 65_536, 9_999, 10_000, 99_998, 99_999,
        ]),
        6 => rng.below(100) as u32,
        _ => rng.below(100_000) as u32,
    }
}

fn any_train(rng: &mut Rng, line: &Line, manner: &Manner) -> u32 {
    let trains = line.trains().present();
    if rng.percent(manner.odd_numbers) {
        let near = if trains.is_empty() {
            5
        } else {
            rng.pick(trains).number as usize
        };
        return odd_number(rng, near).min(99_999);
    }
    if trains.is_empty() || rng.percent(10) {
        return rng.between(1, manner.numbers_below - 1) as u32;
    }
    rng.pick(trains).number
}

/// A call made at random, whether it is of use or not.
pub fn any_call(rng: &mut Rng, line: &Line, manner: &Manner) -> Call {
    let sections = line.sections().len();
    let section = if rng.percent(manner.odd_numbers) {
        odd_number(rng, sections)
    } else {
        rng.below(sections) as u32
    };
    match rng.below(14) {
        0 => {
            let train = any_train(rng, line, manner);
            let post = if rng.percent(manner.odd_numbers) {
                odd_number(rng, sections)
            } else {
                rng.between(0, sections) as u32
            };
            Call::Place { train, post }
        }
        1 => Call::Withdraw {
            train: any_train(rng, line, manner),
        },
        2..5 => {
            let train = any_train(rng, line, manner);
            Call::Move {
                step: rng.pick(&Step::ALL),
                train,
                section,
            }
        }
        _ => Call::Work {
            deed: rng.pick(&Deed::ALL),
            section,
            direction: any_direction(rng),
        },
    }
}
