//! A sheet in the making, with the turn that its lines so far lead to.

use std::io::Write;

use crate::call::Call;
use crate::making::damage::damage;
use crate::making::driver::{any_call, needed_call, Manner};
use crate::making::rng::Rng;
use crate::reading::read_call;
use crate::turn::Turn;

pub struct Maker {
    pub sheet: Vec<u8>,
    /// The bytes before this were worked in the turn.
    worked: usize,
    turn: Turn,
}

/// What the lines are; chances are in percent, and the rest are calls that the work needs.
#[derive(Clone, Copy, Debug)]
pub struct Mixture {
    pub at_random: usize,
    pub damaged: usize,
}

impl Maker {
    pub fn new(sections: usize, interlocked: usize) -> Maker {
        let sheet = format!("I {sections} {interlocked}\n").into_bytes();
        Maker {
            worked: sheet.len(),
            sheet,
            turn: Turn::new(sections),
        }
    }

    pub fn turn(&self) -> &Turn {
        &self.turn
    }

    pub fn add(&mut self, bytes: &[u8]) {
        self.sheet.extend_from_slice(bytes);
        // A damaged line may hold several lines, or end only with the next one.
        while let Some(feed) = self.sheet[self.worked..]
            .iter()
            .position(|&byte| byte == b'\n')
        {
            if let Ok((call, _)) = read_call(&self.sheet[self.worked..]) {
                // Refused calls belong on a sheet as well.
                let _ = self.turn.work(call);
            }
            self.worked += feed + 1;
        }
    }

    pub fn add_call(&mut self, call: Call) {
        self.add(format!("{call}\n").as_bytes());
    }

    pub fn add_line(&mut self, rng: &mut Rng, manner: &Manner, mixture: &Mixture) {
        let line = self.turn.line();
        let call = if rng.percent(mixture.at_random) {
            any_call(rng, line, manner)
        } else {
            needed_call(rng, line, manner)
        };
        let mut text = Vec::with_capacity(16);
        writeln!(text, "{call}").expect("a vector takes every byte");
        if rng.percent(mixture.damaged) {
            damage(rng, &mut text);
        }
        self.add(&text);
    }
}
