//! Reads headings and calls. Each reader starts at the front of the bytes given
//! and stops after one line; no good line goes past its line feed, so the bytes
//! may go on beyond it.

use crate::call::{Call, Deed, Step};
use crate::instrument::Direction;
use crate::line::MOST_SECTIONS;

const MOST_DIGITS: usize = 5;

/// No good line goes on with the byte at this place.
#[derive(Clone, Copy, Debug, PartialEq, Eq)]
pub struct Misread {
    pub place: usize,
}

#[derive(Clone, Copy, Debug, PartialEq, Eq)]
pub struct Heading {
    pub sections: usize,
    pub interlocked: usize,
}

struct Reader<'a> {
    bytes: &'a [u8],
    at: usize,
}

impl Reader<'_> {
    fn misread(&self) -> Misread {
        Misread { place: self.at }
    }

    fn peek(&self) -> Result<u8, Misread> {
        self.bytes.get(self.at).copied().ok_or(self.misread())
    }

    fn expect(&mut self, wanted: u8) -> Result<(), Misread> {
        if self.peek()? != wanted {
            return Err(self.misread());
        }
        self.at += 1;
        Ok(())
    }

    fn digit(&self) -> Option<u32> {
        let byte = *self.bytes.get(self.at)?;
        byte.is_ascii_digit().then(|| u32::from(byte - b'0'))
    }

    fn number(&mut self) -> Result<u32, Misread> {
        self.expect(b' ')?;
        let mut value = self.digit().ok_or(self.misread())?;
        self.at += 1;
        if value == 0 {
            return Ok(0);
        }
        for _ in 1..MOST_DIGITS {
            let Some(digit) = self.digit() else { break };
            value = value * 10 + digit;
            self.at += 1;
        }
        Ok(value)
    }

    fn direction(&mut self) -> Result<Direction, Misread> {
        self.expect(b' ')?;
        let direction = match self.peek()? {
            b'u' => Direction::Up,
            b'd' => Direction::Down,
            _ => return Err(self.misread()),
        };
        self.at += 1;
        Ok(direction)
    }

    fn place(&mut self) -> Result<Call, Misread> {
        let train = self.number()?;
        let post = self.number()?;
        Ok(Call::Place { train, post })
    }

    fn withdraw(&mut self) -> Result<Call, Misread> {
        let train = self.number()?;
        Ok(Call::Withdraw { train })
    }

    fn work(&mut self, deed: Deed) -> Result<Call, Misread> {
        let section = self.number()?;
        let direction = self.direction()?;
        Ok(Call::Work {
            deed,
            section,
            direction,
        })
    }

    fn step(&mut self, step: Step) -> Result<Call, Misread> {
        let train = self.number()?;
        let section = self.number()?;
        Ok(Call::Move {
            step,
            train,
            section,
        })
    }
}

/// Reads a call, and answers it with the length of its line.
pub fn read_call(bytes: &[u8]) -> Result<(Call, usize), Misread> {
    let mut reader = Reader { bytes, at: 0 };
    let letter = reader.peek()?;
    reader.at = 1;
    let call = match letter {
        b'N' => reader.place(),
        b'W' => reader.withdraw(),
        b'G' => reader.work(Deed::Give),
        b'O' => reader.work(Deed::OpenSignal),
        b'F' => reader.work(Deed::CloseSignal),
        b'E' => reader.step(Step::Enter),
        b'R' => reader.work(Deed::Return),
        b'H' => reader.work(Deed::OpenHome),
        b'S' => reader.work(Deed::ShutHome),
        b'T' => reader.step(Step::Reach),
        b'L' => reader.step(Step::Leave),
        b'D' => reader.work(Deed::Clear),
        b'U' => reader.work(Deed::Unseal),
        b'Z' => reader.work(Deed::Restore),
        _ => Err(Misread { place: 0 }),
    }?;
    reader.expect(b'\n')?;
    Ok((call, reader.at))
}

/// Reads a heading, and answers it with the length of its line.
pub fn read_heading(bytes: &[u8]) -> Option<(Heading, usize)> {
    let mut reader = Reader { bytes, at: 0 };
    reader.expect(b'I').ok()?;
    let sections = reader.number().ok()? as usize;
    let interlocked = reader.number().ok()? as usize;
    reader.expect(b'\n').ok()?;
    let good = (1..=MOST_SECTIONS).contains(&sections) && interlocked <= sections;
    good.then_some((
        Heading {
            sections,
            interlocked,
        },
        reader.at,
    ))
}
