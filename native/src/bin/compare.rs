//! compare [SEED] [LINES]: gives sheets to the native implementation and to the
//! verified library, and stops at the first difference.

use std::collections::BTreeMap;
use std::fmt::Display;
use std::ops::RangeInclusive;
use std::process::ExitCode;
use std::{env, fs, str};

use native::making::mix::{any_room, any_sheet};
use native::making::rng::Rng;

#[path = "../library.rs"]
mod library;

const DEFAULT_LINES: usize = 1_000_000;

/// A run of this many lines has to see every number and every call accepted.
const FULL_RUN: usize = 50_000;

/// Bytes on both sides of the buffer, which neither implementation may touch.
const MARGIN: usize = 64;

/// The numbers that a sheet, or a line of one, can get.
const NUMBERS: [RangeInclusive<u32>; 3] = [101..=106, 203..=213, 302..=304];

const LETTERS: &str = "NWGOFERHSTLDUZ";

/// What an implementation is given.
struct Trial {
    sheet: Vec<u8>,
    room: usize,
    /// Makes the bytes that stand in the buffer before, and those after the sheet.
    pattern: u64,
}

#[derive(PartialEq, Eq)]
struct Outcome {
    answered: i32,
    /// The buffer with its margins.
    buffer: Vec<u8>,
}

#[derive(Default)]
struct Seen {
    sheets: usize,
    lines: usize,
    ok: usize,
    numbers: BTreeMap<u32, usize>,
    /// The letters of accepted calls.
    letters: BTreeMap<char, usize>,
}

impl Outcome {
    fn answer(&self) -> &[u8] {
        let length = usize::try_from(self.answered).unwrap_or(0);
        let end = (MARGIN + length).min(self.buffer.len());
        &self.buffer[MARGIN..end]
    }
}

impl Trial {
    fn play(&self, play: fn(&[u8], &mut [u8]) -> i32) -> Outcome {
        let mut rng = Rng::new(self.pattern);
        let (mut byte, step) = (rng.bits() as u8, rng.bits() as u8);
        let mut buffer = vec![0; self.room + 2 * MARGIN];
        for place in &mut buffer {
            *place = byte;
            byte = byte.wrapping_add(step);
        }
        // The library could read past the sheet: good bytes stand there to show it.
        let after = rng.pick(&[&b"0\nG 0 u\n"[..], b"5 0\n", b"\n", b" u\n"]);
        let longer = [&self.sheet, after].concat();
        let sheet = &longer[..self.sheet.len()];
        let answered = play(sheet, &mut buffer[MARGIN..MARGIN + self.room]);
        assert!(sheet == self.sheet, "the sheet was changed");
        Outcome { answered, buffer }
    }

    fn differs(&self) -> bool {
        self.play(native::play_sheet) != self.play(library::play_sheet)
    }

    /// Drops lines as long as there is still a difference.
    fn shortest(&self) -> Trial {
        let mut lines: Vec<&[u8]> = self.sheet.split_inclusive(|&byte| byte == b'\n').collect();
        let mut piece = lines.len().div_ceil(2);
        while piece > 0 {
            let mut at = 0;
            while at < lines.len() {
                let end = (at + piece).min(lines.len());
                let fewer = [&lines[..at], &lines[end..]].concat();
                if (Trial {
                    sheet: fewer.concat(),
                    ..*self
                })
                .differs()
                {
                    lines = fewer;
                } else {
                    at = end;
                }
            }
            piece /= 2;
        }
        Trial {
            sheet: lines.concat(),
            ..*self
        }
    }

    /// Writes the whole sheet beside this program.
    fn keep(&self) {
        let file = env::current_exe().map(|path| path.with_file_name("difference.sheet"));
        match file.and_then(|file| fs::write(&file, &self.sheet).map(|()| file)) {
            Ok(file) => println!("the whole sheet is in {}", file.display()),
            Err(error) => println!("the sheet could not be kept: {error}"),
        }
    }

    fn print(&self) {
        println!("shortened sheet, with a buffer of {} bytes:", self.room);
        print_bytes(&self.sheet);
        let native = self.play(native::play_sheet);
        let library = self.play(library::play_sheet);
        for (name, outcome) in [("native", &native), ("library", &library)] {
            println!("{name} answered {}:", outcome.answered);
            print_bytes(outcome.answer());
        }
        let places = native.buffer.iter().zip(&library.buffer);
        if let Some(at) = places.into_iter().position(|(a, b)| a != b) {
            let of = [native.buffer[at], library.buffer[at]];
            let at = at as isize - MARGIN as isize;
            println!(
                "the buffers differ first at byte {at}: {} and {}",
                of[0], of[1]
            );
        }
    }
}

fn print_bytes(bytes: &[u8]) {
    for line in bytes.split_inclusive(|&byte| byte == b'\n') {
        println!("  {}", line.escape_ascii());
    }
}

impl Seen {
    fn add(&mut self, trial: &Trial, outcome: &Outcome) {
        self.sheets += 1;
        if outcome.answered < 0 {
            *self
                .numbers
                .entry(outcome.answered.unsigned_abs())
                .or_default() += 1;
            return;
        }
        let calls = trial.sheet.split_inclusive(|&byte| byte == b'\n');
        let answers = outcome.answer().split(|&byte| byte == b'\n');
        for (call, answer) in calls.zip(answers).skip(1) {
            self.lines += 1;
            let mut words = answer.split(|&byte| byte == b' ').skip(1);
            if words.next() == Some(b"ok") {
                self.ok += 1;
                *self.letters.entry(char::from(call[0])).or_default() += 1;
            } else {
                let number = words.next().and_then(|word| str::from_utf8(word).ok());
                let number = number.and_then(|word| word.parse().ok()).expect("a number");
                *self.numbers.entry(number).or_default() += 1;
            }
        }
    }

    fn print(&self) {
        let Seen {
            sheets, lines, ok, ..
        } = self;
        println!("native: {sheets} sheets, {lines} lines, {ok} ok: no difference");
        println!("refusals seen: {}", listed(&self.numbers));
        println!("calls accepted: {}", listed(&self.letters));
    }

    /// What a full run should have seen and has not.
    fn missing(&self) -> Vec<String> {
        let numbers = NUMBERS.into_iter().flatten();
        let numbers = numbers.filter(|number| !self.numbers.contains_key(number));
        let letters = LETTERS
            .chars()
            .filter(|letter| !self.letters.contains_key(letter));
        numbers
            .map(|number| number.to_string())
            .chain(letters.map(String::from))
            .collect()
    }
}

fn listed<T: Display>(counts: &BTreeMap<T, usize>) -> String {
    let words: Vec<String> = counts
        .iter()
        .map(|(what, count)| format!("{what} {count}"))
        .collect();
    words.join(", ")
}

fn arguments() -> Option<(u64, usize)> {
    let mut words = env::args().skip(1);
    let seed = words.next().map_or(Some(1), |word| word.parse().ok())?;
    let lines = words
        .next()
        .map_or(Some(DEFAULT_LINES), |word| word.parse().ok())?;
    words.next().is_none().then_some((seed, lines))
}

fn main() -> ExitCode {
    let Some((seed, lines)) = arguments() else {
        eprintln!("compare [SEED] [LINES]");
        return ExitCode::from(2);
    };
    let mut rng = Rng::new(seed);
    let mut seen = Seen::default();
    while seen.lines < lines {
        let sheet = any_sheet(&mut rng, seen.sheets);
        let room = any_room(&mut rng, &sheet);
        let trial = Trial {
            sheet,
            room,
            pattern: rng.bits(),
        };
        let native = trial.play(native::play_sheet);
        if native != trial.play(library::play_sheet) {
            println!("native: seed {seed}, sheet {}: a difference", seen.sheets);
            trial.keep();
            trial.shortest().print();
            return ExitCode::FAILURE;
        }
        seen.add(&trial, &native);
    }
    seen.print();
    let missing = seen.missing();
    if lines >= FULL_RUN && !missing.is_empty() {
        println!("not seen: {}", missing.join(", "));
        return ExitCode::FAILURE;
    }
    ExitCode::SUCCESS
}
