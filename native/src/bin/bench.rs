//! bench: the time that the verified library and the native implementation take
//! for the same sheets, and the stack that a call of the library needs.

use std::hint::black_box;
use std::process::{Command, ExitCode};
use std::time::{Duration, Instant};

use native::call::Call;
use native::making::driver::Manner;
use native::making::maker::{Maker, Mixture};
use native::making::mix::any_sheet;
use native::making::rng::Rng;
use native::sheet::{count_lines, least_room, MOST_BYTES, MOST_LINES};

#[path = "../library.rs"]
mod library;

type Play = fn(&[u8], &mut [u8]) -> i32;

const ROUNDS: usize = 150;

/// Long beside the clock's own cost, short beside the times that others take the processor.
const ROUND: Duration = Duration::from_millis(2);

/// Symbols that a compiler brings in by itself, and that allocate nothing.
const HARMLESS: [&str; 5] = ["memcpy", "memmove", "memset", "memcmp", "bcmp"];

struct Case {
    sections: usize,
    trains: usize,
    sheet: Vec<u8>,
    /// How often a train left a section.
    left: u32,
}

impl Case {
    /// A turn that places the trains and then works them over the line; a third of its later
    /// lines are calls at random, refused for the most part.
    fn new(sections: usize, trains: usize, lines: usize) -> Case {
        let mut rng = Rng::new(20);
        let mut maker = Maker::new(sections, sections / 2);
        let manner = Manner {
            without_train: 0,
            hasty: 0,
            trains,
            withdraw: 0,
            numbers_below: 1_000,
            odd_numbers: 0,
        };
        for number in 0..trains {
            let post = rng.between(0, sections) as u32;
            maker.add_call(Call::Place {
                train: 101 + 13 * number as u32,
                post,
            });
        }
        let mixture = Mixture {
            at_random: 33,
            damaged: 0,
        };
        for _ in trains + 1..lines {
            maker.add_line(&mut rng, &manner, &mixture);
        }
        assert!(count_lines(&maker.sheet) == lines && maker.sheet.len() <= MOST_BYTES);
        Case {
            sections,
            trains,
            left: maker
                .turn()
                .tallies()
                .iter()
                .map(|tally| tally.leavings)
                .sum(),
            sheet: maker.sheet,
        }
    }
}

/// The time for one sheet, from as many as are given.
fn time(play: Play, sheet: &[u8], answer: &mut [u8], repeats: u32) -> Duration {
    let start = Instant::now();
    for _ in 0..repeats {
        black_box(play(black_box(sheet), black_box(answer)));
    }
    start.elapsed() / repeats
}

fn measure(case: &Case, answer: &mut [u8]) {
    let sheet = &case.sheet;
    let lines = count_lines(sheet);
    let plays: [Play; 2] = [library::play_sheet, native::play_sheet];
    let answers = plays.map(|play| {
        let length = play(sheet, answer);
        answer[..usize::try_from(length).expect("a played sheet")].to_vec()
    });
    assert!(answers[0] == answers[1], "the answers differ");
    let ok = answers[0]
        .windows(4)
        .filter(|bytes| bytes == b" ok\n")
        .count();
    let repeats = plays.map(|play| {
        let once = time(play, sheet, answer, 20).max(Duration::from_nanos(1));
        (ROUND.as_nanos() / once.as_nanos()).max(1) as u32
    });
    let mut best = [Duration::MAX; 2];
    for _ in 0..ROUNDS {
        for turn in 0..2 {
            best[turn] = best[turn].min(time(plays[turn], sheet, answer, repeats[turn]));
        }
    }
    let [library, native] = best.map(|time| time.as_nanos() as f64);
    println!(
        "{:8} {:6} {:5} {:5} {:5} {:11.2} {:9.1} {:11.2} {:9.1} {:6.2}",
        case.sections,
        case.trains,
        lines,
        ok,
        case.left,
        library / 1_000.0,
        library / lines as f64,
        native / 1_000.0,
        native / lines as f64,
        library / native
    );
}

/// Sheets of every kind, and one whose answer has the longest number.
fn print_stack(cases: Vec<Case>, answer: &mut [u8]) -> bool {
    let mut rng = Rng::new(21);
    let mut sheets: Vec<Vec<u8>> = cases.into_iter().map(|case| case.sheet).collect();
    sheets.push(b"I 1 1\nN 99999 0\nG 0 u\nO 0 u\nE 99999 0\n".to_vec());
    sheets.extend((0..200).map(|before| any_sheet(&mut rng, before)));
    let depths: Vec<(usize, usize)> = sheets
        .iter()
        .map(|sheet| library::stack_needed(sheet, answer))
        .collect();
    let most = depths.iter().map(|depth| depth.0).max().unwrap_or(0);
    let nothing = depths.iter().map(|depth| depth.1).max().unwrap_or(0);
    println!(
        "stack: {most} bytes, the most that a call of the library overwrote below the caller's \
         frame, of {} sheets on threads with painted stacks (a call of nothing: {nothing})",
        sheets.len()
    );
    most > nothing
}

/// The library can allocate only by a function outside of it.
fn print_allocation() -> bool {
    let archive = env!("PANEL_ARCHIVE");
    let output = match Command::new("nm")
        .args(["--undefined-only", archive])
        .output()
    {
        Ok(output) if output.status.success() => output.stdout,
        _ => {
            println!("allocation: not known, since nm could not list the symbols of {archive}");
            return false;
        }
    };
    let text = String::from_utf8_lossy(&output);
    let names: Vec<&str> = text
        .lines()
        .filter_map(|line| line.trim_start().strip_prefix("U "))
        .collect();
    if names.iter().all(|name| HARMLESS.contains(name)) {
        println!(
            "allocation: none; the library's archive asks for {} symbols from outside (by nm) \
             {names:?}, so there is no allocator that it could call",
            names.len()
        );
        true
    } else {
        println!("allocation: not known, since the library calls functions outside: {names:?}");
        false
    }
}

fn main() -> ExitCode {
    let mut answer = vec![0; least_room(MOST_LINES)];
    let mut cases = Vec::new();
    for lines in [100, 500, MOST_LINES] {
        for (sections, trains) in [(1, 1), (16, 1), (1, 64), (16, 64)] {
            cases.push(Case::new(sections, trains, lines));
        }
    }
    println!("best of {ROUNDS} rounds, taken in turn; us for a sheet, ns for a line;");
    println!(
        "ok: accepted calls, left: how often a train left a section, ratio: library to native"
    );
    println!(
        "sections trains lines    ok  left  library us   ns/line   native us   ns/line  ratio"
    );
    for case in &cases {
        measure(case, &mut answer);
    }
    let known = [print_stack(cases, &mut answer), print_allocation()];
    if known == [true; 2] {
        ExitCode::SUCCESS
    } else {
        ExitCode::FAILURE
    }
}
