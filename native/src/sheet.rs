//! Plays a whole sheet.

use crate::reading::{read_call, read_heading, Heading};
use crate::refusal::{Refusal, SheetRefusal};
use crate::turn::Turn;
use crate::writing::Writer;

pub const MOST_BYTES: usize = 16_000;
pub const MOST_LINES: usize = 1_500;

/// Plays the sheet and writes the answer to the front of the buffer. Answers how
/// many bytes were written, or minus the number of the refusal.
pub fn play_sheet(sheet: &[u8], answer: &mut [u8]) -> i32 {
    match play(sheet, answer) {
        Ok(written) => written as i32,
        Err(refusal) => -refusal.number(),
    }
}

/// A line feed ends a line, and an unfinished last line is one too.
pub fn count_lines(sheet: &[u8]) -> usize {
    let unfinished = sheet.last().is_some_and(|&byte| byte != b'\n');
    sheet.iter().filter(|&&byte| byte == b'\n').count() + usize::from(unfinished)
}

/// The least buffer for a sheet of so many lines.
pub fn least_room(lines: usize) -> usize {
    20 * lines + 600
}

fn play(sheet: &[u8], answer: &mut [u8]) -> Result<usize, SheetRefusal> {
    if sheet.len() > MOST_BYTES {
        return Err(SheetRefusal::Size);
    }
    let lines = count_lines(sheet);
    if lines > MOST_LINES {
        return Err(SheetRefusal::Size);
    }
    if answer.len() < least_room(lines) {
        return Err(SheetRefusal::Room);
    }
    let (heading, length) = read_heading(sheet).ok_or(SheetRefusal::Heading)?;
    let mut writer = Writer::new(answer);
    let turn = play_calls(&heading, &sheet[length..], &mut writer);
    write_sections(&turn, &mut writer);
    Ok(writer.written())
}

fn play_calls(heading: &Heading, mut rest: &[u8], writer: &mut Writer) -> Turn {
    writer.text(b"turn");
    writer.field(heading.sections as u32);
    writer.field(heading.interlocked as u32);
    writer.text(b"\n");
    let mut turn = Turn::new(heading.sections);
    let mut number = 2;
    while !rest.is_empty() {
        writer.number(number);
        let length = match read_call(rest) {
            Ok((call, length)) => {
                match turn.work(call) {
                    Ok(()) => writer.text(b" ok\n"),
                    Err(refusal) => write_refusal(refusal, writer),
                }
                length
            }
            Err(misread) => {
                writer.text(b" no 103");
                writer.field(misread.place as u32);
                writer.text(b"\n");
                let feed = rest.iter().position(|&byte| byte == b'\n');
                feed.map_or(rest.len(), |feed| feed + 1)
            }
        };
        rest = &rest[length..];
        number += 1;
    }
    turn
}

fn write_refusal(refusal: Refusal, writer: &mut Writer) {
    writer.text(b" no");
    writer.field(refusal.number());
    if let Refusal::Instrument { section, phase, .. } = refusal {
        writer.field(u32::from(section));
        writer.field(phase.code());
    }
    writer.text(b"\n");
}

fn write_sections(turn: &Turn, writer: &mut Writer) {
    let line = turn.line();
    for ((number, section), tally) in (0u8..).zip(line.sections()).zip(turn.tallies()) {
        writer.text(b"s");
        writer.field(u32::from(number));
        writer.field(section.phase().code());
        writer.field(line.trains().inside(number).unwrap_or(0));
        writer.field(tally.givings);
        writer.field(tally.leavings);
        writer.field(tally.unsealings);
        writer.text(b"\n");
    }
}
