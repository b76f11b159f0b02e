//! The sheets and buffers that the comparison tries.

use crate::making::damage::{byte, bytes, damage};
use crate::making::driver::Manner;
use crate::making::maker::{Maker, Mixture};
use crate::making::rng::Rng;
use crate::sheet::{count_lines, least_room, MOST_BYTES, MOST_LINES};

fn any_manner(rng: &mut Rng) -> Manner {
    Manner {
        without_train: rng.pick(&[0, 0, 0, 5, 30, 100]),
        hasty: rng.pick(&[0, 20, 60]),
        trains: rng.pick(&[1, 2, 3, 8, 20, 40, 64, 70]),
        withdraw: rng.pick(&[0, 1, 10]),
        numbers_below: rng.pick(&[10, 100, 1_000, 10_000, 100_000]),
        odd_numbers: rng.pick(&[0, 3, 15, 50]),
    }
}

fn any_mixture(rng: &mut Rng) -> Mixture {
    Mixture {
        at_random: rng.pick(&[0, 2, 5, 10, 10, 30, 60, 100]),
        damaged: rng.pick(&[0, 0, 0, 0, 2, 2, 2, 10, 10, 50, 100]),
    }
}

fn any_sections(rng: &mut Rng) -> usize {
    match rng.below(3) {
        0 => rng.between(1, 3),
        1 => rng.between(4, 16),
        _ => rng.pick(&[1, 2, 3, 15, 16]),
    }
}

/// How many lines a sheet has, with its heading.
fn any_length(rng: &mut Rng) -> usize {
    match rng.below(100) {
        0..15 => rng.between(1, 6),
        15..50 => rng.between(6, 80),
        50..75 => rng.between(80, 400),
        75..94 => rng.between(400, MOST_LINES),
        _ => rng.between(MOST_LINES - 2, MOST_LINES + 2),
    }
}

/// A turn, of any manner and mixture.
fn turn_sheet(rng: &mut Rng) -> Vec<u8> {
    let sections = any_sections(rng);
    let mut maker = Maker::new(sections, rng.between(0, sections));
    let manner = any_manner(rng);
    let mut mixture = any_mixture(rng);
    let lines = any_length(rng);
    // Most sheets are kept from being refused for their bytes alone.
    let most = if rng.percent(97) {
        MOST_BYTES - 50
    } else {
        usize::MAX
    };
    let changing = rng.percent(20);
    while count_lines(&maker.sheet) < lines && maker.sheet.len() < most {
        // Counting each time would be slow, and damage rarely makes a line two.
        for _ in 0..(lines - count_lines(&maker.sheet)).min(64) {
            if maker.sheet.len() >= most {
                break;
            }
            maker.add_line(rng, &manner, &mixture);
        }
        if changing {
            mixture = any_mixture(rng);
        }
    }
    maker.sheet
}

/// One line, damaged at each place in turn.
fn each_place_sheet(rng: &mut Rng) -> Vec<u8> {
    let sections = any_sections(rng);
    let mut maker = Maker::new(sections, rng.between(0, sections));
    let manner = any_manner(rng);
    let plain = Mixture {
        at_random: rng.pick(&[0, 100]),
        damaged: 0,
    };
    for _ in 0..rng.between(1, 12) {
        let before = maker.sheet.len();
        maker.add_line(rng, &manner, &plain);
        let line = maker.sheet[before..].to_vec();
        for at in 0..line.len() {
            let mut changed = line.clone();
            changed[at] = byte(rng);
            maker.add(&changed);
            let mut dropped = line.clone();
            dropped.remove(at);
            maker.add(&dropped);
            let mut doubled = line.clone();
            doubled.insert(at, line[at]);
            maker.add(&doubled);
            maker.add(&line[..at]);
            maker.add(b"\n");
        }
    }
    maker.sheet
}

/// Bytes with no plan, after a good heading or not.
fn raw_sheet(rng: &mut Rng) -> Vec<u8> {
    let mut sheet = if rng.percent(80) {
        b"I 3 1\n".to_vec()
    } else {
        Vec::new()
    };
    let lines = rng.pick(&[0, 1, 5, 40, 200]);
    for _ in 0..lines {
        if rng.percent(10) {
            // A long line: among other bytes a line feed would soon end it.
            let length = rng.pick(&[100, 300, 3_000]);
            sheet.resize(sheet.len() + rng.below(length), rng.pick(b"G 5u\0\x80\xff"));
        }
        let most = rng.pick(&[15, 15, 40, 300]);
        sheet.extend(bytes(rng, most));
    }
    sheet.truncate(MOST_BYTES + 3);
    sheet
}

/// A short sheet with a heading that is seldom good.
fn heading_sheet(rng: &mut Rng) -> Vec<u8> {
    let mut sheet = match rng.below(6) {
        0 => format!("I {} {}\n", rng.below(19), rng.below(19)).into_bytes(),
        1 => {
            let sections = rng.pick(&[0, 1, 16, 17, 256, 257, 272, 65_536, 65_537, 65_552, 99_999]);
            format!(
                "I {} {}\n",
                sections,
                rng.pick(&[0, 1, 16, 17, 256, 65_536])
            )
            .into_bytes()
        }
        2 => {
            let sections = any_sections(rng);
            format!("I {} {}\n", sections, sections + rng.below(2)).into_bytes()
        }
        3 => bytes(rng, 12),
        _ => {
            let sections = any_sections(rng);
            let mut heading = format!("I {} {}\n", sections, rng.between(0, sections)).into_bytes();
            damage(rng, &mut heading);
            heading
        }
    };
    let more = rng.below(4);
    for _ in 0..more {
        sheet.extend_from_slice(rng.pick(&[
            &b"N 5 0\n"[..],
            b"G 0 u\n",
            b"O 0 u\n",
            b"E 5 0\n",
            b"G 0 d\n",
        ]));
    }
    if rng.percent(20) {
        sheet.truncate(rng.between(0, sheet.len()));
    }
    sheet
}

/// A turn brought to a size at or beside the most that is played.
fn edge_sheet(rng: &mut Rng) -> Vec<u8> {
    let sections = any_sections(rng);
    let mut maker = Maker::new(sections, rng.between(0, sections));
    let manner = Manner {
        numbers_below: 100,
        ..any_manner(rng)
    };
    let mixture = Mixture {
        at_random: rng.pick(&[0, 10, 100]),
        damaged: 0,
    };
    if rng.percent(50) {
        for _ in 1..rng.between(MOST_LINES - 2, MOST_LINES + 2) {
            maker.add_line(rng, &manner, &mixture);
        }
    } else {
        let length = rng.between(MOST_BYTES - 4, MOST_BYTES + 4);
        while maker.sheet.len() < length - 30 {
            maker.add_line(rng, &manner, &mixture);
            let more = bytes(rng, 40);
            maker.add(&more);
        }
        maker.sheet.resize(length, byte(rng));
    }
    maker.sheet
}

/// A long turn that fills the register, the seal book or the table of trains.
fn filling_sheet(rng: &mut Rng, which: usize) -> Vec<u8> {
    let sections = any_sections(rng);
    let mut maker = Maker::new(sections, rng.between(0, sections));
    let manner = Manner {
        without_train: if which == 1 { 100 } else { 0 },
        hasty: 20,
        trains: if which == 2 { 70 } else { 3 },
        withdraw: 0,
        numbers_below: 1_000,
        odd_numbers: 3,
    };
    let mixture = Mixture {
        at_random: 5,
        damaged: 1,
    };
    for _ in 0..MOST_LINES - 50 {
        maker.add_line(rng, &manner, &mixture);
    }
    maker.sheet
}

/// A sheet of just so many bytes and lines; its last line is finished or not.
fn sized_sheet(rng: &mut Rng, length: usize, lines: usize) -> Vec<u8> {
    let mut sheet = b"I 2 1\n".to_vec();
    while count_lines(&sheet) < lines - 1 {
        sheet.extend_from_slice(rng.pick(&[&b"\n"[..], b"G 0 u\n", b"O 0 u\n", b"F 0 u\n"]));
    }
    sheet.resize(length, rng.pick(b"A 0\0\xff"));
    if rng.percent(50) {
        sheet[length - 1] = b'\n';
    }
    sheet
}

/// The sheet after so many others. The first ones are those that a short run could miss by chance.
pub fn any_sheet(rng: &mut Rng, before: usize) -> Vec<u8> {
    match before {
        0..3 => return filling_sheet(rng, before),
        3 => return sized_sheet(rng, MOST_BYTES, 5),
        4 => return sized_sheet(rng, MOST_BYTES + 1, 5),
        5 => return sized_sheet(rng, MOST_BYTES, MOST_LINES),
        6 => return sized_sheet(rng, MOST_BYTES, MOST_LINES + 1),
        _ => {}
    }
    let mut sheet = match rng.below(100) {
        0..2 => {
            let which = rng.below(3);
            filling_sheet(rng, which)
        }
        2..70 => turn_sheet(rng),
        70..80 => each_place_sheet(rng),
        80..86 => raw_sheet(rng),
        86..96 => heading_sheet(rng),
        96..98 => edge_sheet(rng),
        98 => {
            let length = rng.between(MOST_BYTES - 2, MOST_BYTES + 2);
            let lines = rng.pick(&[3, 50, MOST_LINES - 1, MOST_LINES, MOST_LINES + 1]);
            sized_sheet(rng, length, lines)
        }
        _ => Vec::new(),
    };
    match rng.below(20) {
        0 | 1 => {
            // The last line unfinished.
            sheet.pop();
        }
        2 => {
            let cut = rng.below(8).min(sheet.len());
            sheet.truncate(sheet.len() - cut);
        }
        3 => sheet.push(byte(rng)),
        _ => {}
    }
    sheet
}

/// How long the buffer for a sheet is.
pub fn any_room(rng: &mut Rng, sheet: &[u8]) -> usize {
    let least = least_room(count_lines(sheet));
    match rng.below(100) {
        0..50 => least,
        50..54 => least - 1,
        54 => 0,
        55 => rng.below(least),
        56 => rng.pick(&[1, 599, 600, 619, 620]),
        57..75 => least + rng.between(1, 100),
        75..98 => least_room(MOST_LINES),
        _ => least_room(MOST_LINES) + rng.below(5_000),
    }
}
