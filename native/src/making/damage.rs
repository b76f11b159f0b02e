//! Damages a good line, and makes bytes that are hardly ever one.

use crate::making::rng::Rng;

const LIKELY: &[u8] = b"NWGOFERHSTLDUZIud 0123456789\n\r\t\0-+.xXng\x7f\x80\xff\xc3\xa0";

/// A byte that might stand in a line, or any.
pub fn byte(rng: &mut Rng) -> u8 {
    if rng.percent(75) {
        rng.pick(LIKELY)
    } else {
        rng.below(256) as u8
    }
}

fn digits(rng: &mut Rng, count: usize) -> Vec<u8> {
    (0..count).map(|_| b'0' + rng.below(10) as u8).collect()
}

/// The places at which a number of the line begins.
fn numbers(line: &[u8]) -> Vec<usize> {
    (1..line.len())
        .filter(|&at| line[at].is_ascii_digit() && !line[at - 1].is_ascii_digit())
        .collect()
}

/// Changes a line that ends with its line feed.
pub fn damage(rng: &mut Rng, line: &mut Vec<u8>) {
    let at = rng.below(line.len());
    match rng.below(14) {
        0 | 1 => line[at] = byte(rng),
        2 => {
            line.remove(at);
        }
        3 => line.insert(at, line[at]),
        4 => line.insert(at, byte(rng)),
        5 => {
            // A separator that is none.
            let spaces: Vec<usize> = (0..line.len()).filter(|&at| line[at] == b' ').collect();
            if !spaces.is_empty() {
                line[rng.pick(&spaces)] = rng.pick(b"\t,;:_-\0\n\x0b\xa0");
            }
        }
        6 => {
            let starts = numbers(line);
            if !starts.is_empty() {
                let zeros = rng.between(1, 5);
                let start = rng.pick(&starts);
                line.splice(start..start, std::iter::repeat_n(b'0', zeros));
            }
        }
        7 => {
            // A number of four to seven digits.
            let starts = numbers(line);
            if !starts.is_empty() {
                let start = rng.pick(&starts);
                let length = line[start..]
                    .iter()
                    .take_while(|byte| byte.is_ascii_digit())
                    .count();
                let count = rng.between(4, 7);
                line.splice(start..start + length, digits(rng, count));
            }
        }
        8 => {
            // Runs into the next line.
            line.pop();
        }
        9 => {
            let end = line.len() - 1;
            let extra = rng.between(1, 6);
            let more: Vec<u8> = (0..extra).map(|_| byte(rng)).collect();
            line.splice(end..end, more);
        }
        10 => {
            let end = line.len() - 1;
            line.splice(
                end..end,
                rng.pick(&[&b" "[..], b"\r", b" 0", b" u", b"u", b"0", b"\0"])
                    .iter()
                    .copied(),
            );
        }
        11 => {
            // Cut short.
            line.truncate(at);
            line.push(b'\n');
        }
        12 => line[at] ^= 1 << rng.below(8),
        _ => *line = bytes(rng, 40),
    }
}

/// Some bytes with a line feed after them, mostly few.
pub fn bytes(rng: &mut Rng, most: usize) -> Vec<u8> {
    let count = if rng.percent(80) {
        rng.below(most.min(15))
    } else {
        rng.below(most)
    };
    let mut line: Vec<u8> = (0..count).map(|_| byte(rng)).collect();
    line.push(b'\n');
    line
}
