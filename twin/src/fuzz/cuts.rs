//! Choppings: made by chance, right and odd, and the other program's line compared.

use std::fmt;

use super::process::Other;
use super::said::{filed, show_files, Refusals, Sayer, Why};
use super::stats::Stats;
use crate::chop::{judge, lines, mistake, pieces, read, Line, Verdict, MOST};
use crate::rng::Rng;

const SAYER: Sayer = Sayer {
    name: "chopping",
    made,
    expected: |input| format!("{}\n", judge(input)).into_bytes(),
};

/// One round of them. Some(..) tells what differs.
pub fn round(
    rng: &mut Rng,
    program: &dyn Other,
    stats: &mut Stats,
) -> Result<Option<String>, String> {
    SAYER.round(rng, program, |input| stats.cuts.see(input))
}

/// The counts.
#[derive(Default)]
pub struct Counts {
    files: u64,
    accepted: u64,
    /// By the length of the circle that is shown, from 3.
    refused: [u64; MOST - 2],
    refusals: Refusals,
    full: u64,
    without_pieces: u64,
    comments: u64,
}

impl Counts {
    pub fn files(&self) -> u64 {
        self.files
    }

    /// Counts a file. The judge's own other ways must agree.
    fn see(&mut self, input: &[u8]) -> Result<(), String> {
        let verdict = judge(input);
        self.files += 1;
        let read: Vec<Line> = lines(input).into_iter().map(read).collect();
        let count = |like: fn(&Line) -> bool| read.iter().filter(|line| like(line)).count();
        let is_piece = |line: &Line| matches!(line, Line::Piece(_));
        let is_unknown = |line: &Line| matches!(line, Line::Piece(piece) if piece.has_unknown());
        let (many, unknown) = (count(is_piece) > MOST, count(is_unknown) > 0);
        self.comments += count(|line| *line == Line::Comment) as u64;
        match &verdict {
            Verdict::BadLine(_) => self.refusals.see(Why::BadLine, many, unknown),
            Verdict::TooMany => self.refusals.see(Why::TooMany, many, unknown),
            Verdict::UnknownItem => self.refusals.see(Why::UnknownItem, many, unknown),
            Verdict::Refused(circle) => self.refused[circle.len() - 3] += 1,
            Verdict::Accepted => self.accepted += 1,
        }
        if let Ok(pieces) = pieces(input) {
            self.full += u64::from(pieces.len() == MOST);
            self.without_pieces += u64::from(pieces.is_empty());
            if let Some(text) = mistake(&pieces, &verdict) {
                let input = String::from_utf8_lossy(input);
                return Err(format!("the twin's own mistake: {}\n{}", text, input));
            }
        }
        Ok(())
    }

    /// Each count with its name.
    pub fn each(&self) -> Vec<(String, u64)> {
        let refusals = self.refusals.each("too many pieces");
        let others = [
            ("of 32 pieces", self.full),
            ("without a piece", self.without_pieces),
            ("comment lines", self.comments),
        ];
        let named = [("accepted", self.accepted)]
            .into_iter()
            .chain(refusals)
            .chain(others);
        let mut each: Vec<(String, u64)> = named
            .map(|(name, count)| (name.to_string(), count))
            .collect();
        for (length, &count) in self.refused.iter().enumerate() {
            if count > 0 {
                each.push((format!("refused, a circle of {}", length + 3), count));
            }
        }
        each
    }
}

impl fmt::Display for Counts {
    fn fmt(&self, out: &mut fmt::Formatter) -> fmt::Result {
        show_files(out, "choppings", self.files, self.each())
    }
}

/// A file: pieces of some shape, then perhaps comments, odd lines and an item too high.
pub fn made(rng: &mut Rng) -> Vec<u8> {
    let count = match rng.below(10) {
        0 => rng.index(4),
        1..=4 => rng.within(3, 8) as usize,
        5..=6 => rng.within(9, 31) as usize,
        7 => MOST,
        8 => MOST + 1,
        _ => rng.within(0, 36) as usize,
    };
    let mut all = match rng.below(4) {
        0 => ring(rng, count),
        1 => chain(rng, count),
        _ => any(rng, count),
    };
    if rng.percent(15) && !all.is_empty() {
        let at = rng.index(all.len());
        let item = rng.one_of(&[
            "64",
            "65",
            "63",
            "127",
            "128",
            "18446744073709551615",
            "064",
        ]);
        let part = match all[at].contains("writes") {
            true => format!(" {}", item),
            false => format!(" writes {}", item),
        };
        all[at] += &part;
    }
    filed(rng, all, 25, odd)
}

/// One circle of all pieces, or nearly one, in any order.
fn ring(rng: &mut Rng, count: usize) -> Vec<String> {
    let mut names: Vec<usize> = (0..count).collect();
    // Neighbours that are siblings need no item in common.
    let siblings = rng.one_of(&[0, 1, 1, 2, 4]);
    for _ in 0..siblings.min(count / 2) {
        let at = rng.index(count);
        names[at] = names[(at + 1) % count];
    }
    let open = rng.percent(30);
    let mut all: Vec<String> = (0..count)
        .map(|at| {
            let to = match open && at == 0 {
                true => 60,
                false => (at + count - 1) % count,
            };
            match rng.percent(50) {
                true => format!("P{} reads {} writes {}", names[at], to % 60, at % 60),
                false => format!("P{} writes {} {}", names[at], at % 60, to % 60),
            }
        })
        .collect();
    for at in (1..all.len()).rev() {
        all.swap(at, rng.index(at + 1));
    }
    all
}

/// Two pieces for each of some transactions, joined from one to the next.
fn chain(rng: &mut Rng, count: usize) -> Vec<String> {
    let closes = rng.percent(50);
    (0..count)
        .map(|at| {
            let item = match at % 2 {
                _ if at + 1 == count && closes => 0,
                0 => at / 2,
                _ => at / 2 + 1,
            };
            format!("C-{} writes {}", at / 2, item % 64)
        })
        .collect()
}

/// Pieces of a few transactions that touch a few items.
fn any(rng: &mut Rng, count: usize) -> Vec<String> {
    let names = rng.within(1, count.max(1) as u64 + 2);
    let long = rng.percent(20);
    let items = rng.one_of(&[2, 4, 8, 16, 40, 64]);
    let most = rng.one_of(&[1, 2, 2, 4, 20]);
    let writes = rng.one_of(&[10, 30, 50, 80]);
    (0..count)
        .map(|_| {
            let name = rng.below(names);
            let mut line = match long {
                // Alike up to the last byte.
                true => format!("{:_>32}", name),
                false => match rng.below(12) {
                    0 => format!("t{}", name),
                    1 => ["reads", "writes", "-", "_", "0"][name as usize % 5].to_string(),
                    _ => format!("T{}", name),
                },
            };
            for (word, chance) in [(" reads", 100 - writes), (" writes", writes)] {
                if rng.percent(chance) {
                    line += word;
                    for _ in 0..rng.within(1, most) {
                        let zeros = "0".repeat(rng.one_of(&[0, 0, 0, 0, 1, 30, 400]));
                        line += &format!(" {}{}", zeros, rng.below(items));
                    }
                }
            }
            line
        })
        .collect()
}

/// A line that is often none, made with care to be nearly one.
fn odd(rng: &mut Rng) -> Vec<u8> {
    const ODD: [&[u8]; 40] = [
        b" ",
        b"  ",
        b" T1",
        b"T1 ",
        b"T1  reads 3",
        b"T1 reads",
        b"T1 reads ",
        b"T1 reads  3",
        b"T1 reads 3 ",
        b"T1 writes",
        b"T1 reads writes 3",
        b"T1 reads 3 writes",
        b"T1 writes 3 reads 4",
        b"T1 writes 3 writes 4",
        b"T1 reads 3 reads 4",
        b"T1 read 3",
        b"T1 Reads 3",
        b"T1 reads 3,4",
        b"T1 reads +3",
        b"T1 reads -3",
        b"T1 reads 3x",
        b"T1 reads x",
        b"T1 reads 18446744073709551616",
        b"T1 reads 18446744073709551615",
        b"T1 reads 184467440737095516150",
        b"T1 3",
        b"T.1 reads 3",
        b"T1\treads 3",
        b"T1 reads\t3",
        b"T1 reads 3\r",
        b"T1 reads 3#",
        b"T1# reads 3",
        b"T1 reads 3 #4 writes",
        b"T1  # two spaces",
        b"T1 reads # nothing",
        b"T1-_0",
        b"\xc3\xa4 reads 3",
        b"T1 reads 3\0",
        b"T1 reads 0x3",
        b"T1 reads 3 writes 4 5 6 6",
    ];
    match rng.below(6) {
        0 => vec![b'n'; rng.one_of(&[31, 32, 33, 34, 64, 5000])],
        1 => {
            let zeros = "0".repeat(rng.one_of(&[19, 20, 81, 3000]));
            format!(
                "T1 reads {}{}",
                zeros,
                rng.one_of(&["", "7", "18446744073709551616"])
            )
            .into_bytes()
        }
        _ => rng.one_of(&ODD).to_vec(),
    }
}

#[cfg(test)]
mod tests {
    use super::*;

    #[test]
    fn all_that_is_counted() {
        let mut counts = Counts::default();
        let mut rng = Rng::new(1);
        for _ in 0..8_000 {
            assert_eq!(counts.see(&made(&mut rng)), Ok(()));
        }
        for (name, count) in counts.each() {
            assert!(count > 0, "{}", name);
        }
        // A circle of every length.
        assert!(
            counts.refused.iter().all(|&count| count > 0),
            "{:?}",
            counts.refused
        );
    }
}
