//! Whole programs: made by chance, right and odd, and the other program's cut compared.

use std::fmt;

use super::process::Other;
use super::said::{filed, show_files, Refusals, Sayer, Why};
use super::stats::Stats;
use crate::chop::{
    find, has_mixed_block, lines, partitions, piece, programs, said, written, Found, Graph,
    Operation, Piece, Said, MOST,
};
use crate::rng::Rng;

/// So few operations are parted in all ways.
const FEW: usize = 7;

const SAYER: Sayer = Sayer {
    name: "programs",
    made,
    expected: |input| {
        let (found, all) = find(input);
        written(&found, &all)
    },
};

/// One round of them. Some(..) tells what differs.
pub fn round(
    rng: &mut Rng,
    program: &dyn Other,
    stats: &mut Stats,
) -> Result<Option<String>, String> {
    SAYER.round(rng, program, |input| stats.fines.see(input))
}

/// The counts.
#[derive(Default)]
pub struct Counts {
    files: u64,
    /// Cut into single operations, into whole programs where there is something to cut,
    /// and in between.
    apart: u64,
    whole: u64,
    between: u64,
    /// Pieces that are no runs of neighbours.
    scattered: u64,
    /// With a mark, and with one that is not a program's last operation.
    marked: u64,
    marked_within: u64,
    /// Lines of several programs mixed.
    mixed: u64,
    all_ways: u64,
    refusals: Refusals,
    full: u64,
    without_operations: u64,
    comments: u64,
}

impl Counts {
    pub fn files(&self) -> u64 {
        self.files
    }

    /// Counts a file. The twin's other ways must agree.
    fn see(&mut self, input: &[u8]) -> Result<(), String> {
        let (found, all) = find(input);
        self.files += 1;
        let read: Vec<Said> = lines(input).into_iter().map(said).collect();
        let count = |like: fn(&Said) -> bool| read.iter().filter(|line| like(line)).count();
        let is_operation = |line: &Said| matches!(line, Said::Operation(_));
        let is_unknown = |line: &Said| matches!(line, Said::Operation(one) if one.is_unknown());
        let (many, unknown) = (count(is_operation) > MOST, count(is_unknown) > 0);
        self.comments += count(|line| *line == Said::Comment) as u64;
        match &found {
            Found::BadLine(_) => self.refusals.see(Why::BadLine, many, unknown),
            Found::TooMany => self.refusals.see(Why::TooMany, many, unknown),
            Found::UnknownItem => self.refusals.see(Why::UnknownItem, many, unknown),
            Found::Cut(pieces) => {
                self.see_cut(&all, pieces);
                if let Some(text) = mistake(&all, pieces) {
                    let input = String::from_utf8_lossy(input);
                    return Err(format!("the twin's own mistake: {}\n{}", text, input));
                }
            }
        }
        Ok(())
    }

    fn see_cut(&mut self, all: &[Operation], pieces: &[Vec<usize>]) {
        let programs = programs(all);
        let has_gap = |some: &Vec<usize>, within: &[usize]| {
            let places = some
                .iter()
                .map(|at| within.iter().position(|one| one == at));
            let places: Vec<usize> = places.flatten().collect();
            places.windows(2).any(|pair| pair[0] + 1 != pair[1])
        };
        let program = |some: &[usize]| programs.iter().find(|program| program.contains(&some[0]));
        let is_scattered =
            |some: &&Vec<usize>| program(some).map_or(false, |its| has_gap(some, its));
        let everything: Vec<usize> = (0..all.len()).collect();
        let (is_apart, is_whole) = (pieces.len() == all.len(), pieces.len() == programs.len());
        self.apart += u64::from(is_apart && !is_whole);
        self.whole += u64::from(is_whole && !is_apart);
        self.between += u64::from(!is_apart && !is_whole);
        self.scattered += pieces.iter().filter(is_scattered).count() as u64;
        self.marked += u64::from(all.iter().any(|operation| operation.is_marked));
        let is_within = |its: &Vec<usize>| {
            let ahead = &its[..its.len() - 1];
            ahead.iter().any(|&at| all[at].is_marked) && !all[its[its.len() - 1]].is_marked
        };
        self.marked_within += u64::from(programs.iter().any(is_within));
        self.mixed += u64::from(programs.iter().any(|its| has_gap(its, &everything)));
        self.all_ways += u64::from(!all.is_empty() && all.len() <= FEW);
        self.full += u64::from(all.len() == MOST);
        self.without_operations += u64::from(all.is_empty());
    }

    /// Each count with its name.
    pub fn each(&self) -> Vec<(&'static str, u64)> {
        let mut each = vec![
            ("cut into single operations", self.apart),
            ("not cut at all", self.whole),
            ("in between", self.between),
            ("pieces that are no runs", self.scattered),
            ("with a mark", self.marked),
            ("  and operations behind it", self.marked_within),
            ("with programs mixed", self.mixed),
            ("held against all choppings", self.all_ways),
            ("of 32 operations", self.full),
            ("without an operation", self.without_operations),
            ("comment lines", self.comments),
        ];
        each.extend(self.refusals.each("too many operations"));
        each
    }
}

/// What other ways find wrong with a cut; none if nothing is. The judge of choppings
/// accepts it, and of few operations all choppings are looked at.
fn mistake(all: &[Operation], pieces: &[Vec<usize>]) -> Option<&'static str> {
    let judged: Vec<Piece> = pieces.iter().map(|some| piece(all, some)).collect();
    if has_mixed_block(&Graph::of(&judged)) {
        return Some("the cut is refused");
    }
    match all.len() <= FEW {
        true => partitions::mistake(all, pieces),
        false => None,
    }
}

impl fmt::Display for Counts {
    fn fmt(&self, out: &mut fmt::Formatter) -> fmt::Result {
        show_files(out, "whole programs", self.files, self.each())
    }
}

/// A file: operations of some programs, then perhaps comments, odd lines and an item too
/// high.
pub fn made(rng: &mut Rng) -> Vec<u8> {
    let count = match rng.below(10) {
        0 => rng.index(3),
        1..=5 => rng.within(3, FEW as u64) as usize,
        6..=7 => rng.within(8, 31) as usize,
        8 => rng.one_of(&[MOST, MOST, MOST + 1]),
        _ => rng.within(0, 36) as usize,
    };
    let mut all = any(rng, count);
    if rng.percent(12) && !all.is_empty() {
        let at = rng.index(all.len());
        let item = rng.one_of(&["64", "65", "63", "128", "18446744073709551615", "064"]);
        all[at] = format!("P0 writes {}", item);
    }
    filed(rng, all, 20, odd)
}

/// Operations of a few programs on a few items, one program after the other or mixed.
fn any(rng: &mut Rng, count: usize) -> Vec<String> {
    let names = rng.within(1, 2 + count as u64 / 3);
    let items = rng.one_of(&[1, 2, 3, 4, 6, 12, 24, 64]);
    let writes = rng.one_of(&[10, 30, 50, 80]);
    let marks = rng.one_of(&[0, 0, 5, 20, 60]);
    let is_long = rng.percent(15);
    let mut whose: Vec<u64> = (0..count).map(|_| rng.below(names)).collect();
    if rng.percent(70) {
        whose.sort_unstable();
    }
    let mut line = |name: u64| {
        let name = match is_long {
            // Alike up to the last byte.
            true => format!("{:_>32}", name),
            false => format!("P{}", name),
        };
        let word = ["reads", "writes"][usize::from(rng.percent(writes))];
        let zeros = "0".repeat(rng.one_of(&[0, 0, 0, 0, 0, 0, 1, 300]));
        let mark = ["", " !"][usize::from(rng.percent(marks))];
        format!("{} {} {}{}{}", name, word, zeros, rng.below(items), mark)
    };
    whose.into_iter().map(&mut line).collect()
}

/// A line that is often none, made with care to be nearly one.
fn odd(rng: &mut Rng) -> Vec<u8> {
    const ODD: [&[u8]; 30] = [
        b" ",
        b"!",
        b"P0",
        b"P0 reads",
        b"P0 writes !",
        b"P0 reads 3 4",
        b"P0 reads 3 writes 4",
        b"P0 reads 3!",
        b"P0 reads 3 !!",
        b"P0 reads 3 ! !",
        b"P0 reads 3 ! 4",
        b"P0 reads ! 3",
        b"P0 ! reads 3",
        b"! reads 3",
        b"P0 reads 3 !# why",
        b"P0 reads 3 ! # why",
        b"P0 reads 3 ! ",
        b"P0 reads 3 ",
        b"P0 reads  3",
        b" P0 reads 3",
        b"P0  reads 3",
        b"P0 Reads 3",
        b"P0 reads 3x",
        b"P0 reads -3",
        b"P0 reads 18446744073709551616",
        b"P0 reads 18446744073709551615",
        b"P.0 reads 3",
        b"P0 reads 3\r",
        b"P0 reads 3 !\r",
        b"nnnnnnnnnnnnnnnnnnnnnnnnnnnnnnnnn reads 3",
    ];
    rng.one_of(&ODD).to_vec()
}

#[cfg(test)]
mod tests {
    use super::*;

    #[test]
    fn all_that_is_counted() {
        let mut counts = Counts::default();
        let mut rng = Rng::new(1);
        for _ in 0..4_000 {
            assert_eq!(counts.see(&made(&mut rng)), Ok(()));
        }
        for (name, count) in counts.each() {
            assert!(count > 0, "{}", name);
        }
    }
}
