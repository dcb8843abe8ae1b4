//! Lines that are no cases, or cases in an unusual dress, made from a case's
//! line.

use super::spoil::{
    change_number, insert, no_digit, number_too_large, number_wraps, one_byte_changed, swap_space,
    zeros_before, Spoil,
};
use crate::protocol::Case;
use crate::rng::Rng;

/// The kinds of odd lines by name, and how each is made.
pub const KINDS: [(&str, Spoil); 19] = [
    ("empty", |_, _| Vec::new()),
    ("another kind", another_kind),
    ("a length changed", length_changed),
    ("a word too few", |_, line| {
        let last = line.iter().rposition(|&byte| byte == b' ');
        line[..last.unwrap_or(0)].to_vec()
    }),
    ("a word too many", |rng, line| {
        let extra = format!(" {}", rng.below(3));
        [line, extra.as_bytes()].concat()
    }),
    ("only the call", |_, line| numbers(line)[..4].join(&b' ')),
    ("double space", |rng, line| swap_space(rng, line, b"  ")),
    ("leading space", |_, line| [b" ", line].concat()),
    ("trailing space", |_, line| [line, b" "].concat()),
    ("tab for space", |rng, line| swap_space(rng, line, b"\t")),
    ("CR at end", |_, line| [line, b"\r"].concat()),
    ("minus sign", |rng, line| swap_space(rng, line, b" -")),
    ("NUL", |rng, line| insert(rng, line, b"\0")),
    ("number too large", number_too_large),
    ("number wraps", number_wraps),
    ("no digit", |rng, line| change_number(rng, line, no_digit)),
    ("leading zeros", |rng, line| {
        change_number(rng, line, zeros_before)
    }),
    ("one byte changed", one_byte_changed),
    ("two cases on a line", |rng, line| {
        let between = rng.one_of(&[&b" "[..], b"", b"\r", b";", b"\0"]);
        [line, between, line].concat()
    }),
];

/// An odd line of a random kind, and the kind's place in the list.
pub fn odd_case(rng: &mut Rng, case: &Case) -> (usize, Vec<u8>) {
    let mut line = Vec::new();
    case.push(&mut line);
    line.pop();
    let kind = rng.index(KINDS.len());
    let mut odd = KINDS[kind].1(rng, &line);
    odd.retain(|&byte| byte != b'\n');
    (kind, odd)
}

fn numbers(line: &[u8]) -> Vec<&[u8]> {
    line.split(|&byte| byte == b' ').collect()
}

fn another_kind(rng: &mut Rng, line: &[u8]) -> Vec<u8> {
    let kind = match rng.below(3) {
        0 => 0,
        1 => 8,
        _ => rng.odd_word().max(8),
    };
    let kind = kind.to_string();
    let mut numbers = numbers(line);
    numbers[0] = kind.as_bytes();
    numbers.join(&b' ')
}

/// One of the three lengths is not the number of words that follow for it.
fn length_changed(rng: &mut Rng, line: &[u8]) -> Vec<u8> {
    let mut numbers = numbers(line);
    let at = 4 + rng.index(3);
    let length = crate::decimal::parse(numbers[at]).unwrap_or(0);
    let other = match rng.below(4) {
        0 => length + 1,
        1 => length.wrapping_sub(1),
        2 => length + 8,
        _ => rng.odd_word(),
    };
    let other = other.to_string();
    numbers[at] = other.as_bytes();
    numbers.join(&b' ')
}
