//! Lines that are no calls, or calls in an unusual dress, made from a call that
//! would have an effect if the line were read too kindly.

use crate::keeper::Call;
use crate::rng::Rng;
use crate::script::{self, LINE_BYTES};

/// The kinds of odd lines by name, and how each is made.
pub const KINDS: [(&str, Spoil); 36] = [
    ("empty", |_, _| Vec::new()),
    ("tab for space", |rng, line| swap_space(rng, line, b"\t")),
    ("tab at end", |_, line| [line, b"\t"].concat()),
    ("CR at end", |_, line| [line, b"\r"].concat()),
    ("CR inside", |rng, line| insert(rng, line, b"\r")),
    ("double space", |rng, line| swap_space(rng, line, b"  ")),
    ("leading space", |_, line| [b" ", line].concat()),
    ("trailing space", |_, line| [line, b" "].concat()),
    ("only spaces", |rng, _| {
        vec![b' '; rng.within(1, 82) as usize]
    }),
    ("plus sign", |rng, line| swap_space(rng, line, b" +")),
    ("minus sign", |rng, line| swap_space(rng, line, b" -")),
    ("upper case word", |_, line| line.to_ascii_uppercase()),
    ("upper case letter", upper_letter),
    ("number too large", number_too_large),
    ("number wraps", number_wraps),
    ("largest number", |rng, line| {
        change_number(rng, line, |_, _| b"18446744073709551615".to_vec())
    }),
    ("leading zeros", |rng, line| {
        change_number(rng, line, zeros_before)
    }),
    ("79 bytes", |rng, line| padded(rng, line, LINE_BYTES - 1)),
    ("80 bytes", |rng, line| padded(rng, line, LINE_BYTES)),
    ("81 bytes", |rng, line| padded(rng, line, LINE_BYTES + 1)),
    ("82 bytes", |rng, line| padded(rng, line, LINE_BYTES + 2)),
    ("200 bytes", |rng, line| padded(rng, line, 200)),
    ("thousands of bytes", |rng, line| {
        let length = rng.within(1000, 9000) as usize;
        padded(rng, line, length)
    }),
    ("call behind byte 80", call_behind),
    ("NUL", |rng, line| insert(rng, line, b"\0")),
    ("NUL at end", |_, line| [line, b"\0"].concat()),
    ("0xFF", |rng, line| insert(rng, line, b"\xff")),
    ("word with suffix", word_with_suffix),
    ("word cut short", |_, line| {
        let word = line
            .iter()
            .position(|&byte| byte == b' ')
            .unwrap_or(line.len());
        [&line[..word - 1], &line[word..]].concat()
    }),
    ("another word", another_word),
    ("missing number", |_, line| {
        match line.iter().rposition(|&byte| byte == b' ') {
            Some(space) => line[..space].to_vec(),
            None => b"read 1".to_vec(),
        }
    }),
    ("extra number", |rng, line| {
        let extra = format!(" {}", rng.below(3));
        [line, extra.as_bytes()].concat()
    }),
    ("no digit", |rng, line| change_number(rng, line, no_digit)),
    ("one byte changed", one_byte_changed),
    ("two calls on a line", |rng, line| {
        let between = rng.one_of(&[
            &b" "[..],
            b"",
            b"\r",
            b";",
            b"\0",
            b"\x0b",
            b"\x0c",
            b"\xc2\x85",
        ]);
        [line, between, line].concat()
    }),
    ("random bytes", |rng, _| {
        let length = rng.below(100);
        let bytes = (0..length).map(|_| rng.next_word() as u8);
        bytes.filter(|&byte| byte != b'\n').collect()
    }),
];

/// Makes an odd line of a call's line.
pub type Spoil = fn(&mut Rng, &[u8]) -> Vec<u8>;

/// An odd line of a random kind, and the kind's place in the list.
pub fn spoil(rng: &mut Rng, call: Call) -> (usize, Vec<u8>) {
    let mut line = Vec::new();
    script::push_call(&mut line, call);
    let kind = rng.index(KINDS.len());
    let mut odd = KINDS[kind].1(rng, &line);
    odd.retain(|&byte| byte != b'\n');
    (kind, odd)
}

pub(super) fn insert(rng: &mut Rng, line: &[u8], bytes: &[u8]) -> Vec<u8> {
    let at = rng.index(line.len() + 1);
    [&line[..at], bytes, &line[at..]].concat()
}

/// Puts something in place of one of the spaces, or else at the end.
pub(super) fn swap_space(rng: &mut Rng, line: &[u8], bytes: &[u8]) -> Vec<u8> {
    let spaces: Vec<usize> = (0..line.len()).filter(|&at| line[at] == b' ').collect();
    match rng.pick(&spaces) {
        Some(at) => [&line[..at], bytes, &line[at + 1..]].concat(),
        None => [line, bytes].concat(),
    }
}

/// Puts something in place of one of the numbers; a line without any gets one.
pub(super) fn change_number(
    rng: &mut Rng,
    line: &[u8],
    other: fn(&mut Rng, &[u8]) -> Vec<u8>,
) -> Vec<u8> {
    let mut parts: Vec<Vec<u8>> = line
        .split(|&byte| byte == b' ')
        .map(<[u8]>::to_vec)
        .collect();
    if parts.len() == 1 {
        parts.push(b"1".to_vec());
    }
    let at = 1 + rng.index(parts.len() - 1);
    parts[at] = other(rng, &parts[at]);
    parts.join(&b' ')
}

pub(super) fn zeros_before(rng: &mut Rng, number: &[u8]) -> Vec<u8> {
    let zeros = rng.within(1, 40) as usize;
    [&vec![b'0'; zeros][..], number].concat()
}

/// Zeros before one of the numbers give the line this length; without numbers
/// something else does.
fn padded(rng: &mut Rng, line: &[u8], length: usize) -> Vec<u8> {
    let missing = length.saturating_sub(line.len());
    let spaces: Vec<usize> = (0..line.len()).filter(|&at| line[at] == b' ').collect();
    match rng.pick(&spaces) {
        Some(space) => [&line[..=space], &vec![b'0'; missing], &line[space + 1..]].concat(),
        None => {
            let fill = rng.one_of(b" 0x\0\r");
            [line, &vec![fill; missing]].concat()
        }
    }
}

/// A bad line whose rest, behind the 79th to 82nd byte, would be a call.
fn call_behind(rng: &mut Rng, line: &[u8]) -> Vec<u8> {
    let length = LINE_BYTES - 1 + rng.index(4);
    let fill = rng.one_of(b"x 0\0");
    let mut bytes = vec![fill; length];
    if rng.percent(30) {
        bytes = vec![fill; 2 * LINE_BYTES + rng.index(3)];
    }
    bytes.extend_from_slice(line);
    bytes
}

fn upper_letter(rng: &mut Rng, line: &[u8]) -> Vec<u8> {
    let letters = line.iter().take_while(|byte| byte.is_ascii_lowercase());
    let at = rng.index(letters.count());
    let mut odd = line.to_vec();
    odd[at] = odd[at].to_ascii_uppercase();
    odd
}

pub(super) fn number_too_large(rng: &mut Rng, line: &[u8]) -> Vec<u8> {
    change_number(rng, line, |rng, _| {
        let numbers: [&[u8]; 7] = [
            b"18446744073709551616",
            b"18446744073709551617",
            b"18446744073709551620",
            b"20000000000000000000",
            b"99999999999999999999",
            b"100000000000000000000",
            b"000000000018446744073709551616",
        ];
        rng.one_of(&numbers).to_vec()
    })
}

/// A number that differs from the right one by a multiple of 2 to the 64th.
pub(super) fn number_wraps(rng: &mut Rng, line: &[u8]) -> Vec<u8> {
    change_number(rng, line, |rng, number| {
        let number = crate::decimal::parse(number).unwrap_or(1);
        let turns = u128::from(rng.one_of(&[1u64, 1, 2, 5, 10, 1 << 32]));
        (u128::from(number) + (turns << 64))
            .to_string()
            .into_bytes()
    })
}

pub(super) fn no_digit(rng: &mut Rng, number: &[u8]) -> Vec<u8> {
    let odd: [&[u8]; 16] = [
        b"/",
        b":",
        b"a",
        b"0x1",
        b"1.0",
        b"1,0",
        b"1_0",
        b"1e1",
        b"'1'",
        b"\"1\"",
        b"#1",
        b"1;",
        b"\xd9\xa1",
        b"\xef\xbc\x91",
        b"\xb1",
        b"",
    ];
    let odd = rng.one_of(&odd);
    match rng.below(3) {
        0 => odd.to_vec(),
        1 => [odd, number].concat(),
        _ => [number, odd].concat(),
    }
}

fn word_with_suffix(rng: &mut Rng, line: &[u8]) -> Vec<u8> {
    let suffix = rng.one_of(&[
        &b"s"[..],
        b"e",
        b"1",
        b"0",
        b"_",
        b"-",
        b":",
        b"\0",
        b"update",
    ]);
    let word = line.iter().position(|&byte| byte == b' ');
    let word = word.unwrap_or(line.len());
    [&line[..word], suffix, &line[word..]].concat()
}

fn another_word(rng: &mut Rng, line: &[u8]) -> Vec<u8> {
    let words: [&[u8]; 12] = [
        b"begin",
        b"get",
        b"put",
        b"end",
        b"rollback",
        b"relaxed",
        b"lockpoint",
        b"bad",
        b"0",
        b"",
        b"qread",
        b"#",
    ];
    let word = rng.one_of(&words);
    let rest = line.iter().position(|&byte| byte == b' ');
    [word, &line[rest.unwrap_or(line.len())..]].concat()
}

pub(super) fn one_byte_changed(rng: &mut Rng, line: &[u8]) -> Vec<u8> {
    let mut odd = line.to_vec();
    let at = rng.index(odd.len());
    match rng.below(4) {
        0 => odd[at] = rng.next_word() as u8,
        1 => odd[at] ^= 1 << rng.below(8),
        2 => drop(odd.remove(at)),
        _ => odd.insert(at, odd[at]),
    }
    odd
}
