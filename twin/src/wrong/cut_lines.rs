//! Lines of choppings read wrongly.

use super::WrongCut::{self, *};
use crate::chop::{lines, read, Line, Piece};

/// What is wrong about lines, as an input that is read rightly.
pub(super) fn rewritten(kind: WrongCut, input: &[u8]) -> Vec<u8> {
    let each = |change: &dyn Fn(&[u8]) -> Vec<u8>| {
        let changed: Vec<Vec<u8>> = lines(input).into_iter().map(change).collect();
        let changed: Vec<&[u8]> = changed.iter().map(|line| &line[..]).collect();
        changed[..].concat_lines()
    };
    let words = |line: &[u8]| -> Vec<Vec<u8>> {
        line.split(|&byte| byte == b' ')
            .map(<[u8]>::to_vec)
            .collect()
    };
    match kind {
        Caseless => each(&|line| {
            let mut words = words(line);
            words[0].make_ascii_lowercase();
            words.join(&b' ')
        }),
        Cut31 => each(&|line| {
            let mut words = words(line);
            if words[0].len() == 32 {
                words[0].truncate(31);
            }
            words.join(&b' ')
        }),
        Long33 => each(&|line| {
            let mut words = words(line);
            if words[0].len() == 33 {
                words[0].truncate(32);
            }
            words.join(&b' ')
        }),
        NoDash => each(
            &|line| match words(line)[0].contains(&b'-') && line[0] != b'#' {
                true => b"?".to_vec(),
                false => line.to_vec(),
            },
        ),
        Spaces => each(&|line| {
            let mut words = words(line);
            let first = words.remove(0);
            words.retain(|word| !word.is_empty());
            words.insert(0, first);
            words.join(&b' ')
        }),
        SpaceBehind => each(&|line| match line {
            [said @ .., b' '] if !said.is_empty() => said.to_vec(),
            _ => line.to_vec(),
        }),
        EmptyPart => each(&|line| {
            let mut words = words(line);
            if words.len() > 1 && [&b"reads"[..], b"writes"].contains(&&words[words.len() - 1][..])
            {
                words.pop();
            }
            words.join(&b' ')
        }),
        WritesFirst => each(&|line| {
            let words = words(line);
            let reads = words.iter().position(|word| word == b"reads");
            match (words.get(1).map(|word| &word[..]), reads) {
                (Some(b"writes"), Some(at)) => [&words[..1], &words[at..], &words[1..at]]
                    .concat()
                    .join(&b' '),
                _ => line.to_vec(),
            }
        }),
        Wraps => each(&|line| {
            let wrapped = |word: Vec<u8>| {
                let is_number = !word.is_empty() && word.iter().all(u8::is_ascii_digit);
                match is_number {
                    true => word
                        .iter()
                        .fold(0u64, |n, b| {
                            n.wrapping_mul(10).wrapping_add(u64::from(b - b'0'))
                        })
                        .to_string()
                        .into_bytes(),
                    false => word,
                }
            };
            let mut words = words(line);
            for word in words.iter_mut().skip(1) {
                *word = wrapped(word.clone());
            }
            words.join(&b' ')
        }),
        NameAlone => each(&|line| match read(line) {
            Line::Piece(piece) if piece.reads.is_empty() && piece.writes.is_empty() => {
                b"?".to_vec()
            }
            _ => line.to_vec(),
        }),
        EmptyBad => each(&|line| match line {
            b"" => b"?".to_vec(),
            _ => line.to_vec(),
        }),
        NoCommentBehind => each(&|line| match read(line) {
            Line::Piece(_) if line.contains(&b'#') => b"?".to_vec(),
            _ => line.to_vec(),
        }),
        HashAnywhere => each(&|line| match line.iter().position(|&byte| byte == b'#') {
            Some(at) if at > 0 && line[at - 1] != b' ' => line[..at].to_vec(),
            _ => line.to_vec(),
        }),
        LastUnended if !input.ends_with(b"\n") => {
            let at = input.iter().rposition(|&byte| byte == b'\n');
            input[..at.map_or(0, |at| at + 1)].to_vec()
        }
        _ => input.to_vec(),
    }
}

/// Whether a line is no comment.
pub(super) fn is_spoken(line: &[u8]) -> bool {
    read(line) != Line::Comment
}

/// The pieces of the lines that are pieces.
pub(super) fn good_pieces(input: &[u8]) -> Vec<Piece> {
    let all = lines(input).into_iter().map(read);
    all.filter_map(|line| match line {
        Line::Piece(piece) => Some(piece),
        _ => None,
    })
    .collect()
}

pub(super) trait ConcatLines {
    fn concat_lines(&self) -> Vec<u8>;
}

impl ConcatLines for [&[u8]] {
    /// Each with its byte 10.
    fn concat_lines(&self) -> Vec<u8> {
        let ended = self.iter().map(|line| [line, &b"\n"[..]].concat());
        ended.collect::<Vec<Vec<u8>>>().concat()
    }
}
