//! Wrong readings of a line.

use std::io::{self, BufRead, Write};

use crate::answer::Answer;
use crate::keeper::Call;
use crate::script::{self, LINE_BYTES};

/// A wrong reading.
#[derive(Clone, Copy, Debug, PartialEq, Eq)]
pub enum WrongLine {
    /// A byte 13 before the end is dropped.
    Crlf,
    /// Spaces before the end are dropped.
    TrailingSpace,
    /// A tab is as good as a space.
    Tab,
    /// Upper case is as good as lower case.
    UpperCase,
    /// A plus sign may stand before a number.
    Plus,
    /// A number too large is taken modulo 2 to the 64th.
    Wrap,
    /// Numbers have at most 20 digits.
    TwentyDigits,
    /// A line may have 81 bytes.
    LongLine,
    /// A line has at most 79 bytes.
    ShortLine,
    /// What follows the 80th byte is a line of its own.
    SplitLine,
    /// An empty line is passed over.
    EmptyLine,
    /// A line ends at a byte 0 too.
    Nul,
    /// A last line without its end is not read.
    LastLine,
}

impl WrongLine {
    pub const ALL: [(&'static str, WrongLine); 13] = [
        ("crlf", WrongLine::Crlf),
        ("trailing-space", WrongLine::TrailingSpace),
        ("tab", WrongLine::Tab),
        ("upper-case", WrongLine::UpperCase),
        ("plus", WrongLine::Plus),
        ("wrap", WrongLine::Wrap),
        ("twenty-digits", WrongLine::TwentyDigits),
        ("long-line", WrongLine::LongLine),
        ("short-line", WrongLine::ShortLine),
        ("split-line", WrongLine::SplitLine),
        ("empty-line", WrongLine::EmptyLine),
        ("nul", WrongLine::Nul),
        ("last-line", WrongLine::LastLine),
    ];

    /// The lines that the right reading is given in place of this one.
    fn reread(self, line: &[u8]) -> Vec<Vec<u8>> {
        let other = |keep: bool| if keep { line.to_vec() } else { b"no".to_vec() };
        let one = match self {
            WrongLine::Crlf => line.strip_suffix(b"\r").unwrap_or(line).to_vec(),
            WrongLine::TrailingSpace => {
                let spaces = line.iter().rev().take_while(|&&byte| byte == b' ').count();
                line[..line.len() - spaces].to_vec()
            }
            WrongLine::Tab => replaced(line, b'\t', b' '),
            WrongLine::UpperCase => line.to_ascii_lowercase(),
            WrongLine::Plus => replaced(line, b'+', b'0'),
            WrongLine::Wrap => with_numbers(line, |digits| {
                let add = |number: u64, byte: &u8| {
                    let shifted = number.wrapping_mul(10);
                    shifted.wrapping_add(u64::from(byte - b'0'))
                };
                digits.iter().fold(0, add).to_string().into_bytes()
            }),
            WrongLine::TwentyDigits => with_numbers(line, |digits| match digits.len() {
                0..=20 => digits.to_vec(),
                _ => b"no".to_vec(),
            }),
            WrongLine::LongLine => match line.len() {
                81 => with_numbers(line, |digits| {
                    let zeros = digits.iter().take_while(|&&byte| byte == b'0').count();
                    digits[zeros.min(digits.len() - 1)..].to_vec()
                }),
                _ => line.to_vec(),
            },
            WrongLine::ShortLine => other(line.len() < LINE_BYTES),
            WrongLine::SplitLine => {
                let parts = line.chunks(LINE_BYTES).map(|part| part.to_vec());
                return match line.len() {
                    0 => vec![Vec::new()],
                    _ => parts.collect(),
                };
            }
            WrongLine::EmptyLine => {
                return match line.len() {
                    0 => Vec::new(),
                    _ => vec![line.to_vec()],
                };
            }
            WrongLine::Nul => line
                .split(|&byte| byte == 0)
                .next()
                .unwrap_or(line)
                .to_vec(),
            WrongLine::LastLine => line.to_vec(),
        };
        vec![one]
    }
}

/// Runs a script with a wrong reading of its lines.
pub fn run<R, W, F>(kind: WrongLine, mut input: R, mut output: W, mut call: F) -> io::Result<()>
where
    R: BufRead,
    W: Write,
    F: FnMut(Call) -> Answer,
{
    let mut bytes = Vec::new();
    input.read_to_end(&mut bytes)?;
    let mut lines: Vec<&[u8]> = bytes.split(|&byte| byte == b'\n').collect();
    let last = lines.pop().unwrap_or_default();
    if !last.is_empty() && kind != WrongLine::LastLine {
        lines.push(last);
    }
    let mut out = Vec::new();
    for line in lines {
        for reread in kind.reread(line) {
            script::push_reply(&mut out, &reread, &mut call);
        }
    }
    output.write_all(&out)?;
    output.flush()
}

fn replaced(line: &[u8], from: u8, to: u8) -> Vec<u8> {
    let one = |&byte: &u8| if byte == from { to } else { byte };
    line.iter().map(one).collect()
}

/// The line with each part that is all digits put in another way.
fn with_numbers(line: &[u8], other: impl Fn(&[u8]) -> Vec<u8>) -> Vec<u8> {
    let is_number = |part: &[u8]| !part.is_empty() && part.iter().all(u8::is_ascii_digit);
    let parts: Vec<Vec<u8>> = line
        .split(|&byte| byte == b' ')
        .map(|part| {
            if is_number(part) {
                other(part)
            } else {
                part.to_vec()
            }
        })
        .collect();
    parts.join(&b' ')
}
