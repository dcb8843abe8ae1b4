//! Calls on tables set beforehand, as lines.

use std::io::Write;
use std::process::{Command, Stdio};

use twin::protocol::{push_outcome, Case, Tables};
use twin::{Call, Keeper};

fn fresh_case(call: Call) -> Case {
    Case {
        call,
        tables: Tables::from(&Keeper::fresh()),
    }
}

fn line(case: &Case) -> Vec<u8> {
    let mut line = Vec::new();
    case.push(&mut line);
    assert_eq!(line.pop(), Some(b'\n'));
    line
}

/// What `twin-tables` prints for an input, and whether it ended well.
fn answered(input: &[u8]) -> (String, bool) {
    let mut child = Command::new(env!("CARGO_BIN_EXE_twin-tables"))
        .stdin(Stdio::piped())
        .stdout(Stdio::piped())
        .stderr(Stdio::null())
        .spawn()
        .unwrap();
    child.stdin.take().unwrap().write_all(input).unwrap();
    let output = child.wait_with_output().unwrap();
    (
        String::from_utf8(output.stdout).unwrap(),
        output.status.success(),
    )
}

#[test]
fn cases_are_read_as_they_are_written() {
    for call in Call::each(u64::MAX, 64, 3) {
        let mut case = fresh_case(call);
        assert_eq!(Case::parse(&line(&case)), Some(case.clone()));
        case.tables.locks.push(u64::MAX);
        case.tables.versions.clear();
        assert_eq!(Case::parse(&line(&case)), Some(case.clone()));
    }
    let empty = Case::parse(b"1 0 0 0 0 0 0").unwrap();
    assert_eq!(line(&empty), b"1 0 0 0 0 0 0");
}

#[test]
fn what_is_no_case() {
    let lines: [&[u8]; 9] = [
        b"",
        b"1 0 0 0 0 0",
        b"0 0 0 0 0 0 0",
        b"9 0 0 0 0 0 0",
        b"1 0 0 0 1 0 0",
        b"1 0 0 0 0 0 0 0",
        b"1 0 0 0 0 0 0 ",
        b"1 0 0 0 0 0 x",
        b"1 0 0 0 18446744073709551615 0 0",
    ];
    for line in lines {
        assert_eq!(Case::parse(line), None, "{}", line.escape_ascii());
        assert_eq!(
            answered(&[line, b"\n"].concat()),
            ("bad\n".to_string(), true)
        );
    }
}

#[test]
fn the_program_answers_with_every_word() {
    let case = fresh_case(Call::Query);
    let mut after = case.tables.clone();
    let answer = after.call(case.call);
    assert_eq!(answer.words(), [0, 0, 1, 0]);
    assert_eq!(after.txns[..7], [1, 0, 1, 1, 0, 0, 0]);
    let mut expected = Vec::new();
    push_outcome(&mut expected, answer, &after);

    let short = b"3 1 2 0 1 2 3 9 8 7 6 5 4";
    let input = [&line(&case)[..], b"\n", short].concat();
    let expected = String::from_utf8(expected).unwrap() + "10 0 0 0 1 2 3 9 8 7 6 5 4\n";
    assert_eq!(answered(&input), (expected, true));
    assert_eq!(answered(b""), (String::new(), true));
}
