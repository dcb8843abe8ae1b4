//! The twin's judge at each limit.

use twin::journal::{judge, read, Journal, Verdict};
use twin::script;

const SCRIPT: &str = "update\nwrite 1 5 7\ncommit 1\nquery\nread 2 5\nupdate\nabort 3\ncommit 2";

fn sample() -> Journal {
    Journal::of_run(
        SCRIPT
            .lines()
            .filter_map(|line| script::parse(line.as_bytes())),
    )
}

#[test]
fn a_run_is_accepted_and_read_back() {
    let journal = sample();
    assert_eq!(journal.calls.len(), 8);
    assert_eq!(journal.answers[4], [0, 7, 0, 1]);
    let bytes = journal.bytes();
    assert_eq!(bytes.len(), 16 + 64 * 8);
    assert_eq!(read(&bytes), Some((journal, 0)));
    assert_eq!(judge(&bytes), Verdict::Accepted);
}

#[test]
fn the_least_files() {
    assert_eq!(judge(&[0; 16]), Verdict::Accepted);
    for short in 0..16 {
        assert_eq!(judge(&vec![0; short]), Verdict::Short, "{} bytes", short);
    }
    for long in 17..60 {
        assert_eq!(judge(&vec![0; long]), Verdict::LeftOver, "{} bytes", long);
    }
}

#[test]
fn every_cut_is_short() {
    let bytes = sample().bytes();
    for cut in 0..bytes.len() {
        assert_eq!(judge(&bytes[..cut]), Verdict::Short, "{} bytes", cut);
    }
}

#[test]
fn counts_that_differ_or_wrap() {
    let bytes = sample().bytes();
    for (at, count, verdict) in [
        (0, 9, Verdict::Unequal), // the count is read among the answers: 0
        (0, u64::MAX, Verdict::Short),
        (0, 8 | 1 << 59, Verdict::Short),
        (264, 7, Verdict::Unequal),
        (264, 9, Verdict::Short),
        (264, 8 | 1 << 59, Verdict::Short),
        (264, u64::MAX, Verdict::Short),
    ] {
        let mut bytes = bytes.clone();
        bytes[at..][..8].copy_from_slice(&u64::to_le_bytes(count));
        assert_eq!(judge(&bytes), verdict, "{} at {}", count, at);
    }
}

#[test]
fn each_field_wrong() {
    let right = sample();
    for record in 0..8 {
        for field in 0..4 {
            let at = Verdict::Wrong(record as u64 + 1);
            let mut wrong = right.clone();
            wrong.answers[record][field] += 1;
            assert_eq!(judge(&wrong.bytes()), at);
            let mut wrong = right.clone();
            wrong.calls[record][field] ^= 1 << 40;
            let found = judge(&wrong.bytes());
            // Another value may be written; it shows where it is read.
            let expected = if (record, field) == (1, 3) {
                Verdict::Wrong(5)
            } else {
                at
            };
            assert_eq!(found, expected, "call {} field {}", record, field);
        }
    }
}

/// Code 11 in a journal: right where it is due, and nowhere else.
#[test]
fn the_thirty_third_write() {
    let script: Vec<String> = (0..33).map(|item| format!("write 1 {} 7", item)).collect();
    let lines = ["update"]
        .into_iter()
        .chain(script.iter().map(|line| &line[..]));
    let right = Journal::of_run(lines.filter_map(|line| script::parse(line.as_bytes())));
    assert_eq!(right.answers[32], [0, 0, 0, 0]);
    assert_eq!(right.answers[33], [11, 0, 0, 0]);
    assert_eq!(judge(&right.bytes()), Verdict::Accepted);
    for (record, code) in [(32, 11), (33, 0), (33, 1), (33, 10), (33, 12)] {
        let mut wrong = right.clone();
        wrong.answers[record][0] = code;
        let at = Verdict::Wrong(record as u64 + 1);
        assert_eq!(judge(&wrong.bytes()), at, "{} at {}", code, record);
    }
}

/// Kind 7 in a journal, and code 12.
#[test]
fn a_settle() {
    let script = "update\nwrite 1 5 7\nsettle 1\nwrite 1 6 7\nsettle 1\ncommit 1";
    let calls = script.lines().map(|line| script::parse(line.as_bytes()));
    let right = Journal::of_run(calls.map(Option::unwrap));
    assert_eq!(right.calls[2], [7, 1, 0, 0]);
    assert_eq!(right.answers[2], [0, 0, 1, 0]);
    assert_eq!(right.answers[3], [12, 0, 0, 0]);
    assert_eq!(right.answers[4], [12, 0, 0, 0]);
    assert_eq!(right.answers[5], [0, 0, 1, 0]);
    assert_eq!(judge(&right.bytes()), Verdict::Accepted);
    for field in [2, 3] {
        let mut wrong = right.clone();
        wrong.calls[2][field] = 1;
        assert_eq!(judge(&wrong.bytes()), Verdict::Wrong(3));
    }
    // 8 is no kind, though its answer would be that of nothing at all.
    let mut wrong = right.clone();
    wrong.calls[4][0] = 8;
    assert_eq!(judge(&wrong.bytes()), Verdict::Wrong(5));
    let mut wrong = right;
    wrong.answers[5][2] = 2;
    assert_eq!(judge(&wrong.bytes()), Verdict::Wrong(6));
}

#[test]
fn points_in_their_order() {
    let mut wrong = sample();
    wrong.answers[2][0] = 3;
    assert_eq!(judge(&wrong.bytes()), Verdict::Wrong(3));
    let mut left = wrong.bytes();
    left.push(0);
    assert_eq!(judge(&left), Verdict::LeftOver);
    wrong.answers.pop();
    assert_eq!(judge(&wrong.bytes()), Verdict::Unequal);
    let mut left = wrong.bytes();
    left.push(0);
    assert_eq!(judge(&left), Verdict::Unequal);
    let bytes = wrong.bytes();
    assert_eq!(judge(&bytes[..bytes.len() - 1]), Verdict::Short);
}
