//! The runner's line language.

use twin::{script, Call, Keeper};

fn run(input: &[u8]) -> String {
    let mut keeper = Keeper::fresh();
    let mut output = Vec::new();
    script::run(input, &mut output, |call| keeper.call(call)).unwrap();
    // However the input comes in, the output is the same.
    for capacity in [1, 7, 80, 81] {
        let mut keeper = Keeper::fresh();
        let mut again = Vec::new();
        let input = std::io::BufReader::with_capacity(capacity, input);
        script::run(input, &mut again, |call| keeper.call(call)).unwrap();
        assert_eq!(again, output);
    }
    String::from_utf8(output).unwrap()
}

#[test]
fn the_run_of_the_document() {
    let input = b"update\nwrite 1 5 77\nquery\nread 2 5\ncommit 1\nread 2 5\ncommit 2\nread 2 5\n";
    let output = "0 0 1 0\n0 0 0 0\n0 0 2 0\n0 0 0 1\n0 0 1 0\n0 0 0 2\n0 3 0 2\n3 0 0 0\n";
    assert_eq!(run(input), output);
    assert_eq!(run(&input[..input.len() - 1]), output);
}

#[test]
fn ends_of_input() {
    assert_eq!(run(b""), "");
    assert_eq!(run(b"\n"), "bad\n");
    assert_eq!(run(b"\n\n"), "bad\nbad\n");
    assert_eq!(run(b"update"), "0 0 1 0\n");
    assert_eq!(run(b"update\n"), "0 0 1 0\n");
    assert_eq!(run(b"update\n\n"), "0 0 1 0\nbad\n");
    assert_eq!(run(b"\nupdate"), "bad\n0 0 1 0\n");
    assert_eq!(run(b"update\n "), "0 0 1 0\nbad\n");
}

#[test]
fn calls() {
    let number = 3;
    assert_eq!(script::parse(b"update"), Some(Call::Update));
    assert_eq!(script::parse(b"query"), Some(Call::Query));
    let read = Call::Read { number, item: 64 };
    assert_eq!(script::parse(b"read 3 64"), Some(read));
    let write = Call::Write {
        number,
        item: 0,
        value: u64::MAX,
    };
    assert_eq!(
        script::parse(b"write 3 0 18446744073709551615"),
        Some(write)
    );
    assert_eq!(
        script::parse(b"write 003 00 000018446744073709551615"),
        Some(write)
    );
    assert_eq!(script::parse(b"commit 3"), Some(Call::Commit { number }));
    assert_eq!(script::parse(b"abort 3"), Some(Call::Abort { number }));
    assert_eq!(script::parse(b"settle 3"), Some(Call::Settle { number }));
    assert_eq!(script::parse(b"settle 003"), Some(Call::Settle { number }));
}

#[test]
fn bad_lines() {
    let lines: [&[u8]; 59] = [
        b"",
        b" ",
        b"\t",
        b"\r",
        b"\0",
        b"\xff",
        b"update ",
        b" update",
        b"update\r",
        b"update\t",
        b"update\0",
        b"update 1",
        b"updates",
        b"updat",
        b"Update",
        b"UPDATE",
        b"queryupdate",
        b"query query",
        b"begin",
        b"1",
        b"read",
        b"read ",
        b"read 1",
        b"read 1 ",
        b"read  1 2",
        b"read 1  2",
        b"read\t1 2",
        b"read 1\t2",
        b"read 1 2 ",
        b"read 1 2 3",
        b"read 1 2\r",
        b"read 1 +2",
        b"read 1 -2",
        b"read -1 2",
        b"read 1 2.0",
        b"read 0x1 2",
        b"read 1 2a",
        b"read 1 :",
        b"read 1 /",
        b"read 1 \xff",
        b"read1 2",
        b"write 1 2",
        b"write 1 2 3 4",
        b"write 1 2 18446744073709551616",
        b"write 1 2 36893488147419103232",
        b"write 1 2 99999999999999999999999999999",
        b"commit",
        b"commit 1 2",
        b"abort",
        b"abort 1 ",
        b"settle",
        b"settle ",
        b"settle 1 ",
        b"settle 1 2",
        b"settled 1",
        b"Settle 1",
        b"relaxed ",
        b"relaxed 1",
        b"Relaxed",
    ];
    for line in lines {
        assert_eq!(script::parse(line), None, "{}", line.escape_ascii());
        let answers = run(&[line, b"\nupdate"].concat());
        assert_eq!(answers, "bad\n0 0 1 0\n", "{}", line.escape_ascii());
    }
}

/// `abort 1` with so many zeros that the line has this length.
fn abort_of(length: usize) -> String {
    let line = format!("abort {}1", "0".repeat(length - 7));
    assert_eq!(line.len(), length);
    line
}

#[test]
fn lengths() {
    for length in [79, 80] {
        let input = format!("update\n{}\nupdate", abort_of(length));
        assert_eq!(run(input.as_bytes()), "0 0 1 0\n0 0 0 0\n0 0 2 0\n");
    }
    for length in [81, 82, 160, 161, 200, 5000, 200_000] {
        let input = format!("update\n{}", abort_of(length));
        assert_eq!(run(input.as_bytes()), "0 0 1 0\nbad\n");
        let input = format!("{}\nupdate", input);
        assert_eq!(run(input.as_bytes()), "0 0 1 0\nbad\n0 0 2 0\n");
    }
    // What follows the 80th byte is no line of its own.
    let long = format!("{}update", "x".repeat(80));
    assert_eq!(run(long.as_bytes()), "bad\n");
}
