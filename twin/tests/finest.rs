//! Finest cuts (request E10): the examples of source document 004, and small ones.

use twin::chop::{find, judge, written, Verdict};

fn cut(input: &str) -> String {
    let (found, all) = find(input.as_bytes());
    String::from_utf8(written(&found, &all)).expect("text")
}

/// The cut of each input, which the judge of choppings accepts.
const CUTS: [(&str, &str); 9] = [
    // Purchase, section 4.3: cash is 0, and the two purchases are of the items 1 and 2.
    (
        "A reads 0 !\nA writes 1\nA writes 0\nB reads 0 !\nB writes 2\nB writes 0\n",
        "A reads 0 writes 0 # 1 3\nA writes 1 # 2\nB reads 0 writes 0 # 4 6\nB writes 2 # 5\n",
    ),
    // Of one item both stay whole: writes do not commute here.
    (
        "A reads 0 !\nA writes 1\nA writes 0\nB reads 0 !\nB writes 1\nB writes 0\n",
        "A reads 0 writes 0 1 # 1 2 3\nB reads 0 writes 0 1 # 4 5 6\n",
    ),
    // One program alone: each operation is a piece; up to the last mark they are one.
    ("A reads 0\nA writes 0\n", "A reads 0 # 1\nA writes 0 # 2\n"),
    (
        "A reads 0 !\nA writes 0\nA reads 1 !\nA reads 2\n",
        "A reads 0 1 writes 0 # 1 2 3\nA reads 2 # 4\n",
    ),
    // A chain through two programs, each whole.
    (
        "A writes 1\nA writes 2\nB writes 1\nB reads 3\nC writes 3\nC writes 2\n",
        "A writes 1 2 # 1 2\nB reads 3 writes 1 # 3 4\nC writes 2 3 # 5 6\n",
    ),
    // Its own program is no way from one block to the other.
    (
        "A writes 1\nA writes 2\nB writes 1\nC writes 2\n",
        "A writes 1 # 1\nA writes 2 # 2\nB writes 1 # 3\nC writes 2 # 4\n",
    ),
    // Mixed lines, comments and leading zeros.
    (
        "# two\nA reads 007\nB writes 7 # both\n\nA reads 1\nA reads 7\n",
        "A reads 7 # 1 4\nB writes 7 # 2\nA reads 1 # 3\n",
    ),
    ("", ""),
    ("# nothing\n\n", ""),
];

#[test]
fn cuts() {
    for (input, expected) in CUTS {
        assert_eq!(cut(input), expected, "{}", input);
        assert_eq!(judge(expected.as_bytes()), Verdict::Accepted, "{}", input);
    }
}

#[test]
fn refusals() {
    let many = |count: usize, line: &str| line.repeat(count);
    assert_eq!(cut(&many(32, "A reads 63\n")).lines().count(), 32);
    assert_eq!(cut(&many(33, "A reads 63\n")), "too many operations\n");
    assert_eq!(cut(&many(33, "A reads 64\n")), "too many operations\n");
    assert_eq!(cut("A reads 64\n"), "unknown item\n");
    assert_eq!(cut(&(many(33, "A reads 64\n") + "A\n")), "bad line 34\n");
    for line in [
        "A",
        "A reads",
        "A reads 3!",
        "A reads 3 ! !",
        "A reads 3 4",
        "! reads 3",
    ] {
        assert_eq!(
            cut(&format!("# here\n{}\n", line)),
            "bad line 2\n",
            "{}",
            line
        );
    }
}
