//! A case that differs, made small, and what differs in it.

use std::collections::BTreeMap;
use std::iter::repeat;
use std::time::Duration;

use super::cases::outcome;
use super::process::Other;
use super::scene::Scene;
use super::shrink::{smallest, Budget};
use crate::keeper::{Call, Keeper};
use crate::protocol::{Case, Tables};
use crate::script;
use crate::sizes::*;

/// Makes a differing case small while the difference stays: other transactions
/// are aborted, then rows and at last words go back to what they are in fresh
/// tables.
pub fn report(other: &dyn Other, case: &Case) -> String {
    let output_of = |case: &Case| {
        let mut input = Vec::new();
        case.push(&mut input);
        other.run(&input, true).map(|run| run.output)
    };
    let differs = |case: &Case| {
        let expected = [&outcome(case)[..], b"\n"].concat();
        output_of(case).map_or(false, |output| output != expected)
    };
    let mut text = String::new();
    let mut small = case.clone();
    let mut budget = Budget::new(Duration::from_secs(10));
    if differs(case) {
        let others = numbers(&case.tables);
        let left = smallest(&others, &mut budget, |some| differs(&with_live(case, some)));
        small = with_live(case, &left);
        let rows = rows_of(odd_words(&small.tables));
        let left = smallest(&rows, &mut budget, |some| {
            differs(&with_words(&small, &some.concat()))
        });
        small = with_words(&small, &left.concat());
        let words = odd_words(&small.tables);
        let left = smallest(&words, &mut budget, |some| {
            differs(&with_words(&small, some))
        });
        small = with_words(&small, &left);
    } else {
        text += "alone this case does not differ: the program is not the same each time\n";
    }
    text += &format!("smallest case found after {} tries:\n", budget.tries);
    text += &described(&small);
    let expected = outcome(&small);
    let output = output_of(&small).unwrap_or_default();
    text + &compared(
        &small,
        &expected,
        output.strip_suffix(b"\n").unwrap_or(&output),
    )
}

/// The numbers of the live transactions, if the tables are good.
fn numbers(tables: &Tables) -> Vec<u64> {
    match tables.as_keeper() {
        Some(keeper) if keeper.is_good() => {
            let live = Scene::of(&keeper);
            live.live().iter().map(|txn| txn.number).collect()
        }
        _ => Vec::new(),
    }
}

/// The case without the live transactions that are not among these.
fn with_live(case: &Case, left: &[u64]) -> Case {
    let mut case = case.clone();
    for number in numbers(&case.tables) {
        if !left.contains(&number) {
            let _ = case.tables.call(Call::Abort { number });
        }
    }
    case
}

/// The words by rows: a transaction's, or the locks and versions of an item.
fn rows_of(words: Vec<Word>) -> Vec<Vec<Word>> {
    let mut rows = BTreeMap::new();
    for word in words {
        let row = match (word.0, word.1) {
            (0, at) if at < TXN_HEAD => (0, 0),
            (0, at) => (1, (at - TXN_HEAD) / TXN_ROW),
            (1, at) => (2, at / LOCK_ROW),
            (_, at) => (2, at / VERSION_ROW),
        };
        rows.entry(row).or_insert_with(Vec::new).push(word);
    }
    rows.into_values().collect()
}

/// A word of one of the tables: which table, where, what.
type Word = (usize, usize, u64);

fn tables_of(tables: &Tables) -> [&Vec<u64>; 3] {
    [&tables.txns, &tables.locks, &tables.versions]
}

/// The words of fresh tables, and 0 behind their ends.
fn fresh_words(fresh: &Keeper) -> [impl Iterator<Item = u64> + '_; 3] {
    let tables = [&fresh.txns[..], &fresh.locks, &fresh.versions];
    tables.map(|words| words.iter().copied().chain(repeat(0)))
}

/// The words that are not as in fresh tables.
fn odd_words(tables: &Tables) -> Vec<Word> {
    let fresh = Keeper::fresh();
    let mut odd = Vec::new();
    let both = tables_of(tables).into_iter().zip(fresh_words(&fresh));
    for (table, (words, fresh)) in both.enumerate() {
        for (at, (&word, fresh)) in words.iter().zip(fresh).enumerate() {
            if word != fresh {
                odd.push((table, at, word));
            }
        }
    }
    odd
}

/// The case with only these words not as in fresh tables.
fn with_words(case: &Case, odd: &[Word]) -> Case {
    let mut case = case.clone();
    let tables = &mut case.tables;
    let tables = [&mut tables.txns, &mut tables.locks, &mut tables.versions];
    let fresh = Keeper::fresh();
    for (table, (words, fresh)) in tables.into_iter().zip(fresh_words(&fresh)).enumerate() {
        for (word, fresh) in words.iter_mut().zip(fresh) {
            *word = fresh;
        }
        for &(_, at, word) in odd.iter().filter(|(owner, _, _)| *owner == table) {
            words[at] = word;
        }
    }
    case
}

const NAMES: [&str; 3] = ["transactions", "locks", "versions"];

pub fn described(case: &Case) -> String {
    let mut line = Vec::new();
    script::push_call(&mut line, case.call);
    let lengths = tables_of(&case.tables).map(|table| table.len());
    let mut text = format!(
        "  call: {}\n  lengths: {:?}\n",
        line.escape_ascii(),
        lengths
    );
    text += "  words that are not as in fresh tables:\n";
    for (table, at, word) in odd_words(&case.tables) {
        text += &format!("    {}[{}] = {}\n", NAMES[table], at, word);
    }
    text
}

/// Two outcomes side by side: the answers, and the words in which they differ.
fn compared(case: &Case, expected: &[u8], output: &[u8]) -> String {
    let split = |bytes: &[u8]| -> Vec<String> {
        let parts = bytes.split(|&byte| byte == b' ');
        parts.map(|part| part.escape_ascii().to_string()).collect()
    };
    let (expected, output) = (split(expected), split(output));
    let head = |parts: &[String]| parts[..parts.len().min(7)].join(" ");
    let mut text = format!("  twin's answer and lengths:      {}\n", head(&expected));
    text += &format!("  program's answer and lengths:   {}\n", head(&output));
    let mut at = 7;
    for (name, words) in NAMES.iter().zip(tables_of(&case.tables)) {
        for place in 0..words.len() {
            let nothing = "(nothing)".to_string();
            let (one, other) = (&expected[at], output.get(at).unwrap_or(&nothing));
            if one != other {
                text += &format!("  {}[{}]: twin {}, program {}\n", name, place, one, other);
            }
            at += 1;
        }
    }
    text
}
