//! Kind and column of unreadable lines, held against an oracle that works by
//! brute force. `SECOND_TEXTS` and `SECOND_SEED` in the environment make a
//! longer or another random run.

mod common;

use common::oracle::{Oracle, Verdict};
use common::random::{damaged, setting, Random};
use second::play;
use std::collections::{BTreeMap, BTreeSet};

/// The columns at which each kind came up.
type Columns = BTreeMap<char, BTreeSet<usize>>;

/// What the last line of a report says of an unreadable line.
fn told(report: &str) -> Option<Verdict> {
    let fields: Vec<&str> = report.lines().last()?.split(' ').collect();
    let [step, answer, "data=0", _, column] = fields[..] else {
        return None;
    };
    Some(Verdict {
        step: step.strip_prefix("step=")?.parse().ok()?,
        kind: answer.strip_prefix("answer=refused-12")?.parse().ok()?,
        column: column.strip_prefix("col=")?.parse().ok()?,
    })
}

/// A refused cache count stops the run before any step is read.
fn compare(oracle: &Oracle, text: &[u8], columns: &mut Columns) {
    let report = String::from_utf8(play(text)).unwrap();
    let verdict = oracle.verdict(text);
    let shown = text.escape_ascii();
    if report.contains("answer=refused-1 ") {
        assert!(verdict.is_none_or(|verdict| verdict.step > 0), "{shown}: {verdict:?}");
        return;
    }
    assert_eq!(told(&report), verdict, "{shown}");
    assert_eq!(report.contains("refused-12"), verdict.is_some(), "{shown}");
    if let Some(Verdict { kind, column, .. }) = verdict {
        columns.entry(kind).or_default().insert(column);
    }
}

fn every_kind_came_up(columns: &Columns, at_least: usize) {
    for kind in 'a'..='e' {
        let count = columns.get(&kind).map_or(0, BTreeSet::len);
        assert!(count >= at_least, "12{kind} came up at {count} columns only");
    }
}

#[test]
fn random_damage_breaks_where_the_oracle_says() {
    let oracle = Oracle::new();
    let mut random = Random(setting("SECOND_SEED", 4));
    let mut columns = Columns::new();
    for _ in 0..setting("SECOND_TEXTS", 20_000) {
        let steps = 1 + random.below(3) as usize;
        compare(&oracle, &damaged(&mut random, steps), &mut columns);
    }
    every_kind_came_up(&columns, 10);
}

/// Every byte there is, in the place of each byte of a line and before it, and
/// the text's end at each byte.
#[test]
fn each_byte_of_a_line_breaks_where_the_oracle_says() {
    let lines: [(&[u8], &[u8]); 6] = [
        (b"", b"caches=3\n"),
        (b"", b"caches=18446744073709551615\n"),
        (b"caches=1\n", b"op=store cache=10 vid=0 at=63 data=18446744073709551615\n"),
        (b"caches=1\n", b"op=load cache=0 vid=18446744073709551609 at=5 data=0\n"),
        (b"caches=1\n", b"op=commit cache=0 vid=1 at=0 data=0\n"),
        (b"caches=1\n", b"op=evict cache=2 vid=0 at=15 data=0\n"),
    ];
    let oracle = Oracle::new();
    let mut columns = Columns::new();
    for (before, line) in lines {
        for place in 0..line.len() {
            compare(&oracle, &[before, &line[..place]].concat(), &mut columns);
            for byte in 0..=u8::MAX {
                for behind in [&line[place..], &line[place + 1..]] {
                    let text = [before, &line[..place], &[byte], behind].concat();
                    compare(&oracle, &text, &mut columns);
                }
            }
        }
    }
    every_kind_came_up(&columns, 4);
}
