//! Seeded random runs with the checker on. `SECOND_STEPS` and `SECOND_SEED`
//! in the environment make a longer or another run.

mod common;

use common::random::{damaged, setting, trace, Random};
use second::trace::MOST_BYTES;
use second::{check, play, play_showing_machine};
use std::collections::BTreeMap;

fn count_answers(report: &str, counts: &mut BTreeMap<String, u64>) -> u64 {
    for line in report.lines() {
        let answer = line.split(' ').nth(1).unwrap().strip_prefix("answer=").unwrap();
        *counts.entry(answer.to_string()).or_default() += 1;
    }
    report.lines().count() as u64
}

#[test]
fn random_traces_pass_the_checker() {
    let wanted = setting("SECOND_STEPS", 60_000);
    let mut random = Random(setting("SECOND_SEED", 1));
    let mut counts = BTreeMap::new();
    let (mut steps, mut traces) = (0, 0);
    while steps < wanted {
        let length = [40, 200, 600, 1_200][random.below(4) as usize];
        let text = trace(&mut random, length);
        assert!(text.len() <= MOST_BYTES);
        match check(text.as_bytes()) {
            Err(fault) => panic!("{fault} in\n{text}"),
            Ok(report) => {
                assert_eq!(report, play(text.as_bytes()));
                steps += count_answers(std::str::from_utf8(&report).unwrap(), &mut counts);
            }
        }
        traces += 1;
    }
    println!("{steps} steps in {traces} traces: {counts:?}");
    for answer in ["value", "done", "misspec", "overflow"] {
        assert!(counts.contains_key(answer), "{answer} was never answered");
    }
    for number in 3..=11 {
        let answer = format!("refused-{number}");
        assert!(counts.contains_key(&answer), "{answer} was never answered");
    }
}

/// A column ends the line of a 12 and no other.
fn is_report_line(number: usize, line: &str) -> bool {
    let fields: Vec<&str> = line.split(' ').collect();
    let [step, answer, data, lcvid, column @ ..] = &fields[..] else {
        return false;
    };
    let is_column = |word: &str| {
        word.strip_prefix("col=").is_some_and(|col| col.parse::<usize>().is_ok_and(|col| col > 0))
    };
    let column_fits = match column {
        [] => !answer.starts_with("answer=refused-12"),
        [word] => answer.starts_with("answer=refused-12") && is_column(word),
        _ => false,
    };
    column_fits
        && *step == format!("step={number}")
        && answer.starts_with("answer=")
        && data.strip_prefix("data=").is_some_and(|word| word.parse::<u64>().is_ok())
        && lcvid.strip_prefix("lcvid=").is_some_and(|vid| vid.parse::<u8>().is_ok())
}

#[test]
fn damaged_texts_get_whole_reports() {
    let mut random = Random(setting("SECOND_SEED", 2));
    for _ in 0..5_000 {
        let text = damaged(&mut random, 12);
        let report = String::from_utf8(check(&text).unwrap()).unwrap();
        assert_eq!(report.as_bytes(), play(&text));
        let first = usize::from(!report.starts_with("step=0 "));
        for (place, line) in report.lines().enumerate() {
            assert!(is_report_line(first + place, line), "{line}");
            let stops = line.contains("answer=refused-12") || line.starts_with("step=0 ");
            assert!(!stops || place + 1 == report.lines().count(), "played on: {report}");
        }
    }
}

#[test]
fn the_shown_report_is_the_plain_one_with_the_machine_behind() {
    let mut random = Random(setting("SECOND_SEED", 3));
    for _ in 0..200 {
        let text = damaged(&mut random, 12);
        let shown = String::from_utf8(play_showing_machine(&text)).unwrap();
        let stripped: String =
            shown.lines().map(|line| format!("{}\n", line.split(" |").next().unwrap())).collect();
        assert_eq!(stripped.as_bytes(), play(&text));
    }
}
