//! Short ways to write traces, shared by the tests.
#![allow(dead_code)]

pub mod oracle;
pub mod random;

use second::{check, play, play_showing_machine};

/// A trace of short steps: `L0 v2 a5`, `S0 v1 a5 d10`, `C1`, `A`, `R`,
/// `E0 s3`; the words after the letter are cache, VID, address or slot, data.
pub fn trace(caches: u64, steps: &str) -> String {
    let mut text = format!("caches={caches}\n");
    for step in steps.split(',').map(str::trim).filter(|step| !step.is_empty()) {
        text.push_str(&step_line(step));
    }
    text
}

fn step_line(step: &str) -> String {
    let words: Vec<&str> = step.split_whitespace().collect();
    let (op, first) = words[0].split_at(1);
    let rest = |key: char| {
        words[1..].iter().find_map(|word| word.strip_prefix(key)).unwrap_or("0").to_string()
    };
    let (v, a, s, d) = (rest('v'), rest('a'), rest('s'), rest('d'));
    match op {
        "L" => format!("op=load cache={first} vid={v} at={a} data=0\n"),
        "S" => format!("op=store cache={first} vid={v} at={a} data={d}\n"),
        "C" => format!("op=commit cache=0 vid={first} at=0 data=0\n"),
        "A" => "op=abort cache=0 vid=0 at=0 data=0\n".to_string(),
        "R" => "op=reset cache=0 vid=0 at=0 data=0\n".to_string(),
        "E" => format!("op=evict cache={first} vid=0 at={s} data=0\n"),
        _ => panic!("no such short step: {step}"),
    }
}

/// The report, after the checker has passed the same trace.
pub fn report(text: &str) -> String {
    let played = play(text.as_bytes());
    assert_eq!(check(text.as_bytes()).as_ref(), Ok(&played));
    String::from_utf8(played).unwrap()
}

/// The last step's answer and data, as `done`, `value 10`, `refused-11`.
pub fn last(text: &str) -> String {
    let report = report(text);
    let line = report.lines().last().unwrap();
    let field =
        |key: &str| line.split(' ').find_map(|word| word.strip_prefix(key)).unwrap().to_string();
    match field("answer=").as_str() {
        "value" => format!("value {}", field("data=")),
        other => other.to_string(),
    }
}

/// The machine after the last step, as shown behind its report line.
pub fn machine(text: &str) -> String {
    report(text);
    let shown = String::from_utf8(play_showing_machine(text.as_bytes())).unwrap();
    let line = shown.lines().last().unwrap();
    line.split_once(" | ").unwrap().1.to_string()
}
