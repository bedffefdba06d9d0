//! The comparison as a program, with a stand-in for the proved one.

use std::path::{Path, PathBuf};
use std::process::{Command, Output};

const COMPARE: &str = env!("CARGO_BIN_EXE_compare");

/// Examples lie beside the program, and `cargo test` builds them.
fn stand_in() -> PathBuf {
    Path::new(COMPARE).with_file_name("examples").join("stand_in")
}

fn compare(words: &[&str], program: Option<&str>) -> (i32, String) {
    let mut command = Command::new(COMPARE);
    command.args(words);
    if let Some(word) = program {
        command.arg("--").arg(stand_in()).arg(word);
    }
    let Output { status, stdout, .. } = command.output().unwrap();
    (status.code().unwrap(), String::from_utf8(stdout).unwrap())
}

/// The printed text: the lines set in behind the line that announces it.
fn shortest(said: &str) -> Vec<&str> {
    said.lines()
        .skip_while(|line| !line.starts_with("shortest text"))
        .skip(1)
        .map_while(|line| line.strip_prefix("  "))
        .collect()
}

#[test]
fn agreement_is_told_in_one_line() {
    let (code, said) = compare(&["--traces", "300", "--damaged", "200"], Some(""));
    assert_eq!((code, said.lines().count()), (0, 1), "{said}");
    assert!(
        said.starts_with("same: seed 1, 500 texts (300 traces, 200 damaged; 300 with machines)")
    );
    assert!(!said.contains("=0 ") && !said.contains("=0\n"), "{said}");
}

#[test]
fn a_difference_is_shrunk() {
    let (code, said) = compare(&["--seed", "9"], Some("--wrong"));
    assert_eq!(code, 1);
    assert!(said.starts_with("difference in the report: seed 9, trace "), "{said}");
    let text = shortest(&said);
    assert_eq!((text.len(), text[0]), (3, "caches=1"), "{said}");
    assert!(said.contains("  step=2 answer=misspec data=0 lcvid=0\n"), "{said}");
    assert!(said.ends_with("  step=2 answer=done data=0 lcvid=0\n"), "{said}");
}

#[test]
fn a_program_that_breaks_off_differs() {
    let (code, said) = compare(&["--seed", "9"], Some("--short"));
    assert_eq!((code, shortest(&said).len()), (1, 3), "{said}");
    assert!(said.ends_with("(here it broke off)\n"), "{said}");
}

#[test]
fn too_few_texts_are_a_failure() {
    let (code, said) = compare(&["--traces", "1", "--damaged", "0"], Some(""));
    assert_eq!(code, 1);
    assert!(said.starts_with("missing: seed 1: no text was answered "), "{said}");
}

#[test]
fn a_record_stands_in_for_the_program() {
    let path = std::env::temp_dir().join(format!("compare-test-{}", std::process::id()));
    let file = path.to_str().unwrap();
    let counts = ["--traces", "300", "--damaged", "200", "--machines", "20"];
    let (code, said) = compare(&[&counts[..], &["--record", file]].concat(), Some(""));
    assert_eq!(code, 0, "{said}");
    let again = compare(&[&counts[..], &["--against", file]].concat(), None);
    let other = compare(&["--against", file], None);
    std::fs::remove_file(&path).unwrap();
    assert_eq!(again, (0, said));
    assert_eq!(other, (2, String::new()));
}

/// Not every trace begins well; this one does.
#[test]
fn a_text_is_shown_alone() {
    let (code, said) = compare(&["--seed", "9", "--show", "trace", "6"], None);
    assert!(code == 0 && said.starts_with("caches="), "{said}");
}
