use super::*;
use crate::tally::Tally;
use second::trace::MOST_BYTES;
use std::collections::BTreeSet;

const SEED: u64 = 5;

fn traces(count: u64) -> impl Iterator<Item = Vec<u8>> {
    (0..count).map(|index| text(SEED, Name::trace(index)))
}

fn damaged(count: u64) -> impl Iterator<Item = Vec<u8>> {
    (0..count).map(|index| text(SEED, Name::damaged(index)))
}

/// Traces keep to the limit, so one answer is left to the damaged texts.
#[test]
fn traces_alone_show_every_answer_but_14() {
    let mut tally = Tally::default();
    traces(600).for_each(|text| tally.count(&second::play(&text)));
    assert_eq!(tally.missing(), ["refused-14"]);
    damaged(200).for_each(|text| tally.count(&second::play(&text)));
    assert_eq!(tally.missing(), [""; 0]);
}

#[test]
fn a_text_is_made_again_alone() {
    for name in [Name::trace(7), Name::damaged(7)] {
        assert_eq!(text(SEED, name), text(SEED, name));
        assert_ne!(text(SEED, name), text(SEED + 1, name));
    }
    assert_ne!(text(SEED, Name::trace(7)), text(SEED, Name::damaged(7)));
}

#[test]
fn traces_keep_to_the_limit_and_some_reach_it() {
    let lengths: Vec<usize> = traces(1_000).map(|text| text.len()).collect();
    assert_eq!(lengths.iter().max(), Some(&MOST_BYTES));
}

#[test]
fn long_texts_have_the_length_asked_for() {
    for length in 65_500..65_560 {
        let mut random = Random::new(length as u64);
        assert_eq!(long::of_length(&mut random, length).len(), length);
    }
}

#[test]
fn damaged_texts_reach_past_the_limit() {
    let lengths: Vec<usize> = damaged(2_000).map(|text| text.len()).collect();
    for length in [65_535, 65_536, 65_537, 65_538, 65_539, 65_540, 70_000] {
        assert!(lengths.contains(&length), "no text of {length} bytes");
    }
}

/// Step, kind and column of the unreadable lines of damaged texts.
fn broken(count: u64) -> Vec<(u64, String, u64)> {
    let told = |text: Vec<u8>| {
        let report = String::from_utf8(second::play(&text)).unwrap();
        let fields: Vec<&str> = report.lines().last()?.split(' ').collect();
        let kind = fields[1].strip_prefix("answer=refused-12")?;
        let number = |field: &str, key| field.strip_prefix(key).unwrap().parse().unwrap();
        Some((number(fields[0], "step="), kind.to_string(), number(fields[4], "col=")))
    };
    damaged(count).filter_map(told).collect()
}

/// Where nothing is played on, damage deep in a text would never be read.
#[test]
fn damaged_texts_break_off_late_as_well_as_early() {
    let broken = broken(2_000);
    assert!(broken.iter().filter(|(step, ..)| *step <= 1).count() > 100);
    assert!(broken.iter().filter(|(step, ..)| *step > 10).count() > 100);
}

#[test]
fn every_kind_of_break_comes_up_often_and_at_many_columns() {
    let broken = broken(2_000);
    for (kind, in_first_line) in [("a", 6), ("b", 2), ("c", 2), ("d", 0), ("e", 5)] {
        let columns = |of: fn(u64) -> bool| -> Vec<u64> {
            let those = broken.iter().filter(|(step, found, _)| of(*step) && found == kind);
            those.map(|(_, _, column)| *column).collect()
        };
        let (first, later) = (columns(|step| step == 0), columns(|step| step > 0));
        let different = |columns: &[u64]| columns.iter().collect::<BTreeSet<_>>().len();
        assert!(later.len() > 100, "12{kind} came up {} times", later.len());
        assert!(different(&later) >= 8, "12{kind} came up at columns {later:?}");
        assert!(different(&first) >= in_first_line, "12{kind} at columns {first:?} of line 1");
    }
}

#[test]
fn numbers_are_found_whole() {
    assert_eq!(numbers(b"a12b3"), [(1, 3), (4, 5)]);
    assert_eq!(numbers(b"7"), [(0, 1)]);
    assert_eq!(numbers(b"none"), []);
}
