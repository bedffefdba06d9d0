//! Each refusal, its place in the order of checks, and that it changes
//! nothing.

mod common;

use common::{last, machine, report, trace};
use second::contents::{Contents, Line, State, SLOTS, WORDS};
use second::report::ReportLine;
use second::step::{Answer, Break, Kind, Refusal};
use second::Machine;

const HUGE: &str = "18446744073709551615";

#[test]
fn refusal_1_cache_count() {
    for count in [0, 5, u64::MAX] {
        assert_eq!(report(&trace(count, "A")), "step=0 answer=refused-1 data=0 lcvid=0\n");
        let (machine, answer) = Machine::make(count, [7; WORDS]);
        assert_eq!(answer, Answer::Refused(Refusal::CacheCount));
        assert_eq!(machine, Machine::make(1, [0; WORDS]).0);
    }
    for count in 1..=4 {
        assert_eq!(report(&trace(count, "A")), "step=1 answer=done data=0 lcvid=0\n");
    }
}

#[test]
fn refusal_2_unsound_machine() {
    let mut contents = Contents { caches: vec![[None; SLOTS]; 1], memory: [0; WORDS], lcvid: 0 };
    assert!(Machine::adopt(contents.clone()).is_ok());
    contents.caches[0][3] = Some(Line { state: State::E, address: 5, m: 0, h: 0, word: 1 });
    assert_eq!(Machine::adopt(contents), Err(Refusal::Unsound));
}

#[test]
fn refusal_3_cache_comes_first() {
    assert_eq!(last(&trace(2, "L2 v64 a64")), "refused-3");
    assert_eq!(last(&trace(2, "S2 v64 a64 d1")), "refused-3");
    assert_eq!(last(&trace(2, "E2 s16")), "refused-3");
    assert_eq!(last(&trace(4, &format!("L{HUGE} a1"))), "refused-3");
    assert_eq!(last(&trace(4, "L3 a1")), "value 0");
}

#[test]
fn refusal_4_address() {
    assert_eq!(last(&trace(1, "L0 v64 a64")), "refused-4");
    assert_eq!(last(&trace(1, "S0 v64 a64 d1")), "refused-4");
    assert_eq!(last(&trace(1, &format!("L0 a{HUGE}"))), "refused-4");
    assert_eq!(last(&trace(1, "L0 a63")), "value 0");
}

#[test]
fn refusal_5_slot_comes_before_10() {
    assert_eq!(last(&trace(1, "E0 s16")), "refused-5");
    assert_eq!(last(&trace(1, &format!("E0 s{HUGE}"))), "refused-5");
    assert_eq!(last(&trace(1, "E0 s15")), "refused-10");
}

#[test]
fn refusal_6_vid_comes_before_8() {
    assert_eq!(last(&trace(1, "L0 v64 a1")), "refused-6");
    assert_eq!(last(&trace(1, &format!("S0 v{HUGE} a1 d1"))), "refused-6");
    assert_eq!(last(&trace(1, "C64")), "refused-6");
    assert_eq!(last(&trace(1, &format!("C{HUGE}"))), "refused-6");
    assert_eq!(last(&trace(1, "C256")), "refused-6");
    assert_eq!(last(&trace(1, "C257")), "refused-6");
}

#[test]
fn refusal_7_committed_vid() {
    for vid in 1..=2 {
        assert_eq!(last(&trace(1, &format!("C1, C2, L0 v{vid} a1"))), "refused-7");
        assert_eq!(last(&trace(1, &format!("C1, C2, S0 v{vid} a1 d1"))), "refused-7");
    }
    assert_eq!(last(&trace(1, "C1, C2, L0 v3 a1")), "value 0");
    assert_eq!(last(&trace(1, "C1, C2, R, L0 v1 a1")), "value 0");
}

#[test]
fn refusal_8_commit_out_of_turn() {
    for vid in [0, 1, 3, 63] {
        assert_eq!(last(&trace(1, &format!("C1, C{vid}"))), "refused-8");
    }
}

#[test]
fn refusal_9_reset_with_work_open() {
    let open = trace(1, "S0 v1 a5 d10, R");
    assert_eq!(last(&open), "refused-9");
    assert_eq!(machine(&open), "c0s0:S-O a5 m0 h1 w0; c0s1:S-M a5 m1 h1 w10 | mem");
    assert_eq!(last(&trace(1, "L0 v2 a5, C1, R")), "refused-9");
    assert_eq!(last(&trace(1, "L0 v2 a5, C1, C2, R")), "done");
    assert_eq!(last(&trace(1, "S0 v1 a5 d10, A, R")), "done");
}

#[test]
fn refusal_10_evicting_nothing() {
    assert_eq!(last(&trace(1, "L0 a5, E0 s0")), "done");
    assert_eq!(last(&trace(1, "L0 a5, E0 s1")), "refused-10");
}

#[test]
fn refusal_11_comes_after_misspeculation() {
    let full: String = (10..26).map(|address| format!("L1 a{address},")).collect();
    let no_room = trace(2, &format!("{full} S0 v1 a5 d10, S1 v2 a5 d20"));
    assert_eq!(last(&no_room), "refused-11");
    assert!(machine(&no_room).contains("S-M a5 m1 h1 w10"), "the owner isn't closed");
    let conflict = trace(2, &format!("{full} S0 v2 a5 d10, S1 v1 a5 d20"));
    assert_eq!(last(&conflict), "misspec");
    assert_eq!(last(&trace(2, &format!("{full} S1 a5 d20"))), "refused-11");
}

#[test]
fn refusal_12_stops_the_run_and_keeps_lcvid() {
    let text = format!("{}op=load\n{}", trace(1, "C1, C5"), &trace(1, "C2")[9..]);
    let expected = "step=1 answer=done data=0 lcvid=1\n\
                    step=2 answer=refused-8 data=0 lcvid=1\n\
                    step=3 answer=refused-12a data=0 lcvid=1 col=8\n";
    assert_eq!(report(&text), expected);
}

#[test]
fn refusal_12_has_a_letter_for_each_kind() {
    let kinds = [Kind::WrongKey, Kind::BadNumber, Kind::TooLarge, Kind::NotZero, Kind::NoLineEnd];
    for (kind, letter) in kinds.into_iter().zip('a'..='e') {
        let answer = Answer::Refused(Refusal::Unreadable(Break { kind, column: 7 }));
        assert_eq!(answer.to_string(), format!("refused-12{letter}"));
        let line = ReportLine { number: 3, answer, lcvid: 2 };
        let expected = format!("step=3 answer=refused-12{letter} data=0 lcvid=2 col=7");
        assert_eq!(line.to_string(), expected);
    }
}

#[test]
fn refusal_13_leaves_the_buffer() {
    let line = ReportLine { number: 2, answer: Answer::Value(10), lcvid: 0 };
    let written = b"step=2 answer=value data=10 lcvid=0\n";
    let mut buffer = [b'.'; 40];
    assert_eq!(line.write_at(&mut buffer, 3), Ok(3 + written.len()));
    assert_eq!(&buffer[..3], b"...");
    assert_eq!(&buffer[3..39], written);
    assert_eq!(&buffer[39..], b".");
    assert_eq!(line.write_at(&mut buffer, 4), Ok(40));
    for place in [5, 40, 41, usize::MAX] {
        let before = buffer;
        assert_eq!(line.write_at(&mut buffer, place), Err(Refusal::ReportDoesNotFit));
        assert_eq!(buffer, before);
    }
}

/// The column belongs to the line, so it needs its room too.
#[test]
fn refusal_13_counts_the_column_in() {
    let broken = Break { kind: Kind::BadNumber, column: 21 };
    let answer = Answer::Refused(Refusal::Unreadable(broken));
    let line = ReportLine { number: 1, answer, lcvid: 0 };
    let written = b"step=1 answer=refused-12b data=0 lcvid=0 col=21\n";
    let mut buffer = [b'.'; 49];
    assert_eq!(line.write_at(&mut buffer, 2), Err(Refusal::ReportDoesNotFit));
    assert_eq!(buffer, [b'.'; 49]);
    assert_eq!(line.write_at(&mut buffer, 1), Ok(49));
    assert_eq!(&buffer[1..], written);
}

#[test]
fn refusal_14_is_one_line_whatever_the_text_holds() {
    let unreadable = "x".repeat(65_537);
    let five_caches = trace(5, &"A,".repeat(2_000));
    for text in [unreadable, five_caches] {
        assert_eq!(report(&text), "step=0 answer=refused-14 data=0 lcvid=0\n");
    }
}
