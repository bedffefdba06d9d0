//! The exact trace and report of document 01, its "Also run" and its "Easy to
//! get wrong".

mod common;

use common::{last, machine, report, trace};
use second::play_showing_machine;

const TRACE: &str = "\
caches=2
op=store cache=0 vid=1 at=5 data=10
op=load cache=1 vid=2 at=5 data=0
op=load cache=1 vid=0 at=5 data=0
op=commit cache=0 vid=1 at=0 data=0
op=load cache=1 vid=0 at=5 data=0
op=store cache=0 vid=2 at=5 data=20
op=load cache=0 vid=3 at=5 data=0
op=store cache=1 vid=2 at=5 data=21
op=load cache=1 vid=0 at=5 data=0
op=commit cache=0 vid=3 at=0 data=0
";

const REPORT: &str = "\
step=1 answer=done data=0 lcvid=0
step=2 answer=value data=10 lcvid=0
step=3 answer=value data=0 lcvid=0
step=4 answer=done data=0 lcvid=1
step=5 answer=value data=10 lcvid=1
step=6 answer=done data=0 lcvid=1
step=7 answer=value data=20 lcvid=1
step=8 answer=misspec data=0 lcvid=1
step=9 answer=value data=10 lcvid=1
step=10 answer=refused-8 data=0 lcvid=1
";

/// Worked out by hand from the sentences of document 01.
const MACHINES: [&str; 10] = [
    "c0s0:S-O a5 m0 h1 w0; c0s1:S-M a5 m1 h1 w10 | mem",
    "c0s0:S-O a5 m0 h1 w0; c0s1:S-M a5 m1 h2 w10; c1s0:S-S a5 m1 h3 w10 | mem",
    "c0s0:S-O a5 m0 h1 w0; c0s1:S-M a5 m1 h2 w10; c1s0:S-S a5 m1 h3 w10; \
     c1s1:S-S a5 m0 h1 w0 | mem",
    "c0s0:S-O a5 m0 h1 w0; c0s1:S-M a5 m1 h2 w10; c1s0:S-S a5 m1 h3 w10; \
     c1s1:S-S a5 m0 h1 w0 | mem",
    "c0s0:S-O a5 m0 h1 w0; c0s1:S-M a5 m1 h2 w10; c1s0:S-S a5 m1 h3 w10; \
     c1s1:S-S a5 m0 h1 w0 | mem",
    "c0s0:S-M a5 m2 h2 w20; c0s1:S-O a5 m1 h2 w10; c1s1:S-S a5 m0 h1 w0 | mem",
    "c0s0:S-M a5 m2 h3 w20; c0s1:S-O a5 m1 h2 w10; c1s1:S-S a5 m0 h1 w0 | mem",
    "c0s1:M a5 m0 h0 w10 | mem",
    "c0s1:O a5 m0 h0 w10; c1s0:S a5 m0 h0 w10 | mem",
    "c0s1:O a5 m0 h0 w10; c1s0:S a5 m0 h0 w10 | mem",
];

#[test]
fn the_report_is_exact() {
    assert_eq!(report(TRACE), REPORT);
}

#[test]
fn the_machine_behind_each_line_is_the_one_worked_out_by_hand() {
    let shown = String::from_utf8(play_showing_machine(TRACE.as_bytes())).unwrap();
    let expected: String = REPORT
        .lines()
        .zip(MACHINES)
        .map(|(line, machine)| format!("{line} | {machine}\n"))
        .collect();
    assert_eq!(shown, expected);
}

#[test]
fn vid_63_is_the_last() {
    assert_eq!(last(&trace(1, "L0 v63 a5")), "value 0");
    assert_eq!(last(&trace(1, "S0 v63 a5 d1")), "done");
    assert_eq!(last(&trace(1, "L0 v64 a5")), "refused-6");
    assert_eq!(last(&trace(1, "S0 v64 a5 d1")), "refused-6");
    let copied = trace(2, "S0 v63 a5 d1, L1 v63 a5");
    assert_eq!(last(&copied), "value 1");
    assert!(machine(&copied).contains("c1s0:S-S a5 m63 h64 w1"), "h reaches 64");
}

#[test]
fn commits_run_to_63() {
    let all: String = (1..=63).map(|vid| format!("C{vid},")).collect();
    assert!(report(&trace(1, &all)).ends_with("step=63 answer=done data=0 lcvid=63\n"));
    assert_eq!(last(&trace(1, &format!("{all} C64"))), "refused-6");
    assert_eq!(last(&trace(1, &format!("{all} C63"))), "refused-8");
    assert_eq!(last(&trace(1, &format!("{all} L0 v63 a1"))), "refused-7");
    let copied = trace(2, &format!("S0 v63 a5 d1, {all} L1 a5"));
    assert_eq!(last(&copied), "value 1");
    assert!(machine(&copied).contains("c1s0:S-S a5 m63 h64 w1"));
}

#[test]
fn commit_0_is_out_of_turn() {
    assert_eq!(last(&trace(1, "C0")), "refused-8");
    assert_eq!(last(&trace(1, "C1, C0")), "refused-8");
}

/// Plain lines of the addresses from 10 on, filling cache 0.
fn filled(lines: u64) -> String {
    (10..10 + lines).map(|address| format!("L0 a{address},")).collect()
}

#[test]
fn a_store_needs_two_slots() {
    let one_free = filled(15);
    assert_eq!(last(&trace(1, &format!("{one_free} S0 v1 a5 d1"))), "refused-11");
    assert!(!machine(&trace(1, &format!("{one_free} S0 v1 a5 d1"))).contains("a5"));
    assert_eq!(last(&trace(1, &format!("{} S0 v1 a5 d1", filled(14)))), "done");
    assert_eq!(last(&trace(1, &format!("{one_free} S0 a5 d1"))), "done");
    let own_line_drops = format!("{one_free} L0 a5, E0 s3, S0 v1 a5 d1");
    assert_eq!(last(&trace(1, &own_line_drops)), "done");
}

#[test]
fn a_load_into_a_full_cache() {
    let full = filled(16);
    assert_eq!(last(&trace(1, &format!("{full} L0 a5"))), "refused-11");
    assert_eq!(last(&trace(1, &format!("{full} L0 v1 a5"))), "refused-11");
    assert_eq!(last(&trace(1, &format!("{full} L0 a12"))), "value 0");
    assert_eq!(last(&trace(1, &format!("{full} L0 v1 a12"))), "value 0", "its own line drops");
    let elsewhere = trace(2, &format!("S1 a5 d7, {full} L0 a5"));
    assert_eq!(last(&elsewhere), "refused-11");
    assert!(machine(&elsewhere).contains("c1s0:M a5"), "M elsewhere stays M");
    let owned = trace(2, &format!("S1 v1 a5 d7, {full} L0 v2 a5"));
    assert_eq!(last(&owned), "refused-11");
    assert!(machine(&owned).contains("S-M a5 m1 h1 w7"), "the owner's h stays");
}

#[test]
fn evicting_s_m_at_lcvid_and_one_above() {
    let equal = trace(1, "S0 v1 a5 d10, C1, E0 s1");
    assert_eq!(last(&equal), "done");
    assert_eq!(machine(&equal), "c0s0:S-O a5 m0 h1 w0 | mem 5=10");
    let above = trace(1, "S0 v1 a5 d10, L0 v2 a5, C1, E0 s1");
    assert_eq!(last(&above), "overflow");
    assert_eq!(machine(&above), "c0s1:M a5 m0 h0 w10 | mem");
}

/// "Treating a settled S-M as clean at eviction. Its word is lost."
#[test]
fn a_settled_s_m_is_written_back() {
    assert_eq!(last(&trace(1, "S0 v1 a5 d10, C1, E0 s1, L0 a5")), "value 10");
}

/// "Letting a store past when a = m but h > a: a later transaction has read
/// the word."
#[test]
fn a_store_to_its_own_version_misspeculates_once_read_later() {
    assert_eq!(last(&trace(2, "S0 v1 a5 d10, S1 v1 a5 d11")), "done");
    assert_eq!(last(&trace(2, "S0 v1 a5 d10, L1 v1 a5, S0 v1 a5 d11")), "done");
    assert_eq!(last(&trace(2, "S0 v1 a5 d10, L1 v2 a5, S0 v1 a5 d11")), "misspec");
}

/// "Leaving S-S lines in place on a store: a later load with the same VID
/// reads the old word."
#[test]
fn a_store_drops_the_copies() {
    let same = trace(2, "S0 v2 a5 d10, L1 v2 a5, S0 v2 a5 d11, L1 v2 a5");
    assert_eq!(last(&same), "value 11");
    let later = trace(2, "S0 v1 a5 d10, L1 v2 a5, S0 v2 a5 d11, L1 v2 a5");
    assert_eq!(last(&later), "value 11");
}

/// "With S-O (0, 2), S-O (2, 5), S-M (5, 7) and LCVID 3, only S-O (2, 5)
/// survives, as M."
#[test]
fn an_abort_keeps_the_version_lcvid_hits() {
    let steps = "S0 v2 a5 d20, S0 v5 a5 d50, L0 v7 a5, C1, C2, C3";
    let before = "c0s0:S-O a5 m0 h2 w0; c0s1:S-O a5 m2 h5 w20; c0s2:S-M a5 m5 h7 w50 | mem";
    assert_eq!(machine(&trace(1, steps)), before);
    let aborted = trace(1, &format!("{steps}, A"));
    assert_eq!(last(&aborted), "done");
    assert_eq!(machine(&aborted), "c0s1:M a5 m0 h0 w20 | mem");
}
