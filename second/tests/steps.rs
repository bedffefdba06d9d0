//! The sentences under "Steps", each with the whole machine it leaves.

mod common;

use common::{last, machine, trace};

/// The machine the short steps leave in a machine of two caches.
fn after(steps: &str) -> String {
    machine(&trace(2, steps))
}

#[test]
fn plain_loads_share() {
    assert_eq!(after("L0 a5"), "c0s0:E a5 m0 h0 w0 | mem");
    assert_eq!(after("L0 a5, L1 a5"), "c0s0:S a5 m0 h0 w0; c1s0:S a5 m0 h0 w0 | mem");
    let owned = "c0s0:O a5 m0 h0 w7; c1s0:S a5 m0 h0 w7 | mem";
    assert_eq!(after("S0 a5 d7, L1 a5"), owned);
    assert_eq!(after("S0 a5 d7, L1 a5, L0 a5, L1 a5"), owned);
    assert_eq!(after("S0 a5 d7, L1 a5, E1 s0, L1 a5"), owned);
    let written_back = "c1s0:S a5 m0 h0 w7 | mem 5=7";
    assert_eq!(after("S0 a5 d7, L1 a5, E0 s0"), written_back);
    assert_eq!(last(&trace(2, "S0 a5 d7, L1 a5, E0 s0, L0 v1 a5")), "value 7");
}

#[test]
fn a_first_load_with_a_vid_takes_the_address_over() {
    assert_eq!(after("L0 v3 a5"), "c0s0:S-E a5 m0 h3 w0 | mem");
    assert_eq!(after("L0 a5, L1 v3 a5"), "c1s0:S-E a5 m0 h3 w0 | mem");
    assert_eq!(after("S0 a5 d7, L1 v3 a5"), "c1s0:S-M a5 m0 h3 w7 | mem");
    assert_eq!(after("S0 a5 d7, L1 a5, L1 v3 a5"), "c1s0:S-M a5 m0 h3 w7 | mem");
    let only_shared = "S0 a5 d7, L1 a5, E0 s0, L0 v3 a5";
    assert_eq!(after(only_shared), "c0s0:S-E a5 m0 h3 w7 | mem 5=7");
}

#[test]
fn a_load_from_the_owner_raises_its_h_unless_plain() {
    assert_eq!(after("L0 v3 a5, L0 v2 a5"), "c0s0:S-E a5 m0 h3 w0 | mem");
    assert_eq!(after("L0 v3 a5, L0 v4 a5"), "c0s0:S-E a5 m0 h4 w0 | mem");
    let copied = "c0s0:S-E a5 m0 h4 w0; c1s0:S-S a5 m0 h5 w0 | mem";
    assert_eq!(after("L0 v3 a5, L1 v4 a5"), copied);
    assert_eq!(after("L0 v3 a5, L1 v4 a5, L1 v2 a5"), copied, "an S-S hit");
    let wider = "c0s0:S-E a5 m0 h6 w0; c1s0:S-S a5 m0 h7 w0 | mem";
    assert_eq!(after("L0 v3 a5, L1 v4 a5, L1 v6 a5"), wider, "its S-S is replaced");
    let plain = "c0s0:S-E a5 m0 h3 w0; c1s0:S-S a5 m0 h1 w0 | mem";
    assert_eq!(after("L0 v3 a5, L1 a5"), plain);
    assert_eq!(after("L0 v3 a5, L0 a5"), "c0s0:S-E a5 m0 h3 w0 | mem");
    let settled = "c0s0:S-E a5 m0 h1 w0; c1s0:S-S a5 m0 h3 w0 | mem";
    assert_eq!(after("L0 v1 a5, C1, C2, L0 a5, L1 a5"), settled, "LCVID is above h");
}

#[test]
fn a_load_of_an_old_version_leaves_its_h() {
    let old = "c0s0:S-O a5 m0 h4 w0; c0s1:S-M a5 m4 h4 w7; c1s0:S-S a5 m0 h3 w0 | mem";
    assert_eq!(after("S0 v4 a5 d7, L1 v2 a5"), old);
    assert_eq!(last(&trace(2, "S0 v4 a5 d7, L1 v2 a5, L1 v4 a5")), "value 7");
}

#[test]
fn a_store_with_a_vid_opens_a_version() {
    let first = "c0s0:S-O a5 m0 h2 w7; c0s1:S-M a5 m2 h2 w8 | mem";
    assert_eq!(after("S0 a5 d7, S0 v2 a5 d8"), first, "the asker's own M drops first");
    let moved = "c0s0:S-O a5 m0 h2 w7; c1s0:S-M a5 m2 h2 w9 | mem";
    assert_eq!(after("S0 a5 d7, S0 v2 a5 d8, S1 v2 a5 d9"), moved, "a = m");
    let shifted = "c0s0:S-M a5 m2 h2 w9; c0s1:S-O a5 m0 h2 w0 | mem";
    assert_eq!(
        after("L0 a1, S0 v2 a5 d8, E0 s0, S0 v2 a5 d9"),
        shifted,
        "lowest, not its old slot"
    );
    let second = "c0s0:S-O a5 m0 h2 w7; c0s1:S-O a5 m2 h3 w8; c1s0:S-M a5 m3 h3 w9 | mem";
    assert_eq!(after("S0 a5 d7, S0 v2 a5 d8, S1 v3 a5 d9"), second, "a > m");
    let from_clean = "c0s0:S-O a5 m0 h2 w0; c1s0:S-M a5 m2 h2 w9 | mem";
    assert_eq!(after("L0 v2 a5, S1 v2 a5 d9"), from_clean);
    let copies_kept = "S0 v2 a5 d8, L1 v1 a5, S0 v3 a5 d9";
    assert!(after(copies_kept).contains("c1s0:S-S a5 m0 h2 w0"), "S-S of another m stay");
}

#[test]
fn a_store_with_a_vid_misspeculates() {
    assert_eq!(last(&trace(2, "S0 v2 a5 d8, S1 v1 a5 d9")), "misspec");
    assert_eq!(last(&trace(2, "L0 v2 a5, S1 v1 a5 d9")), "misspec");
    assert_eq!(last(&trace(2, "L0 v2 a5, S1 v2 a5 d9")), "done");
    assert_eq!(after("L0 v2 a5, S1 v1 a5 d9"), "c0s0:E a5 m0 h0 w0 | mem");
    assert_eq!(after("S0 a5 d7, S0 v2 a5 d8, S1 v1 a5 d9"), "c0s0:M a5 m0 h0 w7 | mem");
}

#[test]
fn a_plain_store_waits_for_the_readers() {
    assert_eq!(after("L0 a5, S1 a5 d7"), "c1s0:M a5 m0 h0 w7 | mem");
    assert_eq!(last(&trace(2, "L0 v1 a5, S1 a5 d7")), "misspec");
    assert_eq!(last(&trace(2, "S0 v1 a5 d8, S1 a5 d7")), "misspec");
    assert_eq!(after("L0 v1 a5, C1, S1 a5 d7"), "c1s0:M a5 m0 h0 w7 | mem");
    let dead_drop_too = "S0 v1 a5 d8, L1 a5, C1, S1 a5 d7";
    assert_eq!(after(dead_drop_too), "c1s0:M a5 m0 h0 w7 | mem");
}

#[test]
fn an_abort_inside_a_step_reaches_every_address() {
    let steps = "S0 a1 d1, S0 v1 a2 d2, L1 v1 a3, L1 a4, S0 v2 a5 d5, S1 v1 a5 d6";
    assert_eq!(last(&trace(2, steps)), "misspec");
    let left = "c0s0:M a1 m0 h0 w1; c0s1:M a2 m0 h0 w0; c0s3:M a5 m0 h0 w0; \
                c1s0:E a3 m0 h0 w0; c1s1:E a4 m0 h0 w0 | mem";
    assert_eq!(after(steps), left);
}

#[test]
fn a_reset_settles_and_begins_anew() {
    let steps = "S0 v1 a5 d7, L1 v1 a5, L1 v1 a6, S1 a7 d9, C1, R";
    let left = "c0s1:M a5 m0 h0 w7; c1s1:E a6 m0 h0 w0; c1s2:M a7 m0 h0 w9 | mem";
    assert_eq!(after(steps), left);
    assert_eq!(last(&trace(2, &format!("{steps}, S1 v1 a5 d8"))), "done");
}

#[test]
fn evictions() {
    assert_eq!(after("S0 a5 d7, E0 s0"), "| mem 5=7");
    let copy = "c0s0:S-E a5 m0 h1 w0 | mem";
    assert_eq!(after("L0 v1 a5, L1 v1 a5, E1 s0"), copy, "a live S-S just goes");
    assert_eq!(last(&trace(2, "S0 v1 a5 d7, E0 s0")), "overflow");
    assert_eq!(after("S0 v1 a5 d7, E0 s0"), "c0s0:M a5 m0 h0 w0 | mem");
    let dead = "c0s1:S-M a5 m1 h1 w7 | mem";
    assert_eq!(after("S0 v1 a5 d7, C1, E0 s0"), dead, "a dead S-O just goes");
    let settled = "S0 v1 a5 d7, C1, L1 a5, L1 v2 a6, E0 s1";
    assert_eq!(after(settled), "c0s0:S-O a5 m0 h1 w0; c1s1:S-E a6 m0 h2 w0 | mem 5=7");
    let clean = "L0 v1 a5, L1 v1 a5, C1, L1 a5, E0 s0";
    assert_eq!(last(&trace(2, clean)), "done");
    assert!(!after(clean).contains("a5"), "its copy drops, memory has the word");
}

#[test]
fn dead_lines_are_free_slots_but_stay_until_used() {
    let dead = "S0 v1 a5 d7, C1";
    assert!(after(dead).starts_with("c0s0:S-O a5 m0 h1 w0"));
    let reused = "c0s0:E a6 m0 h0 w0; c0s1:S-M a5 m1 h1 w7 | mem";
    assert_eq!(after(&format!("{dead}, L0 a6")), reused);
}
