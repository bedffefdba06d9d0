//! Each house rule, broken once.

use super::*;
use crate::contents::SLOTS;
use State::{SpecE, SpecM, SpecO, SpecS, E, M, O, S};

const STATES: [State; 8] = [M, O, E, S, SpecM, SpecO, SpecE, SpecS];

/// Lines of address 5 with LCVID 3 and memory word 9, each with its cache.
fn machine(lines: &[(usize, State, u8, u8, u64)]) -> Contents {
    let mut caches = vec![[None; SLOTS]; 3];
    for (slot, &(cache, state, m, h, word)) in lines.iter().enumerate() {
        caches[cache][slot] = Some(Line { state, address: 5, m, h, word });
    }
    let mut memory = [0; WORDS];
    memory[5] = 9;
    Contents { caches, memory, lcvid: 3 }
}

fn sound(lines: &[(usize, State, u8, u8, u64)]) -> bool {
    verify(&machine(lines)).is_ok()
}

#[test]
fn the_table_is_symmetric() {
    for one in STATES {
        for other in STATES {
            let there = stands_with(one).contains(&other);
            let back = stands_with(other).contains(&one);
            assert_eq!(there, back, "{one} and {other}");
        }
    }
}

#[test]
fn counts_and_numbers_have_bounds() {
    let mut none = machine(&[]);
    none.caches.clear();
    assert!(verify(&none).is_err());
    let mut five = machine(&[]);
    five.caches = vec![[None; SLOTS]; 5];
    assert!(verify(&five).is_err());
    let mut late = machine(&[]);
    late.lcvid = 64;
    assert!(verify(&late).is_err());
    let mut far = machine(&[(0, M, 0, 0, 1)]);
    far.caches[0][0] = Some(Line { state: M, address: 64, m: 0, h: 0, word: 1 });
    assert!(verify(&far).is_err());
}

#[test]
fn a_line_alone_has_bounds() {
    assert!(sound(&[(0, M, 0, 0, 1)]));
    assert!(!sound(&[(0, M, 0, 1, 1)]));
    assert!(!sound(&[(0, M, 1, 0, 1)]));
    assert!(sound(&[(0, SpecE, 0, 1, 9)]));
    assert!(!sound(&[(0, SpecE, 1, 1, 9)]));
    assert!(!sound(&[(0, SpecM, 0, 0, 1)]));
    assert!(!sound(&[(0, SpecM, 3, 2, 1)]));
    assert!(!sound(&[(0, SpecM, 0, 64, 1)]));
    assert!(!sound(&[(0, SpecO, 2, 2, 1)]));
    assert!(!sound(&[(0, SpecO, 2, 1, 1)]), "dead lines have bounds too");
    assert!(!sound(&[(0, SpecS, 2, 2, 1)]));
    assert!(!sound(&[(0, SpecM, 0, 63, 1), (1, SpecS, 0, 65, 1)]));
    assert!(sound(&[(0, SpecM, 0, 63, 1), (1, SpecS, 0, 64, 1)]));
}

#[test]
fn plain_lines_agree() {
    assert!(sound(&[(0, E, 0, 0, 9)]));
    assert!(!sound(&[(0, E, 0, 0, 1)]));
    assert!(sound(&[(0, S, 0, 0, 9), (1, S, 0, 0, 9)]));
    assert!(!sound(&[(0, S, 0, 0, 1)]));
    assert!(sound(&[(0, O, 0, 0, 1), (1, S, 0, 0, 1)]));
    assert!(!sound(&[(0, O, 0, 0, 1), (1, S, 0, 0, 9)]));
    assert!(!sound(&[(0, S, 0, 0, 9), (0, S, 0, 0, 9)]));
    assert!(!sound(&[(0, M, 0, 0, 1), (1, S, 0, 0, 1)]));
    assert!(!sound(&[(0, O, 0, 0, 1), (1, O, 0, 0, 1)]));
    assert!(!sound(&[(0, M, 0, 0, 1), (1, SpecM, 0, 1, 1)]));
}

#[test]
fn versions_form_one_chain() {
    let chain = [(0, SpecO, 2, 5, 1), (0, SpecO, 5, 6, 2), (0, SpecM, 6, 6, 3)];
    assert!(sound(&chain));
    assert!(!sound(&chain[..2]), "no newest version");
    assert!(!sound(&chain[1..]), "lowest m above LCVID");
    assert!(!sound(&[chain[0], chain[2]]), "a gap");
    assert!(!sound(&[(0, SpecE, 0, 5, 1)]), "S-E unlike memory");
    assert!(!sound(&[(0, SpecM, 0, 5, 1), (1, SpecM, 0, 5, 1)]));
    assert!(!sound(&[(0, SpecM, 0, 5, 1), (1, SpecE, 0, 5, 9)]));
    assert!(!sound(&[(0, SpecO, 0, 5, 9), (1, SpecE, 0, 5, 9)]));
    let dead_beside_plain = [(0, SpecO, 0, 3, 1), (1, SpecS, 1, 2, 2), (2, M, 0, 0, 3)];
    assert!(sound(&dead_beside_plain), "dead lines are left out");
}

#[test]
fn copies_follow_their_owner() {
    let newest = (0, SpecM, 2, 5, 1);
    assert!(sound(&[newest, (1, SpecS, 2, 6, 1), (2, SpecS, 2, 4, 1)]));
    assert!(!sound(&[newest, (1, SpecS, 2, 7, 1)]), "h too high");
    assert!(!sound(&[newest, (1, SpecS, 2, 6, 2)]), "another word");
    assert!(!sound(&[newest, (0, SpecS, 2, 6, 1)]), "in the owner's cache");
    assert!(!sound(&[newest, (1, SpecS, 1, 6, 1)]), "no owner");
    assert!(!sound(&[newest, (1, SpecS, 2, 6, 1), (1, SpecS, 2, 5, 1)]));
    let settled = (0, SpecM, 2, 2, 1);
    assert!(sound(&[settled, (1, SpecS, 2, 4, 1)]), "LCVID + 1");
    assert!(!sound(&[settled, (1, SpecS, 2, 5, 1)]));
    let old = [(0, SpecO, 2, 5, 1), (0, SpecM, 5, 5, 2)];
    assert!(sound(&[old[0], old[1], (1, SpecS, 2, 5, 1)]));
    assert!(!sound(&[old[0], old[1], (1, SpecS, 2, 6, 1)]));
}
