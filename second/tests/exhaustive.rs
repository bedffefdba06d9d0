//! Every short list of steps over one address, two caches and few VIDs, with
//! the checker on. `SECOND_DEPTH` in the environment makes the lists longer.

mod common;

use common::trace;
use second::check;

const STEPS: [&str; 20] = [
    "L0 a5",
    "L0 v1 a5",
    "L0 v2 a5",
    "L1 a5",
    "L1 v1 a5",
    "L1 v2 a5",
    "S0 a5 d10",
    "S0 v1 a5 d11",
    "S0 v2 a5 d12",
    "S1 a5 d20",
    "S1 v1 a5 d21",
    "S1 v2 a5 d22",
    "C1",
    "C2",
    "A",
    "R",
    "E0 s0",
    "E0 s1",
    "E1 s0",
    "E1 s1",
];

#[test]
fn every_short_list_passes_the_checker() {
    let depth = std::env::var("SECOND_DEPTH").map_or(3, |text| text.parse().expect("a number"));
    let lines = STEPS.map(|step| trace(2, step)["caches=2\n".len()..].to_string());
    for list in 0..STEPS.len().pow(depth) {
        let mut text = "caches=2\n".to_string();
        let mut rest = list;
        for _ in 0..depth {
            text.push_str(&lines[rest % STEPS.len()]);
            rest /= STEPS.len();
        }
        if let Err(fault) = check(text.as_bytes()) {
            panic!("{fault} in\n{text}");
        }
    }
}
