//! The other switch sets without small block, at n 64: the least ratio on the sparse sets and on the dense one.
use crate::sets::Set;
use crate::times::times;
use std::fmt::Write;

pub fn told(sets: &[Set], budget: u64) -> String {
    let mut text = String::from(
        "least still/ours at n 64 by switches: 1 low degree, 2 degree three, 4 dominant edge, added up\nswitches     sparse      dense\n",
    );
    for switches in 1..=6 {
        let least = |kind: &str| {
            sets.iter()
                .filter(|set| set.n == 64 && set.name.starts_with(kind))
                .map(|set| times(set, switches, budget))
                .map(|times| times.still / times.ours)
                .fold(f64::MAX, f64::min)
        };
        writeln!(text, "{switches:>8} {:>10.2} {:>10.2}", least("sparse"), least("dense")).unwrap();
    }
    text + "\n"
}
