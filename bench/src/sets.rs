//! The objective sets, drawn from one seed: sparse graphs, dense ones, chains of cliques.
use model::objective::Objective;
use model::random::Random;
use model::shapes::{all_pairs, Pairs};

pub const SIZES: [usize; 4] = [8, 16, 32, 64];
/// Objectives drawn for each set.
pub const DRAWN: usize = 12;

/// Low degree, degree three and dominant edge; and the same with small block.
pub const WITHOUT_BLOCK: u32 = 7;
pub const WITH_BLOCK: u32 = 15;

pub struct Set {
    pub name: &'static str,
    pub n: usize,
    pub objectives: Vec<Objective>,
}

/// The sparse sets are named after their edges at n 64, and have as many for each decision below that.
pub fn sets() -> Vec<Set> {
    let mut all = Vec::new();
    for n in SIZES {
        all.push(set("sparse 96", n, |random| sparse(random, n, n * 3 / 2)));
        all.push(set("sparse 128", n, |random| sparse(random, n, n * 2)));
        all.push(set("sparse 192", n, |random| sparse(random, n, n * 3)));
        all.push(set("dense", n, |_| all_pairs(0, n)));
        all.push(set("cliques of 4", n, |_| cliques(n, 4)));
        all.push(set("cliques of 8", n, |_| cliques(n, 8)));
    }
    all
}

fn set(name: &'static str, n: usize, pairs: impl Fn(&mut Random) -> Pairs) -> Set {
    let mut random = Random(2026 + n as u64);
    let objectives = (0..DRAWN).map(|_| weighted(&mut random, n, &pairs)).collect();
    Set { name, n, objectives }
}

fn weighted(random: &mut Random, n: usize, pairs: &impl Fn(&mut Random) -> Pairs) -> Objective {
    let mut o =
        Objective { n: n as u32, budget: u32::MAX, fixings: vec![2; n], ..Objective::default() };
    o.weights = (0..n).map(|_| random.between(-100, 100)).collect();
    for (i, j) in pairs(random) {
        let w = random.between(1, 100);
        o.push_term(i, j, if random.chance(50) { w } else { -w });
    }
    o
}

/// `edges` different pairs, or all there are.
fn sparse(random: &mut Random, n: usize, edges: usize) -> Pairs {
    let mut pairs = all_pairs(0, n);
    random.shuffle(&mut pairs);
    pairs.truncate(edges);
    pairs
}

/// Cliques side by side, the last of each tied to the first of the next.
fn cliques(n: usize, size: usize) -> Pairs {
    let mut pairs = Vec::new();
    for from in (0..n).step_by(size) {
        pairs.extend(all_pairs(from, n.min(from + size)));
        if from + size < n {
            pairs.push((from + size - 1, from + size));
        }
    }
    pairs
}
