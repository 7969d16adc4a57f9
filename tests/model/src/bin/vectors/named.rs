//! The paper's own examples, in the text form with semicolons.
use model::objective::{Objective, LARGEST};
use model::shapes::all_pairs;
use model::text::{objective_text, read_within, with_semicolons};

pub fn parsed(line: &str) -> Objective {
    let text = line.replace(';', "\n");
    read_within(text.as_bytes(), 1 << 20, 4096).expect("a well-formed objective")
}

pub fn line(o: &Objective) -> String {
    with_semicolons(&objective_text(o))
}

/// A to J with ample units, then K's sizes, totals and blocks.
pub fn complete() -> Vec<(&'static str, String)> {
    let mut list: Vec<(&str, String)> = [
        ("A", "0 15 100 0;;;"),
        ("A at budget 0", "0 15 0 0;;;"),
        ("B", "1 1 100 0;0;2;"),
        ("C", "1 1 100 0;-5;2;"),
        ("D", "2 1 100 1;-3 -4;2 2;0 1 5;"),
        ("E at budget 3", "3 1 3 3;-2 -10 -10;2 2 2;0 1 3;0 2 3;1 2 2;"),
        ("F, ample", "4 3 100 3;-3 0 0 0;2 2 2 2;0 1 2;0 2 2;0 3 2;"),
        ("G, ample", "4 3 100 3;-1 0 0 0;2 2 2 2;0 1 1;0 2 1;0 3 1;"),
        ("H", "2 4 100 1;-3 -4;2 2;0 1 5;"),
        ("I", "2 4 100 1;0 7;2 2;0 1 -4;"),
        ("J", "4 8 100 3;0 0 -1 -1;2 2 2 2;0 1 1;1 2 2;2 3 -1;"),
        ("one edge, small block only: no cut", "2 8 100 1;-3 -4;2 2;0 1 5;"),
        ("a block with an empty boundary", "5 8 100 3;1 -1 2 -3 1;2 2 2 2 2;0 1 1;1 2 -2;3 4 1;"),
    ]
    .map(|(name, text)| (name, text.to_string()))
    .into();
    list.push(("K: n 64, all weights 0", line(&ring(64, 15, 0))));
    list.push(("K: n 64, a ring, low degree", line(&ring(64, 1, 3))));
    list.push(("K: n 64, a ring, small block only", line(&ring(64, 8, 3))));
    list.push(("K: total exactly 2^40 in one weight", total(vec![LARGEST], vec![])));
    list.push(("K: total exactly 2^40 below zero", total(vec![-LARGEST], vec![])));
    list.push(("K: total exactly 2^40 in a pair", total(vec![0, 0], vec![(0, 1, -LARGEST)])));
    list.push((
        "K: total exactly 2^40 in all",
        total(vec![1 - LARGEST / 2, LARGEST / 4], vec![(0, 1, LARGEST / 4 + 1)]),
    ));
    list.push(("K: clique of 8 on one separator", line(&hung(8, 1))));
    list.push(("K: clique of 9 on one separator, taken through a block of 8", line(&hung(9, 1))));
    list.push(("K: clique of 9 on two separators, not taken", line(&hung(9, 2))));
    list.push(("K: clique of 8 on two separators", line(&hung(8, 2))));
    list.push(("K: clique of 10 on one separator, not taken", line(&hung(10, 1))));
    list
}

/// Those that are cut short; they stand in the list of budgets.
pub fn cut_short() -> Vec<(&'static str, String)> {
    [
        ("E at budget 1", "3 1 1 3;-2 -10 -10;2 2 2;0 1 3;0 2 3;1 2 2;"),
        ("F at budget 1", "4 3 1 3;-3 0 0 0;2 2 2 2;0 1 2;0 2 2;0 3 2;"),
        ("G at budget 1", "4 3 1 3;-1 0 0 0;2 2 2 2;0 1 1;0 2 1;0 3 1;"),
        ("J at budget 0", "4 8 0 3;0 0 -1 -1;2 2 2 2;0 1 1;1 2 2;2 3 -1;"),
        ("D at budget 0", "2 1 0 1;-3 -4;2 2;0 1 5;"),
    ]
    .map(|(name, text)| (name, text.to_string()))
    .into()
}

fn total(weights: Vec<i64>, terms: Vec<(usize, usize, i64)>) -> String {
    let n = weights.len();
    let mut o =
        Objective { n: n as u32, switches: 1, budget: 100, weights, ..Objective::default() };
    o.fixings = vec![2; n];
    terms.into_iter().for_each(|(i, j, w)| o.push_term(i, j, w));
    assert_eq!(o.total(), LARGEST as i128);
    line(&o)
}

fn ring(n: usize, switches: u32, scale: i64) -> Objective {
    let weights = (0..n).map(|i| scale * ((i * 7 % 5) as i64 - 2)).collect();
    let mut o = Objective { n: n as u32, switches, budget: 4160, weights, ..Objective::default() };
    o.fixings = vec![2; n];
    for i in 0..n {
        o.push_term(i, (i + 1) % n, scale * ((i * 11 % 7) as i64 - 3));
    }
    o
}

/// A clique whose every member is tied to each separator, and a tail of three
/// cliques' worth behind the separators, too large to be a block itself.
fn hung(members: usize, separators: usize) -> Objective {
    let tail = 12;
    let n = members + separators + tail;
    let weights = (0..n).map(|i| (i * 5 % 7) as i64 - 4).collect();
    let mut o =
        Objective { n: n as u32, switches: 8, budget: 4160, weights, ..Objective::default() };
    o.fixings = vec![2; n];
    let mut pairs = all_pairs(0, members);
    pairs.extend(all_pairs(members + separators, n));
    for s in members..members + separators {
        pairs.extend((0..members).chain(members + separators..n).map(|i| (i, s)));
    }
    for (i, j) in pairs {
        o.push_term(i, j, [1, -2, 3, -1, 2][(i * 3 + j) % 5]);
    }
    o
}
