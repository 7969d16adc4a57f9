//! A call's outputs in the model's form, and what every test asks of a call.
#![allow(dead_code)]
mod lent;
use balecreak::{calls, Record, Refusal, State};
pub use lent::Lent;
use model::graph::Graph;
use model::local::Step;
use model::objective::Objective;
use model::run::{Counts, Reduction};
use std::path::PathBuf;

impl Lent {
    /// The outputs of a call that was not refused.
    pub fn as_model(&self) -> Reduction {
        let record = Record::from_bytes(&self.block).expect("a written block is right");
        let c = &self.counts;
        assert_eq!((c[11], c[12]), (c[8], c[10] + c[11]), "blocks twice, and units");
        assert!(c[13] < 2);
        Reduction {
            n: record.decisions() as u32,
            constant: record.constant(),
            states: (0..record.decisions()).map(|i| state_byte(&record, i)).collect(),
            steps: record.steps().map(step).collect(),
            remaining: record.remaining().collect(),
            linear: self.linear.clone(),
            edges: self.edges.clone(),
            counts: Counts {
                eliminated: c[0],
                degree_three_eliminated: c[1],
                degree_three_skipped: c[2],
                contracted: c[3],
                weak_contractions: c[4],
                additional_fixed: c[5],
                remaining: c[6],
                passes: c[7],
                blocks_eliminated: c[8],
                block_variables: c[9],
                takes: c[10],
            },
            units: c[12],
            complete: c[13] == 1,
        }
    }
}

fn state_byte(record: &Record, i: usize) -> u8 {
    match record.state(i).unwrap() {
        State::Fixed(value) => u8::from(value),
        State::Remaining => 2,
        State::Eliminated => 3,
    }
}

fn step(step: balecreak::Step) -> Step {
    Step {
        decision: step.decision.into(),
        neighbours: step.neighbours.into_iter().map(usize::from).collect(),
        choices: step.choices.into_iter().map(u8::from).collect(),
    }
}

/// Both runs gave the same, field by field.
pub fn same(ours: &Reduction, theirs: &Reduction) {
    assert_eq!(format!("{ours:?}"), format!("{theirs:?}"));
}

pub fn number(result: Result<(), Refusal>) -> u32 {
    result.map_or_else(Refusal::number, |()| 0)
}

/// A copy says what a check says. It is the block again where that is 0; where it is not, or the
/// output is not 512 long, the output is as it was.
pub fn copies(block: &[u8]) {
    let said = number(calls::check(block));
    let before = vec![7; 512];
    let mut out = before.clone();
    assert_eq!(number(calls::copy(block, &mut out)), said);
    assert_eq!(out, if said == 0 { block } else { &before });
    for long in [0, 1, 511, 513, 1024] {
        let mut out = vec![7; long];
        assert_eq!(number(calls::copy(block, &mut out)), 9);
        assert_eq!(out, vec![7; long]);
    }
}

/// From the root of the repository.
pub fn path(name: &str) -> PathBuf {
    PathBuf::from(env!("CARGO_MANIFEST_DIR")).join("../..").join(name)
}

/// `COUNT*VALUE COUNT*VALUE ...`
pub fn list<T: std::str::FromStr + Clone>(text: &str) -> Vec<T> {
    let run = |part: &str| -> Option<Vec<T>> {
        let (count, value) = part.split_once('*')?;
        Some(vec![value.parse().ok()?; count.parse().ok()?])
    };
    text.split_whitespace().flat_map(|part| run(part).expect("COUNT*VALUE")).collect()
}

/// Demand 3 of an objective: every answer grown back costs, in the objective as it was given, what
/// it costs in the reduced one; and no plan that keeps the fixings costs less than its projection.
pub fn every_plan(o: &Objective) {
    let mut lent = Lent::fresh();
    assert_eq!(number(lent.reduce(o)), 0);
    let record = Record::from_bytes(&lent.block).unwrap();
    let original = Graph::built(o);
    let r = lent.counts[6] as usize;
    assert_eq!(record.remaining().count(), r);
    for answer in plans(r) {
        let plan = record.grow_back(&answer).unwrap();
        assert_eq!(original.cost(&plan), reduced_cost(&record, &lent, &answer));
        assert!(keeps_fixings(o, &plan));
        assert_eq!(record.project(&plan).unwrap(), answer);
    }
    for plan in plans(o.n as usize).filter(|plan| keeps_fixings(o, plan)) {
        let answer = record.project(&plan).unwrap();
        let cost = original.cost(&plan);
        assert!(reduced_cost(&record, &lent, &answer) <= cost);
        assert!(original.cost(&record.grow_back(&answer).unwrap()) <= cost);
    }
}

fn plans(count: usize) -> impl Iterator<Item = Vec<u8>> {
    (0..1u64 << count).map(move |m| (0..count).map(|k| (m >> k & 1) as u8).collect())
}

fn keeps_fixings(o: &Objective, plan: &[u8]) -> bool {
    o.fixings.iter().zip(plan).all(|(&f, &x)| f == 2 || f == x)
}

fn reduced_cost(record: &Record, lent: &Lent, answer: &[u8]) -> i64 {
    let on = |i: usize| answer[i] == 1;
    let mut cost = record.constant();
    for i in (0..answer.len()).filter(|&i| on(i)) {
        cost += lent.linear[i];
        cost += (0..i).filter(|&j| on(j)).map(|j| lent.edges[64 * i + j]).sum::<i64>();
    }
    cost
}
